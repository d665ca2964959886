//! Renders sheets of notes, and plays scores.

#![deny(unsafe_code)]

mod answers;
mod blocks;
mod catalogue;
#[cfg(test)]
mod chance;
mod checksum;
mod claim;
mod command;
mod cut;
mod data;
mod deflate;
mod folder;
mod format;
mod fourier;
mod help;
mod input;
mod known;
mod levels;
mod lines;
mod loudness;
mod name;
mod note;
mod order;
mod outcome;
mod output;
mod page;
mod pages;
mod part;
mod performance;
mod piece;
mod pitch;
mod place;
mod play;
mod player;
mod playing;
mod png;
mod progress;
#[cfg(test)]
mod random_scores;
#[cfg(test)]
mod random_sheets;
mod render;
mod report;
mod room;
mod run;
mod score;
mod settings;
mod sfz;
mod shape;
mod sheet;
mod sndfile;
mod sounding;
mod spectrum;
mod stop;
mod tail;
mod tally;
#[cfg(test)]
mod tests;
mod time;
mod verify;
mod wave;
mod words;
mod work;

use command::{Asked, Command};
use folder::Folder;
use help::HELP;
use progress::Progress;
use report::{complain, say};
use run::Run;
use sheet::Sheet;
use std::io::{self, ErrorKind};
use std::panic;
use std::path::Path;
use std::process::ExitCode;
use std::thread;
use stop::Stop;

/// The exit statuses, as --help names them.
const REFUSED: u8 = 1;
const WRONG: u8 = 2;
const FAILED: u8 = 3;

fn main() -> ExitCode {
    let words: Vec<_> = std::env::args_os().skip(1).collect();
    if words.is_empty() {
        say(HELP);
        return ExitCode::from(WRONG);
    }
    let status = command::read(words).and_then(|command| match command {
        Command::Render(asked) => render_sheet(&asked),
        Command::Play(asked) => play::play(&asked, &listen()?),
        Command::Verify(asked) => {
            let stop = listen()?;
            let is_whole = verify::verify(&asked, &stop)?;
            Ok(if stop.is_asked() { stop.status() } else { (!is_whole).into() })
        }
        Command::Help => {
            say(HELP);
            Ok(0)
        }
        Command::Version => {
            say(&format!("bleidhvan {}", env!("CARGO_PKG_VERSION")));
            Ok(0)
        }
    });
    status.map_or_else(|message| wrong(&message), ExitCode::from)
}

fn wrong(message: &str) -> ExitCode {
    complain(message);
    ExitCode::from(WRONG)
}

/// Renders the sheet, and gives the exit status.
fn render_sheet(asked: &Asked) -> Result<u8, String> {
    let (text, read) = input::read(&asked.sheet)?;
    let shown = asked.sheet.display();
    let sheet = Sheet::new(&text).map_err(|error| format!("{shown}: {error}"))?;
    let ordered = lines::counted(&text);
    if ordered == 0 {
        complain(&format!("{shown} orders no note: it has a header, and no line behind it"));
        return Ok(REFUSED);
    }
    let folder = Folder::hold(&asked.folder, (asked.sheet.clone(), read))?;
    folder.look(ordered)?;
    look_at_piece(asked, &folder)?;
    let stop = listen()?;
    let unwritable = |error| unwritten(&asked.folder, &error);
    let known = folder.known().map_err(unwritable)?;
    let (settings, is_forced) = (&asked.sounding.settings, asked.is_forced);
    // A job more than there are notes would have nothing to do.
    let jobs = asked.jobs.min(ordered);
    let (folder, known, stop) = (&folder, &known, &stop);
    let piece = asked.piece.as_deref();
    let run = Run { folder, known, settings, ordered, jobs, stop, is_forced, piece };
    let progress = Progress::new(asked.is_quiet, ordered, "notes");
    let done = run.run(sheet.part_from(asked.first_line), |order| {
        let outcome = run.play(order);
        progress.one();
        outcome
    });
    progress.end();
    let (sum, stale) = done.map_err(unwritable)?;
    report::told(asked, ordered, &sum, &stale)?;
    Ok(match (sum.failed, sum.refused) {
        _ if stop.is_asked() => {
            complain("stopped: the same command goes on from here");
            stop.status()
        }
        (1.., _) => FAILED,
        (_, 1..) => REFUSED,
        _ => 0,
    })
}

/// Looks that the piece which the page plays is there.
fn look_at_piece(asked: &Asked, folder: &Folder) -> Result<(), String> {
    let Some(piece) = asked.piece.as_ref().map(|piece| folder.file(piece)) else { return Ok(()) };
    let shown = piece.display();
    if piece.is_file() {
        return Ok(());
    }
    Err(format!("{shown} is not there: write 'bleidhvan play SCORE -o {shown}' before"))
}

/// Why a folder could not be written, and what to do.
fn unwritten(folder: &Path, error: &io::Error) -> String {
    let folder = folder.display();
    match error.kind() {
        ErrorKind::OutOfMemory => "there is no memory for one job: give it some 40 MB".into(),
        ErrorKind::StorageFull | ErrorKind::QuotaExceeded => format!(
            "{folder} has no room for the catalogue and its page: make some, and run this again"
        ),
        _ => format!("{folder} cannot be written: {error}"),
    }
}

/// Listens to signals, and lets no worker speak by itself.
fn listen() -> Result<Stop, String> {
    hush_workers();
    Stop::listen().map_err(|error| format!("signals cannot be listened to: {error}"))
}

/// Lets a worker that halts say so in its note's outcome alone.
fn hush_workers() {
    let loud = panic::take_hook();
    panic::set_hook(Box::new(move |info| {
        if thread::current().name() != Some(work::WORKER) {
            loud(info);
        }
    }));
}
