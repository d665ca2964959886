//! A folder looked through: every file of its catalogue is there, and is the one that was rendered.

use crate::catalogue;
use crate::checksum::{self, Checksum};
use crate::command::Verifying;
use crate::lines::Lines;
use crate::note::note_of;
use crate::order::Order;
use crate::outcome::{Outcome, TOLD};
use crate::render::render;
use crate::report::{complain, list, say};
use crate::stop::Stop;
use crate::work::{Work, in_order};
use std::fs::{self, File, TryLockError};
use std::io;
use std::path::Path;

/// What became of a file of a catalogue.
#[derive(Debug, Clone, PartialEq, Eq)]
enum Found {
    Whole,
    /// In words.
    Wrong(String),
}

/// How many files there are of each kind, and the first that are wrong in words.
#[derive(Default)]
struct Sum {
    listed: usize,
    wrong: usize,
    told: Vec<String>,
}

/// Looks through a folder, and says whether every file is whole.
pub fn verify(asked: &Verifying, stop: &Stop) -> Result<bool, String> {
    let folder = &asked.folder;
    let shown = folder.display();
    let unread = |error| format!("{shown} cannot be read: {error}");
    let lock = File::open(folder).map_err(unread)?;
    if let Err(TryLockError::WouldBlock) = lock.try_lock_shared() {
        return Err(format!("a run renders to {shown}: wait until it ends"));
    }
    let text = fs::read(folder.join(catalogue::FILE)).map_err(unread)?;
    if !catalogue::is_ours(&text) {
        return Err(format!("{shown} has no catalogue of a run: name the folder of one"));
    }
    let files = Lines::new(&text).filter_map(|(_, line)| catalogue::file_line(line));
    let scratch = Scratch::new().map_err(|error| format!("no temporary folder: {error}"))?;
    let work = Work {
        play: |cells: &Vec<String>| look(cells, asked, &scratch.0, stop),
        halted: Found::Wrong,
    };
    let mut sum = Sum::default();
    let left = in_order(files, asked.jobs, stop, &work, |cells, found| {
        sum.listed += 1;
        if let Found::Wrong(why) = found {
            sum.wrong += 1;
            if sum.told.len() < TOLD {
                sum.told.push(format!("{}: {why}", cells[2]));
            }
        }
        Ok(())
    });
    let left = left.map_err(unread)?.count();
    list(&sum.told, sum.wrong - sum.told.len(), "of this folder");
    let Sum { listed, wrong, .. } = sum;
    let whole = listed - wrong;
    say(&format!("{} files listed = {whole} whole + {wrong} wrong", listed + left));
    if left > 0 {
        complain(&format!("stopped: {left} files were not looked at"));
    }
    Ok(wrong == 0 && left == 0)
}

/// What became of the file that a line lists.
fn look(cells: &[String], asked: &Verifying, scratch: &Path, stop: &Stop) -> Found {
    let (file, listed) = (&cells[2], cells.last().and_then(|text| Checksum::read(text)));
    let Some(listed) = listed else {
        return Found::Wrong("it is listed without a checksum: render it again".into());
    };
    match checksum::of_file(&asked.folder.join(file)) {
        Ok(found) if found != listed => Found::Wrong("it is not as it was rendered".into()),
        Ok(_) if asked.is_again => again(cells, listed, scratch, stop),
        Ok(_) => Found::Whole,
        Err(error) => Found::Wrong(error.to_string()),
    }
}

/// Renders what a line lists anew, and compares.
fn again(cells: &[String], listed: Checksum, scratch: &Path, stop: &Stop) -> Found {
    let Some((row, settings)) = catalogue::again(cells) else {
        return Found::Wrong("its line is not one of a catalogue".into());
    };
    let note = match note_of(&row, settings.rate) {
        Ok(note) => note,
        Err(fault) => return Found::Wrong(fault.reason),
    };
    let order = Order { row, note: Ok(note) };
    match render(&order, &note, &settings, &scratch.join(&cells[2]), stop) {
        Outcome::Rendered(rendered) if rendered.checksum == listed => Found::Whole,
        Outcome::Rendered(_) => {
            let (made, here) = (&cells[cells.len() - 2], catalogue::version());
            Found::Wrong(match *made == here {
                true => "rendered anew it is another file".into(),
                false => format!("rendered anew by {here} it is another file than by {made}"),
            })
        }
        Outcome::Refused(fault) => Found::Wrong(fault.reason),
        Outcome::Failed(reason) => Found::Wrong(reason),
        Outcome::Kept(_) | Outcome::NotRendered => Found::Wrong("it was not rendered anew".into()),
    }
}

/// A temporary folder, removed with it.
struct Scratch(std::path::PathBuf);

impl Scratch {
    fn new() -> io::Result<Self> {
        let name = format!("bleidhvan-verify-{}", std::process::id());
        let path = std::env::temp_dir().join(name);
        fs::create_dir(&path)?;
        Ok(Scratch(path))
    }
}

impl Drop for Scratch {
    fn drop(&mut self) {
        drop(fs::remove_dir_all(&self.0));
    }
}
