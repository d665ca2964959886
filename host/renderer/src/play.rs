//! The command play: a score becomes a piece, and every row has its answer.

use crate::answers::{self, MORE, Outcome, file_line, line};
use crate::catalogue;
use crate::input;
use crate::levels::Told;
use crate::lines::counted;
use crate::note::{Fault, clipped};
use crate::part::Lines;
use crate::performance::{Failure, Performance, Performed};
use crate::place::{Place, name};
use crate::player::Answer;
use crate::playing::{Playing, Tail};
use crate::report::{complain, list, say};
use crate::score::{Answered, COLUMNS, Reading, Score};
use crate::settings::Settings;
use crate::sheet::Sheet;
use crate::stop::Stop;
use crate::tally::Tally;
use std::fmt::Write;
use std::io;
use std::path::{Path, PathBuf};

/// Plays a score, and gives the exit status.
pub fn play(asked: &Playing, stop: &Stop) -> Result<u8, String> {
    let (text, read) = input::read(&asked.score)?;
    let shown = asked.score.display();
    let sheet = Sheet::of(&text, COLUMNS).map_err(|error| format!("{shown}: {error}"))?;
    let ordered = counted(&text);
    if ordered == 0 {
        complain(&format!("{shown} orders no event: it has a header, and no line behind it"));
        return Ok(crate::REFUSED);
    }
    let place = Place::hold(asked, read)?;
    let settings = &asked.sounding.settings;
    let frames = settings.most_frames().saturating_sub(asked.tail_frames());
    let reading = Reading { rate: settings.rate, meter: asked.meter, frames };
    let score = Score::new(sheet.clone(), &reading);
    let run = Run { asked, place, sheet, score, stop };
    let (piece, tally) = run.run()?;
    run.tell(&piece, &tally, ordered)?;
    Ok(match (&piece.ended, tally.refused) {
        (Ended::Stopped, _) => stop.status(),
        (Ended::Failed(..), _) => crate::FAILED,
        (_, 1..) => crate::REFUSED,
        _ => 0,
    })
}

/// What became of a piece as a whole.
enum Ended {
    /// With what became of each cue.
    Played(Vec<Answer>),
    /// No row is played.
    Nothing,
    /// This file could not be written.
    Failed(PathBuf, io::Error),
    Stopped,
}

/// A piece, and its files that have their names.
struct Piece {
    ended: Ended,
    frames: u64,
    files: Vec<Named>,
}

struct Named {
    name: String,
    line: String,
    told: Told,
}

struct Run<'a> {
    asked: &'a Playing,
    place: Place,
    sheet: Sheet<'a>,
    score: Score,
    stop: &'a Stop,
}

impl Run<'_> {
    /// Plays the piece, and writes the report, whose room is made sure of before.
    fn run(&self) -> Result<(Piece, Tally), String> {
        let unwritten = |error: io::Error| match error.kind() {
            io::ErrorKind::StorageFull | io::ErrorKind::QuotaExceeded => {
                format!(
                    "{} has no room: make some, and run this again",
                    self.place.report.display()
                )
            }
            _ => unwritable(&self.place.report, &error),
        };
        let report = Lines::begin(&self.place.report, self.room(), answers::HEADER);
        let mut report = report.map_err(unwritten)?;
        let piece = self.perform()?;
        let tally = self.write(&piece, &mut report).map_err(unwritten)?;
        report.close().and_then(|whole| whole.name()).map_err(unwritten)?;
        Ok((piece, tally))
    }

    /// The most bytes that the report can come to.
    fn room(&self) -> u64 {
        let rows = self.sheet.clone().zip(&self.score.rows).map(|(row, answered)| {
            let refused = answered
                .fault
                .as_ref()
                .map(|fault| line(&row, &Outcome::Refused((**fault).clone())));
            refused.map_or_else(|| line(&row, &Outcome::NotPlayed).len() + MORE, |line| line.len())
                + 1
        });
        let of_file = |path: &PathBuf| 2 * name(path).len() + self.made().len() + 2 * MORE;
        let kept = self.place.known.iter().map(|known| known.line().len() + 1);
        let files = self.place.files.iter().map(of_file).chain(kept);
        (answers::HEADER.len() + 1 + rows.chain(files).sum::<usize>()) as u64
    }

    /// What made the files beside the score.
    fn made(&self) -> String {
        let Settings { seed, rate, format, level, fade, aux, .. } = self.asked.sounding.settings;
        let mut made = format!("seed={seed} rate={rate} format={format} {level} fade={fade}");
        if let Some(tempo) = self.asked.meter.tempo {
            write!(made, " tempo={tempo} beats={}", self.asked.meter.beats)
                .expect("a string takes all");
        }
        match self.asked.tail {
            Tail::Ring => made += " tail=ring",
            Tail::Seconds(seconds) => {
                write!(made, " tail={seconds}").expect("a string takes all");
            }
        }
        match (&self.asked.aux, aux) {
            (Some(_), _) => made += " aux=file",
            (None, true) => made += " aux=channel",
            _ => (),
        }
        if !self.asked.title.is_empty() {
            write!(made, " title='{}'", self.asked.title).expect("a string takes all");
        }
        format!("{made} {}", catalogue::version())
    }

    fn perform(&self) -> Result<Piece, String> {
        let without = |ended| Ok(Piece { ended, frames: 0, files: vec![] });
        if self.score.cues.is_empty() {
            return without(Ended::Nothing);
        }
        let asked = self.asked;
        let performance = Performance { score: &self.score, asked, stop: self.stop };
        let paths: Vec<&Path> = self.place.files.iter().map(|path| path.as_path()).collect();
        match performance.files(&paths, asked.is_quiet) {
            Ok(performed) => Ok(self.named(performed)),
            Err(Failure::Stopped) => without(Ended::Stopped),
            Err(Failure::Unwritten(error)) => without(Ended::Failed(asked.piece.clone(), error)),
            Err(Failure::Refused(refusal)) => {
                Err(format!("the bank refused a block: {refusal}; this is a fault of bleidhvan"))
            }
        }
    }

    /// Gives the files their names.
    fn named(&self, Performed { frames, answers, files }: Performed) -> Piece {
        let mut piece = Piece { ended: Ended::Played(answers), frames, files: vec![] };
        for (path, heard) in self.place.files.iter().zip(files) {
            let line = file_line(&name(path), frames, &heard, &self.made());
            match heard.whole.name() {
                Ok(()) => piece.files.push(Named { name: name(path), line, told: heard.told }),
                Err(error) => piece.ended = Ended::Failed(path.clone(), error),
            }
        }
        piece
    }

    /// Writes every row's line, and those of the files, also of those that an earlier run wrote and that are left.
    fn write(&self, piece: &Piece, report: &mut Lines) -> io::Result<Tally> {
        let mut cues = vec![None; self.score.rows.len()];
        for (place, cue) in self.score.cues.iter().enumerate() {
            cues[cue.row] = Some(place);
        }
        let mut tally = Tally::default();
        for ((row, answered), cue) in self.sheet.clone().zip(&self.score.rows).zip(cues) {
            let outcome = self.outcome(answered, cue, &piece.ended);
            tally.add(answered.line, &outcome);
            report.line(&line(&row, &outcome))?;
        }
        for named in &piece.files {
            report.line(&named.line)?;
        }
        for known in &self.place.known {
            if piece.files.iter().all(|named| named.name != known.name) {
                report.line(&known.line())?;
            }
        }
        Ok(tally)
    }

    /// What became of a row, whose cue has that place.
    fn outcome(&self, answered: &Answered, cue: Option<usize>, ended: &Ended) -> Outcome {
        match (&answered.fault, ended, cue) {
            (Some(fault), ..) => Outcome::Refused((**fault).clone()),
            (None, Ended::Played(answers), Some(cue)) => match &answers[cue] {
                Ok(words) => Outcome::Played { frame: self.score.cues[cue].frame, words: *words },
                Err(refusal) => {
                    let (number, reason) = (Some(refusal.number()), refusal.to_string());
                    Outcome::Refused(Fault { number, reason, ..Fault::default() })
                }
            },
            (None, Ended::Failed(path, error), _) => {
                Outcome::Failed(unwritable(Path::new(&name(path)), error))
            }
            _ => Outcome::NotPlayed,
        }
    }

    /// Says what became of the rows, which must be as many as the lines that order them, and of the piece.
    fn tell(&self, piece: &Piece, tally: &Tally, ordered: usize) -> Result<(), String> {
        let text = tally.text(ordered);
        if !tally.is_whole(ordered) {
            return Err(format!(
                "{ordered} lines order events, and of these were accounted for: {text}; this is a fault of bleidhvan"
            ));
        }
        let report = self.place.report.display();
        if !self.asked.is_quiet {
            list(&tally.told, tally.refused - tally.told.len(), &format!("which {report} names"));
            self.warn(piece);
            say(&text);
            for Named { name, told, .. } in &piece.files {
                say(&format!("{name} has {}", self.levels(piece, told)));
            }
            say(&format!("{report} has every row's answer"));
        }
        match &piece.ended {
            Ended::Played(_) => (),
            Ended::Nothing => complain("no row can be played, so no piece is written"),
            Ended::Failed(path, error) => complain(&unwritable(path, error)),
            Ended::Stopped => {
                complain("stopped: no piece is written, and the same command begins anew")
            }
        }
        Ok(())
    }

    fn warn(&self, piece: &Piece) {
        for Named { name, told, .. } in &piece.files {
            if !told.warning.is_empty() {
                list(&[format!("warning: {name}: {}", told.warning)], 0, "");
            }
        }
    }

    fn levels(&self, piece: &Piece, Told { peak, loudness, .. }: &Told) -> String {
        let seconds = piece.frames as f64 / f64::from(self.asked.sounding.settings.rate);
        let unit = |number: &str, unit: &str| match number {
            "" => String::new(),
            _ => format!(", {number} {unit}"),
        };
        format!("{seconds:.2} seconds{}{}", unit(peak, "dBFS"), unit(loudness, "LUFS"))
    }
}

/// Why a file could not be written.
fn unwritable(path: &Path, error: &io::Error) -> String {
    format!("{} cannot be written: {}", path.display(), clipped(&error.to_string()))
}
