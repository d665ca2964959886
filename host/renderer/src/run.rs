//! A sheet rendered to a folder: every ordered note has its line, and the lines are in the sheet's order whatever the jobs.

use crate::catalogue::{self, file_of};
use crate::claim::in_the_way;
use crate::folder::Folder;
use crate::known::{Known, Stale};
use crate::name::key;
use crate::order::{Order, Orders};
use crate::outcome::{Outcome, Rendered, Sum};
use crate::pages::Pages;
use crate::part::Lines;
use crate::piece::Notes;
use crate::render::render;
use crate::room::Room;
use crate::settings::Settings;
use crate::sfz;
use crate::sheet::Sheet;
use crate::stop::Stop;
use crate::work::{Work, in_order};
use std::collections::HashMap;
use std::io;

/// Where and how a sheet is rendered.
pub struct Run<'a> {
    pub folder: &'a Folder,
    pub known: &'a Known,
    pub settings: &'a Settings,
    /// The notes that the sheet orders.
    pub ordered: usize,
    pub jobs: usize,
    pub stop: &'a Stop,
    /// Whether nothing of earlier runs is kept.
    pub is_forced: bool,
    /// The file in the folder that the page plays on top.
    pub piece: Option<&'a str>,
}

/// What a run has written so far.
struct Written {
    /// The catalogue: a line is there before its note's file has its name, so that a run that is cut off leaves no file that
    /// nobody knows.
    journal: Lines,
    pages: Pages,
    sfz: Lines,
    sum: Sum,
    /// The files of this run, by what they are to file systems.
    files: HashMap<String, String>,
}

impl Run<'_> {
    /// What becomes of an order.
    pub fn play(&self, order: &Order) -> Outcome {
        let Ok(note) = &order.note else { return Outcome::unplayed(order) };
        if !self.is_forced
            && let Some(kept) = self.kept(order)
        {
            return Outcome::Kept(kept);
        }
        let path = self.folder.file(&self.file_of(order));
        render(order, note, self.settings, &path, self.stop)
    }

    fn file_of(&self, order: &Order) -> String {
        file_of(order.name(), self.settings.format)
    }

    /// The note of an earlier run, where nothing has changed since.
    fn kept(&self, order: &Order) -> Option<Box<Rendered>> {
        let (file, made) = (self.file_of(order), catalogue::made(order, self.settings));
        self.known.kept(self.folder, &file, made, self.settings, self.stop).map(Box::new)
    }

    /// Plays the orders of a sheet into the folder, and writes the catalogue and its pages.
    pub fn run(
        &self,
        sheet: Sheet,
        play: impl Fn(&Order) -> Outcome + Sync,
    ) -> io::Result<(Sum, Stale)> {
        let orders = || Orders::new(sheet.clone(), self.settings);
        let room = Room::of(orders(), self.settings);
        let piece = self.piece.map(str::to_string);
        let notes = Notes { ordered: self.ordered, settings: *self.settings, piece };
        let pages = Pages::begin(self.folder, &room, &notes)?;
        let catalogue = self.folder.file(catalogue::FILE);
        let mut journal = Lines::begin(&catalogue, room.catalogue, catalogue::HEADER)?;
        journal.leave();
        let sfz = Lines::begin(&self.folder.file(sfz::FILE), room.sfz, sfz::HEADER)?;
        let (sum, files) = (Sum::default(), HashMap::new());
        let mut written = Written { journal, pages, sfz, sum, files };
        let work = Work { play, halted: Outcome::Failed };
        let left = in_order(orders(), self.jobs, self.stop, &work, |order, outcome| {
            self.hand_over(&order, outcome, &mut written)
        })?;
        for order in left {
            self.hand_over(&order, Outcome::unplayed(&order), &mut written)?;
        }
        let Written { journal, pages, sfz, sum, files } = written;
        let (pages, sfz, journal) = (pages.close(&sum)?, sfz.close()?, journal.close()?);
        let stale = self.known.remove_stale(self.folder, &files);
        pages.name(self.folder)?;
        sfz.name()?;
        journal.name()?;
        self.folder.finish()?;
        Ok((sum, stale))
    }

    /// Writes an order's line, and gives its file the name.
    fn hand_over(&self, order: &Order, outcome: Outcome, written: &mut Written) -> io::Result<()> {
        let mut outcome = self.settled(order, outcome);
        let line = |outcome: &Outcome| catalogue::line(order, outcome, self.settings);
        written.journal.line(&line(&outcome))?;
        if let Outcome::Rendered(rendered) = &mut outcome
            && let Some(file) = rendered.file.take()
            && let Err(error) = file.name()
        {
            outcome = Outcome::unwritten(&error);
            written.journal.again(&line(&outcome))?;
        }
        if let Outcome::Rendered(_) | Outcome::Kept(_) = outcome {
            written.files.insert(key(&self.file_of(order)), self.file_of(order));
            written.sfz.line(&sfz::region(order, &self.file_of(order)))?;
        }
        written.sum.add(order, &outcome);
        written.pages.note(order, &outcome)
    }

    /// The outcome, where its file's name is free; of a note that failed or that a stop left, that of the run before.
    fn settled(&self, order: &Order, outcome: Outcome) -> Outcome {
        let format = self.settings.format;
        match &outcome {
            Outcome::Rendered(rendered) => {
                in_the_way(order, rendered, self.folder, self.known, format, self.is_forced)
                    .unwrap_or(outcome)
            }
            Outcome::Failed(_) => self.kept(order).map_or(outcome, Outcome::Kept),
            Outcome::NotRendered => {
                let made = catalogue::made(order, self.settings);
                let unread = self.known.unread(self.folder, &self.file_of(order), made);
                unread.map_or(outcome, |unread| Outcome::Kept(Box::new(unread)))
            }
            _ => outcome,
        }
    }
}

#[cfg(test)]
mod tests {
    use super::Run;
    use crate::catalogue::HEADER;
    use crate::known::Known;
    use crate::order::Order;
    use crate::outcome::Sum;
    use crate::sheet::{COLUMNS, Sheet};
    use crate::stop::Stop;
    use crate::tests::{SETTINGS, Scratch};

    /// Renders a sheet, halting at the notes whose names begin with 'halt'.
    fn run_that_halts(rows: &str, scratch: &Scratch, jobs: usize) -> Sum {
        let text = format!("{}\n{rows}", COLUMNS.join(","));
        let sheet = Sheet::new(text.as_bytes()).expect("a header");
        let (folder, known, stop) = (scratch.folder(), Known::default(), Stop::default());
        let run = Run {
            folder: &folder,
            known: &known,
            settings: &SETTINGS,
            ordered: rows.lines().count(),
            jobs,
            stop: &stop,
            is_forced: false,
            piece: None,
        };
        let play = |order: &Order| {
            assert!(!order.name().starts_with("halt"), "here");
            run.play(order)
        };
        run.run(sheet, play).expect("the folder is written").0
    }

    #[test]
    fn a_worker_that_halts_takes_no_note_with_it() {
        let rows: String = (0..60)
            .map(|k| {
                let name = if k % 7 == 3 { "halt" } else { "note" };
                format!("{name} {k},modal,A3,0.01,trigger,0.5,0.4,0.5,0.5\n")
            })
            .collect();
        for jobs in [1, 4] {
            let scratch = Scratch::new("halt");
            let sum = run_that_halts(&rows, &scratch, jobs);
            assert_eq!([sum.ordered, sum.rendered, sum.failed], [60, 51, 9]);
            assert!(sum.is_whole(60));
            let catalogue = scratch.read("catalogue.csv");
            let mut lines = catalogue.lines();
            assert_eq!(lines.next(), Some(HEADER));
            for (k, line) in lines.enumerate() {
                let at = k + 2;
                let halted =
                    format!("halt {k},failed,,,,,,,,,,,the renderer halted at it: here,{at},");
                let whole = format!("note {k},rendered,note {k}.wav,480,");
                assert!(line.starts_with(if k % 7 == 3 { &halted } else { &whole }), "{line}");
                assert_eq!(scratch.0.join(format!("note {k}.wav")).exists(), k % 7 != 3);
            }
        }
    }
}
