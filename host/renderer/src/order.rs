//! The ordered notes of a sheet: which are rendered and which refused is settled before any is played.

use crate::name::{Names, name_of};
use crate::note::{Fault, Note, ask, note_of};
use crate::settings::Settings;
use crate::sheet::{Row, Sheet};
use bleidhvan::Bank;

/// A row, and the note that it orders or why it is refused.
pub struct Order {
    pub row: Row,
    pub note: Result<Note, Fault>,
}

impl Order {
    /// The name as the sheet has it.
    pub fn name(&self) -> &str {
        self.row.cells[0].trim()
    }
}

/// The orders of a sheet, in its order.
pub struct Orders<'a> {
    sheet: Sheet<'a>,
    settings: Settings,
    names: Names,
    bank: Bank,
}

impl<'a> Orders<'a> {
    pub fn new(sheet: Sheet<'a>, settings: &Settings) -> Self {
        Orders { sheet, settings: *settings, names: Names::default(), bank: Bank::new(0) }
    }

    /// The note of a row. A row that is refused takes no name from a later one.
    fn note(&mut self, row: &Row) -> Result<Note, Fault> {
        if let Some(fault) = &row.fault {
            return Err(Fault::row(fault.clone()));
        }
        let name = name_of(row)?;
        let rate = self.settings.rate;
        let note = note_of(row, rate)?;
        ask(&mut self.bank, &note, rate).map_err(|refusal| Fault::refusal(refusal, row, rate))?;
        if self.settings.frames(&note) > self.settings.most_frames() {
            let reason =
                "the note is longer than a WAV file can be: write fewer seconds, or --format flac";
            return Err(Fault::row(reason.into()));
        }
        self.names.take(name, row.line)?;
        Ok(note)
    }
}

impl Iterator for Orders<'_> {
    type Item = Order;

    fn next(&mut self) -> Option<Order> {
        let row = self.sheet.next()?;
        let note = self.note(&row);
        Some(Order { row, note })
    }
}
