//! What became of an ordered note.

use crate::checksum::Checksum;
use crate::levels::Told;
use crate::note::{Fault, clipped};
use crate::order::Order;
use crate::part::Whole;
use crate::wave::Wave;
use std::io;

pub enum Outcome {
    Rendered(Box<Rendered>),
    /// An earlier run rendered it, and nothing has changed since.
    Kept(Box<Rendered>),
    /// The row asks for no note.
    Refused(Fault),
    /// The machine could not do it.
    Failed(String),
    /// The run was stopped before.
    NotRendered,
}

/// What was rendered.
pub struct Rendered {
    pub frames: u64,
    pub peak: f32,
    pub burst: u64,
    pub dust: u64,
    pub dispersion: u64,
    pub told: Told,
    /// None where a run was stopped before it could look into a file of an earlier one.
    pub wave: Option<Wave>,
    pub checksum: Checksum,
    /// The file, until it has its name; none where an earlier run rendered it.
    pub file: Option<Whole>,
}

impl Outcome {
    /// A note whose file the machine did not take.
    pub fn unwritten(error: &io::Error) -> Self {
        Outcome::Failed(format!("its file cannot be written: {}", clipped(&error.to_string())))
    }

    /// What is known of an order before it is played.
    pub fn unplayed(order: &Order) -> Self {
        order
            .note
            .as_ref()
            .map_or_else(|fault| Outcome::Refused(fault.clone()), |_| Outcome::NotRendered)
    }
}

/// How many notes there were of each outcome, and the first that were refused, failed or warned of in words.
#[derive(Debug, Default, Clone)]
pub struct Sum {
    pub ordered: usize,
    pub rendered: usize,
    pub kept: usize,
    pub refused: usize,
    pub failed: usize,
    pub not_rendered: usize,
    /// Of those rendered or kept.
    pub warned: usize,
    /// The refused and failed, and those warned of.
    pub told: [Vec<String>; 2],
}

/// The notes of a list that are told on the terminal.
pub const TOLD: usize = 20;

impl Sum {
    pub fn add(&mut self, order: &Order, outcome: &Outcome) {
        self.ordered += 1;
        match outcome {
            Outcome::Rendered(rendered) => {
                self.rendered += 1;
                self.warn(order, rendered);
            }
            Outcome::Kept(kept) => {
                self.kept += 1;
                self.warn(order, kept);
            }
            Outcome::Refused(fault) => {
                self.refused += 1;
                self.tell(0, "refused", order, &fault.reason);
            }
            Outcome::Failed(reason) => {
                self.failed += 1;
                self.tell(0, "failed", order, reason);
            }
            Outcome::NotRendered => self.not_rendered += 1,
        }
    }

    fn warn(&mut self, order: &Order, rendered: &Rendered) {
        if !rendered.told.warning.is_empty() {
            self.warned += 1;
            self.tell(1, "warning", order, &rendered.told.warning);
        }
    }

    fn tell(&mut self, list: usize, status: &str, order: &Order, reason: &str) {
        if self.told[list].len() < TOLD {
            let (line, name) = (order.row.line, order.name());
            self.told[list].push(format!("{status}: line {line}, {name}: {reason}"));
        }
    }

    /// The outcomes as they make up the notes that were ordered.
    pub fn text(&self) -> String {
        let Sum { ordered, rendered, kept, refused, failed, not_rendered, .. } = *self;
        let mut text = format!("{ordered} notes ordered = {rendered} rendered");
        let more = [
            (kept, "kept"),
            (refused, "refused"),
            (failed, "failed"),
            (not_rendered, "not rendered"),
        ];
        for (number, word) in more {
            if number > 0 || word == "refused" {
                text += &format!(" + {number} {word}");
            }
        }
        text
    }

    /// The outcomes whichever run rendered the notes.
    pub fn of_all_runs(&self) -> Self {
        Sum { rendered: self.rendered + self.kept, kept: 0, ..self.clone() }
    }

    /// Whether every one of so many ordered notes has its outcome.
    pub fn is_whole(&self, ordered: usize) -> bool {
        let outcomes = self.rendered + self.kept + self.refused + self.failed + self.not_rendered;
        [self.ordered, outcomes] == [ordered; 2]
    }
}
