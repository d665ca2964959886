//! How many rows of a score there were of each outcome.

use crate::answers::Outcome;
use crate::outcome::TOLD;

#[derive(Default)]
pub struct Tally {
    pub played: usize,
    pub refused: usize,
    pub failed: usize,
    pub not_played: usize,
    /// The first that were refused in words.
    pub told: Vec<String>,
}

impl Tally {
    pub fn add(&mut self, line: usize, outcome: &Outcome) {
        match outcome {
            Outcome::Played { .. } => self.played += 1,
            Outcome::Refused(fault) => {
                self.refused += 1;
                if self.told.len() < TOLD {
                    self.told.push(format!("refused: line {line}: {}", fault.reason));
                }
            }
            Outcome::Failed(_) => self.failed += 1,
            Outcome::NotPlayed => self.not_played += 1,
        }
    }

    /// Whether every one of so many ordered rows has its outcome.
    pub fn is_whole(&self, ordered: usize) -> bool {
        self.played + self.refused + self.failed + self.not_played == ordered
    }

    /// The outcomes as they make up the rows that were ordered.
    pub fn text(&self, ordered: usize) -> String {
        let Tally { played, refused, failed, not_played, .. } = self;
        let mut text = format!("{ordered} events ordered = {played} played + {refused} refused");
        for (number, word) in [(failed, "failed"), (not_played, "not played")] {
            if *number > 0 {
                text += &format!(" + {number} {word}");
            }
        }
        text
    }
}
