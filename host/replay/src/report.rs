//! What was compared of a file, and what differs.

use crate::file::File;
use std::fmt;

/// The rows that differ of which every difference is shown.
const SHOWN: usize = 5;

/// A word that came out otherwise than it is recorded.
#[derive(Debug, Clone, PartialEq, Eq)]
pub struct Difference {
    /// The row's number, from 0.
    pub row: usize,
    pub field: String,
    /// The place of the word in the row, none where the row has no word for it.
    pub word: Option<usize>,
    pub recorded: u32,
    /// What came out, none where nothing can be asked so.
    pub again: Option<u32>,
}

/// What was compared of a file, and what differs.
#[derive(Debug, Clone)]
pub struct Report {
    pub file: File,
    /// How many rows differ.
    pub differ: usize,
    /// All differences of the first five of them.
    pub differences: Vec<Difference>,
    /// What was compared, in lines.
    pub compared: Vec<String>,
}

impl Report {
    pub(crate) fn new(file: File) -> Self {
        Report { file, differ: 0, differences: Vec::new(), compared: Vec::new() }
    }

    /// Compares a row with what came out, word by word; gives whether it differs.
    pub(crate) fn compare(
        &mut self,
        row: usize,
        recorded: &[u32],
        again: &[u32],
        name: impl Fn(usize) -> String,
    ) -> bool {
        assert_eq!(recorded.len(), again.len(), "a row has all its words");
        let own = self.file.words();
        let differing = (0..recorded.len()).filter(|place| recorded[*place] != again[*place]);
        let difference = |place| Difference {
            row,
            field: name(place),
            word: (place < own).then_some(place),
            recorded: recorded[place],
            again: Some(again[place]),
        };
        self.note(differing.map(difference).collect())
    }

    /// Notes a row whose word at a place asks nothing.
    pub(crate) fn asks_nothing(&mut self, row: usize, word: usize, recorded: u32, field: String) {
        self.note(vec![Difference { row, field, word: Some(word), recorded, again: None }]);
    }

    /// Notes what differs in a row, if anything does.
    fn note(&mut self, differences: Vec<Difference>) -> bool {
        if differences.is_empty() {
            return false;
        }
        if self.differ < SHOWN {
            self.differences.extend(differences);
        }
        self.differ += 1;
        true
    }
}

impl fmt::Display for Difference {
    fn fmt(&self, f: &mut fmt::Formatter<'_>) -> fmt::Result {
        write!(f, "{}, field {}", self.row, self.field)?;
        if let Some(word) = self.word {
            write!(f, " (word {word})")?;
        }
        write!(f, ": recorded {:08x}, ", self.recorded)?;
        match self.again {
            Some(again) => write!(f, "again {again:08x}"),
            None => write!(f, "which asks nothing"),
        }
    }
}

impl fmt::Display for Report {
    fn fmt(&self, f: &mut fmt::Formatter<'_>) -> fmt::Result {
        let (file, row) = (self.file.name(), self.file.row());
        for difference in &self.differences {
            writeln!(f, "{file}: {row} {difference}")?;
        }
        for line in &self.compared {
            writeln!(f, "{file}: {line}")?;
        }
        Ok(())
    }
}
