//! The files that the page is made of, each of some notes.

use crate::data;
use crate::order::Order;
use crate::outcome::Outcome;
use crate::page;
use crate::settings::Settings;

#[derive(Debug, Clone, Copy, PartialEq)]
pub enum Piece {
    /// What is read without a script.
    Page,
    /// All notes in short.
    List,
    Waves,
    Spectra,
}

pub const PIECES: [Piece; 4] = [Piece::List, Piece::Waves, Piece::Spectra, Piece::Page];

/// What the notes of a sheet have in common.
#[derive(Clone)]
pub struct Notes {
    pub ordered: usize,
    pub settings: Settings,
    /// The file of the piece that the page plays on top.
    pub piece: Option<String>,
}

/// Whether a file that begins so is of this tool.
pub fn is_ours(beginning: &[u8]) -> bool {
    page::is_ours(beginning) || beginning.starts_with(data::MARK.as_bytes())
}

/// The files of so many notes.
pub fn files(ordered: usize) -> impl Iterator<Item = String> {
    let files = move |piece: Piece| {
        (1..=ordered.div_ceil(piece.rows())).map(move |number| piece.file(number))
    };
    PIECES.into_iter().flat_map(files)
}

impl Piece {
    /// A file by its number, from 1.
    pub fn file(self, number: usize) -> String {
        match self {
            Piece::Page => page::file(number),
            Piece::List => "index-list.js".into(),
            Piece::Waves => format!("index-waves-{number}.js"),
            Piece::Spectra => format!("index-spectra-{number}.js"),
        }
    }

    /// The notes of a file; there is one list.
    pub fn rows(self) -> usize {
        if self == Piece::List { usize::MAX } else { page::ROWS }
    }

    /// The most bytes of a file beside its rows.
    pub fn frame(self) -> u64 {
        if self == Piece::Page { page::FRAME as u64 } else { data::FRAME as u64 }
    }

    /// The beginning of a file.
    pub fn begin(self, number: usize, notes: &Notes) -> String {
        let Notes { ordered, settings, piece } = notes;
        match self {
            Piece::Page => {
                let pages = ordered.div_ceil(page::ROWS);
                page::begin(number, pages, *ordered, piece.as_deref())
            }
            Piece::List => data::begin_list(page::ROWS, settings),
            Piece::Waves => data::begin("waves", number),
            Piece::Spectra => data::begin("spectra", number),
        }
    }

    /// The end of a file.
    pub fn end(self, number: usize, notes: &Notes) -> String {
        match self {
            Piece::Page => page::end(number, notes.ordered.div_ceil(page::ROWS)),
            _ => data::END.into(),
        }
    }

    /// What a file has of a note.
    pub fn row(self, order: &Order, outcome: &Outcome, settings: &Settings) -> String {
        match self {
            Piece::Page => page::row(order, outcome, settings),
            Piece::List => data::row(order, outcome),
            Piece::Waves => data::wave(outcome),
            Piece::Spectra => data::spectrum(outcome),
        }
    }

    /// The most bytes of a note's row whatever becomes of it.
    pub fn most(self, order: &Order, settings: &Settings) -> usize {
        let unplayed = self.row(order, &Outcome::unplayed(order), settings).len();
        if order.note.is_err() {
            return unplayed;
        }
        match self {
            Piece::Page => unplayed + page::MORE,
            Piece::List => unplayed + data::MORE,
            Piece::Waves => data::WAVE,
            Piece::Spectra => data::SPECTRUM,
        }
    }
}
