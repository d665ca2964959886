//! The page in the making: a browser opens as much of it as is looked at, however many notes there are.

use crate::folder::Folder;
use crate::order::Order;
use crate::outcome::{Outcome, Sum};
use crate::page;
use crate::part::{Part, Whole};
use crate::piece::{self, Notes, PIECES, Piece};
use crate::room::Room;
use std::fs::{self, File};
use std::io::{self, Read, Write};

/// All files of the page.
pub struct Pages {
    series: Vec<Series>,
}

/// The files of one kind.
struct Series {
    piece: Piece,
    notes: Notes,
    /// Those that have their room and no rows yet, the first behind.
    empty: Vec<Whole>,
    written: Vec<Whole>,
    /// The file that rows go to, its rows and its bytes.
    open: Option<(Part, usize, u64)>,
}

impl Pages {
    /// Makes sure of the room of each file.
    pub fn begin(folder: &Folder, room: &Room, notes: &Notes) -> io::Result<Self> {
        let series = PIECES.iter().zip(&room.pieces);
        let series =
            series.map(|(piece, rooms)| Series::begin(folder, *piece, rooms, notes.clone()));
        Ok(Pages { series: series.collect::<io::Result<_>>()? })
    }

    /// Adds a note.
    pub fn note(&mut self, order: &Order, outcome: &Outcome) -> io::Result<()> {
        self.series.iter_mut().try_for_each(|series| series.note(order, outcome))
    }

    /// Ends the last files, and writes the sum on the first page.
    pub fn close(self, sum: &Sum) -> io::Result<Written> {
        let series = self.series.into_iter().map(|series| series.close(sum));
        Ok(Written { series: series.collect::<io::Result<_>>()? })
    }
}

impl Series {
    fn begin(folder: &Folder, piece: Piece, rooms: &[u64], notes: Notes) -> io::Result<Self> {
        let path = |place: usize| folder.file(&piece.file(place + 1));
        let rooms = rooms.iter().enumerate().rev();
        let empty = rooms.map(|(place, room)| Part::with_room(&path(place), *room)?.close());
        let empty = empty.collect::<io::Result<_>>()?;
        Ok(Series { piece, notes, empty, written: vec![], open: None })
    }

    fn note(&mut self, order: &Order, outcome: &Outcome) -> io::Result<()> {
        if self.open.is_none() {
            self.turn()?;
        }
        self.write(&self.piece.row(order, outcome, &self.notes.settings))?;
        if let Some((_, rows, _)) = &mut self.open {
            *rows += 1;
            if *rows == self.piece.rows() {
                self.shut()?;
            }
        }
        Ok(())
    }

    /// Begins the next file.
    fn turn(&mut self) -> io::Result<()> {
        let whole = self.empty.pop().ok_or(io::ErrorKind::InvalidInput)?;
        self.open = Some((whole.open()?, 0, 0));
        self.write(&self.piece.begin(self.written.len() + 1, &self.notes))
    }

    /// Ends the file that is open.
    fn shut(&mut self) -> io::Result<()> {
        self.write(&self.piece.end(self.written.len() + 1, &self.notes))?;
        if let Some((part, _, bytes)) = self.open.take() {
            self.written.push(part.close_at(bytes)?);
        }
        Ok(())
    }

    fn write(&mut self, text: &str) -> io::Result<()> {
        if let Some((part, _, bytes)) = &mut self.open {
            part.write_all(text.as_bytes())?;
            *bytes += text.len() as u64;
        }
        Ok(())
    }

    fn close(mut self, sum: &Sum) -> io::Result<(Piece, Vec<Whole>)> {
        if self.open.is_some() {
            self.shut()?;
        }
        if self.piece == Piece::Page
            && let Some(first) = self.written.first_mut()
        {
            first.overwrite(page::SUM_AT, page::summed(sum).as_bytes())?;
        }
        Ok((self.piece, self.written))
    }
}

/// The page's files, whole and without their names.
pub struct Written {
    series: Vec<(Piece, Vec<Whole>)>,
}

impl Written {
    /// Gives the files their names, and removes those of an earlier run that had more.
    pub fn name(self, folder: &Folder) -> io::Result<()> {
        for (piece, files) in self.series {
            let mut number = files.len() + 1;
            files.into_iter().try_for_each(Whole::name)?;
            while piece != Piece::List && is_ours(folder, &piece.file(number)) {
                fs::remove_file(folder.file(&piece.file(number)))?;
                number += 1;
            }
        }
        Ok(())
    }
}

/// Whether a file is there and of this tool.
fn is_ours(folder: &Folder, name: &str) -> bool {
    let Ok(file) = File::open(folder.file(name)) else { return false };
    let mut beginning = Vec::new();
    file.take(1000).read_to_end(&mut beginning).is_ok() && piece::is_ours(&beginning)
}
