//! Files that take their names only once they are whole.

use crate::checksum::{self, Checksum};
use std::fs::{self, File, OpenOptions};
use std::io::{self, BufWriter, Read, Seek, SeekFrom, Write};
use std::path::{Path, PathBuf};

/// What the names of parts begin with, which is the beginning of no note's name.
pub const PREFIX: &str = ".bleidhvan-";

/// What the names of parts end in.
pub const SUFFIX: &str = ".part";

/// The part of a file.
pub fn part_of(path: &Path) -> io::Result<PathBuf> {
    let name = path.file_name().ok_or(io::ErrorKind::InvalidInput)?.display();
    Ok(path.with_file_name(format!("{PREFIX}{name}{SUFFIX}")))
}

/// A file in the making, which is removed where it is not named.
pub struct Part {
    whole: Whole,
    file: BufWriter<File>,
}

/// A file that is written and has not its name yet.
pub struct Whole {
    path: PathBuf,
    part: PathBuf,
    is_left: bool,
}

impl Part {
    pub fn create(path: &Path) -> io::Result<Self> {
        let (file, whole) = Whole::create(path)?;
        Ok(Part { whole, file: BufWriter::new(file) })
    }

    /// Begins a file that has so many bytes for sure, which are line ends until they are written over.
    pub fn with_room(path: &Path, bytes: u64) -> io::Result<Self> {
        let mut part = Part::create(path)?;
        io::copy(&mut io::repeat(b'\n').take(bytes), &mut part)?;
        part.go_to(0)?;
        Ok(part)
    }

    /// Goes on at a place.
    pub fn go_to(&mut self, place: u64) -> io::Result<()> {
        self.file.seek(SeekFrom::Start(place)).map(|_| ())
    }

    /// Closes the file, which ends at a place.
    pub fn close_at(mut self, end: u64) -> io::Result<Whole> {
        self.file.flush()?;
        self.file.get_ref().set_len(end)?;
        Ok(self.whole)
    }

    /// Closes the file.
    pub fn close(mut self) -> io::Result<Whole> {
        self.file.flush()?;
        Ok(self.whole)
    }
}

impl Write for Part {
    fn write(&mut self, bytes: &[u8]) -> io::Result<usize> {
        self.file.write(bytes)
    }

    fn flush(&mut self) -> io::Result<()> {
        self.file.flush()
    }
}

impl Whole {
    /// A file that is empty and open, and what names it.
    pub fn create(path: &Path) -> io::Result<(File, Self)> {
        let part = part_of(path)?;
        // What a run that was cut off left there; a link is not followed.
        drop(fs::remove_file(&part));
        let file = OpenOptions::new().read(true).write(true).create_new(true).open(&part)?;
        Ok((file, Whole { path: path.into(), part, is_left: false }))
    }

    /// The checksum of what is written.
    pub fn checksum(&self) -> io::Result<Checksum> {
        checksum::of_file(&self.part)
    }

    /// Opens the file at its beginning.
    pub fn open(self) -> io::Result<Part> {
        let file = OpenOptions::new().write(true).open(&self.part)?;
        Ok(Part { whole: self, file: BufWriter::new(file) })
    }

    /// Writes bytes over those at a place.
    pub fn overwrite(&mut self, place: u64, bytes: &[u8]) -> io::Result<()> {
        let mut file = OpenOptions::new().write(true).open(&self.part)?;
        file.seek(SeekFrom::Start(place))?;
        file.write_all(bytes)
    }

    /// Gives the file its name.
    pub fn name(mut self) -> io::Result<()> {
        fs::rename(&self.part, &self.path)?;
        self.is_left = true;
        Ok(())
    }
}

impl Drop for Whole {
    fn drop(&mut self) {
        if !self.is_left {
            drop(fs::remove_file(&self.part));
        }
    }
}

/// A file of lines in the making, which has its room, and whose last line may be written anew.
pub struct Lines {
    part: Part,
    /// Where the last line begins and ends.
    last: u64,
    end: u64,
}

impl Lines {
    /// Begins the file at the path with its first lines, and room for so many bytes.
    pub fn begin(path: &Path, room: u64, header: &str) -> io::Result<Self> {
        let part = Part::with_room(path, room)?;
        let mut lines = Lines { part, last: 0, end: 0 };
        lines.line(header)?;
        Ok(lines)
    }

    /// Leaves the part to a later run where it is not named.
    pub fn leave(&mut self) {
        self.part.whole.is_left = true;
    }

    /// Adds a line.
    pub fn line(&mut self, line: &str) -> io::Result<()> {
        self.last = self.end;
        self.again(line)
    }

    /// Writes the last line anew.
    pub fn again(&mut self, line: &str) -> io::Result<()> {
        self.part.go_to(self.last)?;
        writeln!(self.part, "{line}")?;
        self.part.flush()?;
        self.end = self.last + line.len() as u64 + 1;
        Ok(())
    }

    pub fn close(self) -> io::Result<Whole> {
        self.part.close_at(self.end)
    }
}
