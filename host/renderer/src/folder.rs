//! The folder of the notes: held by one run alone, which writes over nothing that no run wrote.

use crate::catalogue;
use crate::known::Known;
use crate::part::{PREFIX, SUFFIX};
use crate::piece;
use crate::report::complain;
use crate::sfz;
use std::fs::{self, File, TryLockError};
use std::io::{self, ErrorKind, Read};
use std::os::unix::fs::MetadataExt;
use std::path::{Path, PathBuf};

/// The device and the number of a file.
pub type Identity = (u64, u64);

pub fn identity(path: &Path) -> Option<Identity> {
    fs::metadata(path).ok().map(|data| (data.dev(), data.ino()))
}

/// What earlier runs that were cut off wrote of their catalogues.
const CUT_OFF: &str = ".bleidhvan-cut-off.part";

pub struct Folder {
    pub path: PathBuf,
    /// The lock ends with the process, however that ends.
    _lock: File,
    /// The sheet, which may lie in the folder: where it is, and the file that was read.
    sheet: (PathBuf, Identity),
}

impl Folder {
    /// Makes the folder where it is not there, and locks it against other runs.
    pub fn hold(path: &Path, sheet: (PathBuf, Identity)) -> Result<Self, String> {
        let folder = path.display();
        let unwritable = |error| format!("{folder} cannot be written: {error}");
        fs::create_dir_all(path).map_err(unwritable)?;
        let lock = File::open(path).map_err(unwritable)?;
        match lock.try_lock() {
            Ok(()) => (),
            Err(TryLockError::WouldBlock) => {
                return Err(format!(
                    "another run renders to {folder}: wait until it ends, or name another folder"
                ));
            }
            Err(TryLockError::Error(error)) => {
                complain(&format!(
                    "{folder} cannot be locked: let no other run write to it ({error})"
                ));
            }
        }
        Ok(Folder { path: path.into(), _lock: lock, sheet })
    }

    pub fn file(&self, name: &str) -> PathBuf {
        self.path.join(name)
    }

    /// Whether a file is the sheet, also one that was saved anew in its place.
    pub fn is_sheet(&self, path: &Path) -> bool {
        let (sheet, read) = &self.sheet;
        let found = identity(path);
        found.is_some() && (found == Some(*read) || found == identity(sheet))
    }

    /// Looks that neither the catalogue nor a file of the page of so many notes is written over what no run wrote.
    pub fn look(&self, ordered: usize) -> Result<(), String> {
        self.look_at_sheet()?;
        self.look_at(catalogue::FILE, catalogue::is_ours)?;
        self.look_at(sfz::FILE, sfz::is_ours)?;
        piece::files(ordered).try_for_each(|name| self.look_at(&name, piece::is_ours))
    }

    /// Looks that the sheet is not taken for a part.
    pub fn look_at_sheet(&self) -> Result<(), String> {
        let name = self.sheet.0.file_name().unwrap_or_default().to_string_lossy();
        if name.starts_with(PREFIX) {
            return Err(format!("the sheet's name begins with {PREFIX}, as parts do: rename it"));
        }
        Ok(())
    }

    /// Looks that a file of this name is not written over what no run wrote.
    pub fn look_at(&self, name: &str, is_ours: fn(&[u8]) -> bool) -> Result<(), String> {
        let path = self.file(name);
        let shown = path.display();
        if self.is_sheet(&path) {
            return Err(format!(
                "the sheet is {shown}, where {name} would be written: rename it, or name another folder"
            ));
        }
        let beginning =
            beginning(&path).map_err(|error| format!("{shown} cannot be read: {error}"))?;
        if beginning.is_some_and(|text| !is_ours(&text)) {
            return Err(format!(
                "{shown} is there, and no run wrote it: move it away, or name another folder"
            ));
        }
        Ok(())
    }

    /// What earlier runs wrote here, also those that were cut off; what these left is removed.
    pub fn known(&self) -> io::Result<Known> {
        let cut_off = self.file(CUT_OFF);
        let journal = crate::part::part_of(&self.file(catalogue::FILE))?;
        let mut text = read(&cut_off)?;
        if journal.exists() {
            text.extend(b"\n");
            // The room behind its last line is line ends.
            text.extend(read(&journal)?.trim_ascii_end());
            // The one takes the place of the other at once, so that nothing is lost where this run is cut off too.
            let new = self.file(&format!("{PREFIX}new{SUFFIX}"));
            fs::write(&new, &text).inspect_err(|_| drop(fs::remove_file(&new)))?;
            fs::rename(new, cut_off)?;
        }
        let mut known = Known::default();
        known.read(&read(&self.file(catalogue::FILE))?);
        known.read(&text);
        self.clean(CUT_OFF)?;
        Ok(known)
    }

    /// Removes parts, but for the one of that name.
    fn clean(&self, but: &str) -> io::Result<()> {
        for entry in fs::read_dir(&self.path)? {
            let entry = entry?;
            let name = entry.file_name();
            let name = name.to_string_lossy();
            if name.starts_with(PREFIX) && name.ends_with(SUFFIX) && name != but {
                fs::remove_file(entry.path())?;
            }
        }
        Ok(())
    }

    /// Forgets the runs that were cut off, once the catalogue is whole.
    pub fn finish(&self) -> io::Result<()> {
        self.clean("")
    }
}

/// The first bytes of a file, if it is there.
fn beginning(path: &Path) -> io::Result<Option<Vec<u8>>> {
    let file = match File::open(path) {
        Err(error) if error.kind() == ErrorKind::NotFound => return Ok(None),
        file => file?,
    };
    let mut bytes = Vec::new();
    file.take(1000).read_to_end(&mut bytes)?;
    Ok(Some(bytes))
}

/// The bytes of a file, none where it is not there.
fn read(path: &Path) -> io::Result<Vec<u8>> {
    match fs::read(path) {
        Err(error) if error.kind() == ErrorKind::NotFound => Ok(vec![]),
        bytes => bytes,
    }
}
