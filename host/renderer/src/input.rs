//! The sheet as it is read, whole, before anything is written.

use crate::folder::{self, Identity};
use std::fs::{self, File};
use std::io::{self, Read};
use std::path::Path;

/// The most bytes of a sheet.
const MOST_BYTES: u64 = 1 << 30;

/// The sheet's text, and which file it is.
pub fn read(sheet: &Path) -> Result<(Vec<u8>, Identity), String> {
    let shown = sheet.display();
    let unreadable = |error| format!("{shown} cannot be read: {error}");
    let is_input = sheet == Path::new("-");
    let path = if is_input { Path::new("/dev/stdin") } else { sheet };
    let input: Box<dyn Read> = if is_input {
        Box::new(io::stdin().lock())
    } else {
        Box::new(File::open(path).map_err(unreadable)?)
    };
    if fs::metadata(path).is_ok_and(|data| data.is_dir()) {
        return Err(format!("{shown} is a folder: name a CSV file"));
    }
    // A pipe that is gone is no file of the folder.
    let read = folder::identity(path).unwrap_or_default();
    let mut text = Vec::new();
    input.take(MOST_BYTES + 1).read_to_end(&mut text).map_err(unreadable)?;
    if text.len() as u64 > MOST_BYTES {
        return Err(format!("{shown} is longer than {MOST_BYTES} bytes: split it"));
    }
    Ok((text, read))
}
