//! A file of calls: a header line of 128 bytes, then rows of 64 little-endian words, one a call.

use crate::format::{HEADER_BYTES, header};
use std::path::{Path, PathBuf};

pub const ROW_WORDS: usize = 64;
pub const ROW_BYTES: usize = 4 * ROW_WORDS;

pub type Row = [u32; ROW_WORDS];

/// Where the file of that name stands in the repository.
pub fn path(name: &str) -> PathBuf {
    let data = Path::new(env!("CARGO_MANIFEST_DIR")).join("../replay/data");
    data.join(format!("{name}.bin"))
}

/// The bytes of a file of that name and of these rows.
pub fn to_bytes(name: &str, rows: &[Row]) -> Vec<u8> {
    let mut bytes = header(name, "calls", rows.len()).into_bytes();
    bytes.extend(rows.iter().flatten().copied().flat_map(u32::to_le_bytes));
    bytes
}

/// The rows of a file of that name, or what is wrong with it.
pub fn from_bytes(name: &str, bytes: &[u8]) -> Result<Vec<Row>, String> {
    let (head, body) =
        bytes.split_at_checked(HEADER_BYTES).ok_or("the file is shorter than its header")?;
    let (rows, rest) = body.as_chunks::<ROW_BYTES>();
    if !rest.is_empty() {
        return Err("the file ends within a call".into());
    }
    if head != header(name, "calls", rows.len()).as_bytes() {
        return Err("the header is not that of so many calls".into());
    }
    let words = |row: &[u8; ROW_BYTES]| {
        let (words, _) = row.as_chunks();
        std::array::from_fn(|k| u32::from_le_bytes(words[k]))
    };
    Ok(rows.iter().map(words).collect())
}
