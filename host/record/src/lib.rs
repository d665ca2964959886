//! The oracle's answers as a file of records; docs/RECORD.md is its description.

pub mod banks;
#[cfg(not(no_plaits))]
pub mod check;
pub mod draws;
pub mod format;
#[cfg(not(no_plaits))]
pub mod functions;
#[cfg(not(no_plaits))]
mod raw;
pub mod rows;
#[cfg(not(no_plaits))]
mod runs;
pub mod voices;

use std::path::PathBuf;

/// The seed from which the random inputs are drawn.
pub const SEED: u32 = 33;

/// Where the record stands in the repository.
pub fn leaves_path() -> PathBuf {
    rows::path("leaves")
}

/// All the records, the raw ones first, each kind by function number.
#[cfg(not(no_plaits))]
pub fn leaves() -> Vec<format::Record> {
    let mut kinds = [raw::records(), runs::records()];
    for records in &mut kinds {
        records.sort_by_key(|record| record.function);
    }
    kinds.concat()
}
