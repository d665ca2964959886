//! Asks the oracle every record of a file again.

use crate::format::{Kind, Record, from_bytes};
use crate::functions::function;

/// The number of records of a file that the oracle answers otherwise, or what is wrong with the file.
pub fn differences(bytes: &[u8]) -> Result<usize, String> {
    let records = from_bytes(bytes)?;
    Ok(records.iter().filter(|record| !stands(record)).count())
}

/// Whether the oracle gives the record's answer.
pub fn stands(record: &Record) -> bool {
    let Some(function) = function(record.function) else {
        return false;
    };
    let again = match record.kind {
        Kind::Raw { inputs, .. } => function.raw(inputs),
        Kind::Digest { run, .. } => function.digest(run),
    };
    again.as_ref() == Some(record)
}
