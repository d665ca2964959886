//! The recorded files, whole and in part.
#![allow(dead_code)] // each test uses a part

use replay::{File, Port, Report, replay};
use std::path::{Path, PathBuf};

pub fn data() -> PathBuf {
    Path::new(env!("CARGO_MANIFEST_DIR")).join("data")
}

pub fn recorded(file: File) -> Vec<u8> {
    std::fs::read(data().join(file.name())).expect("a file of host/replay/data is read")
}

pub fn rows(file: File) -> Vec<Vec<u32>> {
    let words = |row: &[u8]| {
        let (words, _) = row.as_chunks();
        words.iter().map(|word| u32::from_le_bytes(*word)).collect()
    };
    recorded(file)[128..].chunks(4 * file.words()).map(words).collect()
}

/// The bytes of a file of these rows.
pub fn bytes_of(file: File, rows: &[Vec<u32>]) -> Vec<u8> {
    let parts = if file == File::Leaves { "records" } else { "calls" };
    let kind = file.name().trim_end_matches(".bin");
    let header =
        format!("bleidhvan {kind} 1; mi-plaits-dsp-rs effe9864bb; seed 33; {parts} {}", rows.len());
    let mut bytes = format!("{header:<127}\n").into_bytes();
    bytes.extend(rows.iter().flatten().copied().flat_map(u32::to_le_bytes));
    bytes
}

pub fn replayed(file: File, rows: &[Vec<u32>], port: &mut dyn Port) -> Report {
    replay(file, &bytes_of(file, rows), port).expect("the file is well formed")
}

/// Whether the report has a difference of that field in that row.
pub fn has(report: &Report, row: usize, field: &str) -> bool {
    report.differences.iter().any(|found| found.row == row && found.field == field)
}
