//! What a file holds as an independent reader has it, and what a bank plays.

use crate::run::said;
use bleidhvan::{Bank, Kind, Knobs};
use std::collections::BTreeMap;
use std::path::Path;
use std::process::Command;

/// What a file holds: the channels, the rate, the bits and the frames; every sample, a float by its bits; and its tags.
pub struct Read {
    pub head: Vec<i64>,
    pub samples: Vec<i64>,
    pub tags: BTreeMap<String, String>,
}

/// What a file holds as Python reads it, without libsndfile.
pub fn read(path: &Path) -> Read {
    let script = concat!(env!("CARGO_MANIFEST_DIR"), "/tests/tool/read.py");
    let output = Command::new("python3").arg(script).arg(path).output().expect("python3 runs");
    let (status, text, error) = said(&output);
    assert_eq!(status, 0, "{error}");
    let mut lines = text.lines();
    let mut numbers = || -> Vec<i64> {
        let line = lines.next().unwrap_or_default();
        line.split_whitespace().map(|word| word.parse().expect("a number")).collect()
    };
    let (head, samples) = (numbers(), numbers());
    let tags = lines.filter_map(|line| line.split_once('\t'));
    Read { head, samples, tags: tags.map(|(name, text)| (name.into(), text.into())).collect() }
}

/// The seed that the tool gives a note of that name.
pub fn seed(seed: u32, name: &str) -> u32 {
    let bytes = seed.to_le_bytes().into_iter().chain(name.bytes());
    bytes.fold(2166136261, |sum, byte| (sum ^ u32::from(byte)).wrapping_mul(16777619))
}

/// out and aux of the first n frames of a note, straight from a bank.
pub fn bank_samples(seed: u32, kind: Kind, first: Knobs, rate: f32, n: usize) -> [Vec<f32>; 2] {
    let mut bank = Bank::new(seed);
    bank.open(0, kind, rate).expect("the opening is accepted");
    let [mut outs, mut auxs] = [vec![], vec![]];
    let mut knobs = first;
    while outs.len() < n {
        let block = 24.min(n - outs.len());
        let [mut temp, mut temp_2, mut out, mut aux] = [[0.0; 24]; 4];
        let buffers =
            [&mut temp[..block], &mut temp_2[..block], &mut out[..block], &mut aux[..block]];
        bank.render(0, &knobs, buffers).expect("the render is accepted");
        knobs.trigger = false;
        outs.extend(&out[..block]);
        auxs.extend(&aux[..block]);
    }
    [outs, auxs]
}

/// The SHA-256 of a file as coreutils have it.
pub fn sha256(path: &Path) -> String {
    let output = Command::new("sha256sum").arg(path).output().expect("sha256sum runs");
    let (status, text, error) = said(&output);
    assert_eq!(status, 0, "{error}");
    text.split_whitespace().next().expect("a sum").trim_start_matches('\\').into()
}
