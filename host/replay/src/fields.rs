//! The names of the words of a row, and the words that a row may give.

/// Names in the order of the words, each with the number of words that it stands for; # in it is a word's number among these.
pub type Names = &'static [&'static [(&'static str, usize)]];

pub const STRINGS: Names = &[GIVEN, KEPT_BY_STRING, BUFFERS, LINES, OUT];

pub const MODALS: Names = &[GIVEN, KEPT_BY_MODAL, BUFFERS, MODES, OUT];

pub const BANKS: Names = &[GIVEN_TO_BANK, LEFT_BY_BANK];

/// What a call of a voice is given, and the generator's word after it.
const GIVEN: &[(&str, usize)] = &[
    ("kind", 1),
    ("flags", 1),
    ("frames", 1),
    ("sample rate", 1),
    ("accent", 1),
    ("f0", 1),
    ("structure", 1),
    ("brightness", 1),
    ("damping", 1),
    ("the generator's word before the call", 1),
    ("z, from which the buffers are filled", 1),
    ("the generator's word", 1),
];

const KEPT_BY_STRING: &[(&str, usize)] = &[
    ("write_ptr of the string line", 1),
    ("write_ptr of the stretch line", 1),
    ("remaining_noise_samples", 1),
    ("g of the excitation filter", 1),
    ("r of the excitation filter", 1),
    ("h of the excitation filter", 1),
    ("state_1 of the excitation filter", 1),
    ("state_2 of the excitation filter", 1),
    ("g of the damping filter", 1),
    ("r of the damping filter", 1),
    ("h of the damping filter", 1),
    ("state_1 of the damping filter", 1),
    ("state_2 of the damping filter", 1),
    ("pole of the DC blocker", 1),
    ("x of the DC blocker", 1),
    ("y of the DC blocker", 1),
    ("delay", 1),
    ("dispersion_noise", 1),
    ("curved_bridge", 1),
    ("src_phase", 1),
    ("out_sample #", 2),
    ("sample_rate_hz", 1),
];

const KEPT_BY_MODAL: &[(&str, usize)] = &[
    ("the held strike", 1),
    ("digest of the amplitudes", 1),
    ("unused", 1),
    ("state_1 of the excitation filter", 1),
    ("state_2 of the excitation filter", 1),
    ("state_1 of mode # of the first batch", 4),
    ("state_2 of mode # of the first batch", 4),
    ("state_1 of mode # of the last batch", 4),
    ("state_2 of mode # of the last batch", 4),
    ("unused", 2),
];

const BUFFERS: &[(&str, usize)] =
    &[("digest of temp", 1), ("digest of temp_2", 1), ("digest of out", 1), ("digest of aux", 1)];

const LINES: &[(&str, usize)] =
    &[("digest of the string line", 1), ("digest of the stretch line", 1)];

const MODES: &[(&str, usize)] =
    &[("digest of state_1 of all modes", 1), ("digest of state_2 of all modes", 1)];

/// The samples of out, and two fields for which a row has no word.
const OUT: &[(&str, usize)] = &[
    ("sample # of out", 16),
    ("unused", 7),
    ("the number of a refusal", 1),
    ("the generator's word by the counts", 1),
];

const GIVEN_TO_BANK: &[(&str, usize)] = &[
    ("kind", 1),
    ("flags", 1),
    ("length of temp", 1),
    ("sample rate", 1),
    ("accent", 1),
    ("f0", 1),
    ("structure", 1),
    ("brightness", 1),
    ("damping", 1),
    ("seed", 1),
    ("z, from which is filled", 1),
    ("slot", 1),
    ("the kind asked for, or which number is put", 1),
    ("length of temp_2, or the number put", 1),
    ("length of out", 1),
    ("length of aux", 1),
    ("length of line memory", 1),
];

const LEFT_BY_BANK: &[(&str, usize)] = &[
    ("the number of 01's table", 1),
    ("count of the burst", 1),
    ("count of the dust", 1),
    ("count of the dispersion", 1),
    ("the generator's word", 1),
    ("digest of temp", 1),
    ("digest of temp_2", 1),
    ("digest of out", 1),
    ("digest of aux", 1),
    ("digest of line memory", 1),
    ("digest of the record of slot #", 8),
    ("sample # of out", 16),
    ("unused", 13),
];

/// The name of the word at a place.
pub fn name(names: Names, place: usize) -> String {
    let mut first = 0;
    for (name, count) in names.iter().copied().flatten() {
        if place < first + count {
            return name.replace('#', &(place - first).to_string());
        }
        first += count;
    }
    panic!("no word {place} has a name");
}

/// The most that a word may be which may be anything.
pub const ANY: u32 = u32::MAX;

/// The words that are given, each at most what it may be; of a word that is not in use this is 0.
pub fn bounded(given: &[u32], most: &[u32]) -> Vec<u32> {
    given.iter().zip(most).map(|(word, most)| *word.min(most)).collect()
}
