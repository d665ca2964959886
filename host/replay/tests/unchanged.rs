//! The recorded files as they are: all that was recorded is compared, and nothing differs.

mod common;

use common::recorded;
use replay::{File, Libraries, replay};

/// What is compared of each file, and how much differs.
const COMPARED: [(File, &[&str]); 4] = [
    (
        File::Leaves,
        &[
            "whole_part: 78 raw, 25000 by digest, 0 differ",
            "fraction: 78 raw, 25000 by digest, 0 differ",
            "min: 494 raw, 25000 by digest, 0 differ",
            "clamp: 304 raw, 30000 by digest, 0 differ",
            "abs: 32 raw, 25000 by digest, 0 differ",
            "random: 160 raw, 10000 by digest, 0 differ",
            "dust: 180 raw, 35000 by digest, 0 differ",
            "interpolate: 225 raw, 30000 by digest, 0 differ",
            "one_pole: 367 raw, 30000 by digest, 0 differ",
            "crossfade: 367 raw, 30000 by digest, 0 differ",
            "parameter_interpolator: 229 raw, 12000 by digest, 0 differ",
            "tan: 94 raw, 45000 by digest, 0 differ",
            "dc_blocker: 61 raw, 2200 by digest, 0 differ",
            "svf_process: 114 raw, 3200 by digest, 0 differ",
            "svf_process_buffer: 102 raw, 2400 by digest, 0 differ",
            "delay_line_reads: 310 raw, 2600 by digest, 0 differ",
            "allpass: 212 raw, 2200 by digest, 0 differ",
            "reset: 40 raw, 900 by digest, 0 differ",
            "cosine_oscillator: 144 raw, 13000 by digest, 0 differ",
            "amplitudes: 27 raw, 2000 by digest, 0 differ",
            "semitones_to_ratio: 190 raw, 20000 by digest, 0 differ",
            "tables: 834 raw, 2000 by digest, 0 differ",
            "4642 raw records, 167 digests of 372500 cases, 0 differ",
        ],
    ),
    (File::Strings, &["86 sequences of 1516 calls, 1378 blocks of 330625 samples, 0 differ"]),
    (File::Modals, &["65 sequences of 1209 calls, 1144 blocks of 232573 samples, 0 differ"]),
    (
        File::Banks,
        &[
            "calls by number 970 140 43 4 19 15 51 137 22 43 27 31 33 27 0 0 0 60 36",
            "13 lists of 1703 rows, 792 blocks of 146376 samples, 0 differ",
        ],
    ),
];

#[test]
fn nothing_differs_in_all_that_was_recorded() {
    assert_eq!(COMPARED.map(|(file, _)| file), File::ALL);
    for (file, lines) in COMPARED {
        let report =
            replay(file, &recorded(file), &mut Libraries).expect("the file is well formed");
        assert_eq!(report.compared, lines);
        assert_eq!((report.differ, report.differences), (0, vec![]), "{}", file.name());
    }
}
