//! The recorded lists of a bank's calls: every number of the table at the ends of its range, and the file beside what the Rust does now.

use record::banks::ledger::Ledger;
use record::banks::{LINES, NAME};
use record::rows::{Row, from_bytes, path};
use record::voices::format::Render;

const OPEN: u32 = 0;
const RENDER: u32 = 2;
const BEGIN: u32 = 3;
const PUT: u32 = 4;

/// The places in a row of what is asked, and of the number given.
const RATE: usize = 3;
const SLOT: usize = 11;
const ASKED: usize = 12;
const VALUE: usize = 13;
const MEMORY: usize = 16;
const NUMBER: usize = 17;

fn recorded() -> Vec<u8> {
    std::fs::read(path(NAME)).expect("host/replay/data/banks.bin is read")
}

fn rows() -> Vec<Row> {
    from_bytes(NAME, &recorded()).expect("a header, and whole rows")
}

/// Whether a call of the kind with that word at that place got that number.
fn is_recorded(rows: &[Row], kind: u32, place: usize, word: u32, number: u32) -> bool {
    rows.iter().any(|row| row[0] == kind && row[place] == word && row[NUMBER] == number)
}

#[test]
fn every_list_begins_with_a_bank() {
    let rows = rows();
    assert_eq!(rows[0][0], BEGIN);
    assert!(rows.iter().all(|row| row[0] <= PUT));
}

#[test]
fn every_number_is_given_and_a_refusal_counts_nothing() {
    let rows = rows();
    for number in (0..=13).chain([17, 18]) {
        let own = |row: &&Row| row[0] < BEGIN && row[NUMBER] == number;
        assert!(rows.iter().filter(own).count() >= 4, "number {number}");
    }
    let refused = rows.iter().filter(|row| row[NUMBER] != 0);
    assert!(refused.clone().all(|row| row[NUMBER + 1..NUMBER + 4] == [0; 3]));
}

#[test]
fn every_range_of_floats_is_recorded_at_both_ends() {
    let rows = rows();
    let unit = |place, number| (RENDER, place, 0.0, 1.0, number);
    let f0 = (RENDER, 5, 2f32.powi(-20), 0.5, 9);
    let rate = (OPEN, RATE, 8000.0, 192000.0, 4);
    for (kind, place, low, high, number) in
        [rate, f0, unit(4, 10), unit(6, 11), unit(7, 12), unit(8, 13)]
    {
        for inside in [low, high] {
            assert!(is_recorded(&rows, kind, place, f32::to_bits(inside), 0), "{number} {inside}");
        }
        for outside in [low.next_down(), high.next_up(), f32::NAN, f32::INFINITY] {
            let refused = is_recorded(&rows, kind, place, outside.to_bits(), number);
            assert!(refused, "{number} {outside}");
            assert!(!is_recorded(&rows, kind, place, outside.to_bits(), 0), "{number} {outside}");
        }
    }
    assert!(is_recorded(&rows, RENDER, 6, (-0f32).to_bits(), 0));
}

#[test]
fn every_range_of_numbers_is_recorded_at_its_ends() {
    let rows = rows();
    let lines = LINES as u32;
    for (kind, place, inside, outside, number) in [
        (RENDER, MEMORY, lines, lines - 1, 1),
        (RENDER, MEMORY, lines, lines + 1, 1),
        (RENDER, SLOT, 7, 8, 2),
        (OPEN, ASKED, 1, 0, 3),
        (OPEN, ASKED, 2, 3, 3),
        (RENDER, 2, 4096, 4097, 8),
    ] {
        assert!(is_recorded(&rows, kind, place, inside, 0), "{number}: {inside}");
        assert!(is_recorded(&rows, kind, place, outside, number), "{number}: {outside}");
    }
}

#[test]
fn every_buffer_is_recorded_shorter_and_longer() {
    let rows = rows();
    for temp in [24, 4096, 4097] {
        for (other, number) in [7, 17, 18].into_iter().enumerate() {
            for length in [temp - 1, temp + 1] {
                let mut lengths = [temp; 3];
                lengths[other] = length;
                let own = |row: &&Row| row[0] == RENDER && row[2] == temp && row[13..16] == lengths;
                let numbers: Vec<u32> = rows.iter().filter(own).map(|row| row[NUMBER]).collect();
                assert!(numbers.contains(&number), "{temp} and {lengths:?}: {numbers:?}");
            }
        }
    }
}

#[test]
fn every_number_of_a_slot_is_recorded_at_its_end() {
    let rows = rows();
    for (which, last) in (0..).zip([2, 1023, 255, 1048576]) {
        for (value, number) in [(last, 0), (last + 1, 1)] {
            let put = |row: &Row| row[0] == PUT && row[ASKED] == which && row[VALUE] == value;
            let next = rows.windows(2).filter(|pair| put(&pair[0])).map(|pair| pair[1]);
            let numbers: Vec<u32> = next.map(|row| row[NUMBER]).collect();
            assert!(!numbers.is_empty() && numbers.iter().all(|n| *n == number), "{which} {value}");
        }
    }
}

#[test]
fn the_ledger_has_the_example_of_the_scope() {
    let mut ledger = Ledger::open(1);
    let render = Render {
        sustain: false,
        trigger: true,
        frames: 0,
        accent: 0.5,
        f0: 1.0 / 2048.0,
        structure: 0.5,
        brightness: 0.5,
        damping: 0.5,
        word: 0,
        fill: 0,
    };
    assert_eq!(ledger.render(&render, 8), [8, 0, 3]);
    assert_eq!(ledger.left, 2040);
}

#[cfg(no_plaits)]
#[test]
#[ignore] // the Rust source was not found
fn the_recorded_file_is_what_record_makes() {}

#[cfg(not(no_plaits))]
mod beside_the_rust {
    use super::recorded;
    use record::banks::format::{Asked, Call, Given, Lent, Number};
    use record::banks::{LINES, NAME, lists, record};
    use record::format::same;
    use record::rows::to_bytes;

    #[test]
    fn the_recorded_file_is_what_record_makes() {
        let made = to_bytes(NAME, &record(&lists()).expect("no other halt").rows);
        assert_eq!(same(&made, &recorded()), Ok(()));
    }

    #[test]
    fn a_slot_with_a_number_put_in_it_is_not_called() {
        let open = Given::Call {
            call: Call { slot: 2, asked: Asked::Open { kind: 1, sample_rate: 48000.0 } },
            lent: Lent { frames: [0; 4], fill: 0, lines: LINES as u32 },
        };
        let put = |value| Given::Put { slot: 2, number: Number::Left, value };
        let begin = Given::Begin { seed: 1, fill: 2 };
        assert!(record(&[vec![begin, put(5), open]]).is_err());
        assert!(record(&[vec![begin, put(5), put(0), open]]).is_ok());
    }
}
