//! The recorded file beside what the Rust answers now.

use record::format::from_bytes;

fn recorded() -> Vec<u8> {
    std::fs::read(record::leaves_path()).expect("host/replay/data/leaves.bin is read")
}

#[test]
fn the_recorded_file_is_well_formed() {
    let bytes = recorded();
    let records = from_bytes(&bytes).expect("a header, and whole records of known kinds");
    let header = format!(
        "bleidhvan leaves 1; mi-plaits-dsp-rs effe9864bb; seed 33; records {}",
        records.len()
    );
    let line = std::str::from_utf8(&bytes[..128]).expect("the header is ASCII");
    assert_eq!(line.trim_end_matches([' ', '\n']), header);
    assert!(line.ends_with(" \n"));
    assert_eq!(bytes.len(), 128 + 64 * records.len());
}

#[cfg(no_plaits)]
#[test]
#[ignore] // the Rust source was not found
fn the_recorded_file_is_what_record_makes() {}

#[cfg(not(no_plaits))]
mod beside_the_rust {
    use super::recorded;
    use record::check::{differences, stands};
    use record::format::{HEADER_BYTES, Kind, RECORD_BYTES, Record, from_bytes, same, to_bytes};
    use record::functions::{FUNCTIONS, function};

    #[test]
    fn the_recorded_file_is_what_record_makes() {
        assert_eq!(same(&to_bytes(&record::leaves()), &recorded()), Ok(()));
    }

    #[test]
    fn the_recorded_file_stands() {
        assert_eq!(differences(&recorded()), Ok(0));
    }

    #[test]
    fn one_changed_byte_is_one_difference() {
        let records = record::leaves();
        let bytes = to_bytes(&records);
        let digest = |r: &Record| matches!(r.kind, Kind::Digest { .. });
        let first_digest = records.iter().position(digest).expect("a digest record");
        let last = records.len() - 1;
        // The first and the last output byte of a raw record, and the bytes of a digest.
        for (record, byte) in [(0, 36), (first_digest / 2, 63), (first_digest - 1, 40)]
            .into_iter()
            .chain([(first_digest, 12), (last, 15)])
        {
            let mut changed = bytes.clone();
            changed[HEADER_BYTES + RECORD_BYTES * record + byte] ^= 1;
            assert_eq!(differences(&changed), Ok(1), "record {record}, byte {byte}");
        }
    }

    #[test]
    fn every_output_bit_of_every_function_is_compared() {
        let records = from_bytes(&recorded()).expect("the file is well formed");
        for function in &FUNCTIONS {
            let own = |r: &&Record| r.function == function.number;
            let raw = |r: &&Record| matches!(r.kind, Kind::Raw { .. });
            let record = records.iter().filter(own).find(raw);
            let record = record.expect("every function has a raw record");
            assert!(stands(record), "{}", function.name);
            for bit in 32 * 9..32 * 16 {
                let mut words = record.words();
                words[bit / 32] ^= 1 << (bit % 32);
                let changed = Record::from_words(words).expect("outputs may be any words");
                assert!(!stands(&changed), "{}, bit {bit}", function.name);
            }
        }
    }

    #[test]
    fn every_function_is_recorded_in_both_kinds() {
        let records = from_bytes(&recorded()).expect("the file is well formed");
        for (number, known) in (1..).zip(&FUNCTIONS) {
            assert_eq!(known.number, number, "{}", known.name);
            let kinds = [false, true].map(|digest| {
                let of_kind = |r: &&Record| matches!(r.kind, Kind::Digest { .. }) == digest;
                let own = records.iter().filter(|r| r.function == number);
                own.filter(of_kind).count()
            });
            assert!(kinds[0] > 0 && kinds[1] > 0, "{}: {kinds:?}", known.name);
        }
        assert!(records.iter().all(|r| function(r.function).is_some()));
    }

    #[test]
    fn a_case_outside_the_domain_is_not_recorded() {
        let one = 1f32.to_bits();
        let outside = [
            (1, [0x5f80_0000, 0, 0, 0]),
            (2, [0x7f80_0000, 0, 0, 0]),
            (3, [0x8000_0000, 0, 0, 0]),
            (4, [0, one, 0, 1]),
            (8, [one, 0, 0, 0]),
            (11, [0, 0, 4097, 0]),
            (11, [0, 0, 0, 65]),
            (16, [0, 0, 0, 0x5f80_0000]),
            (21, [128f32.next_down().to_bits(), 0, 0, 0]),
            (22, [0, 65, 0, 0]),
            (22, [4, 0, 0, 0]),
        ];
        for (number, [a, b, c, d]) in outside {
            let function = function(number).expect("a function of that number");
            let record = function.raw([a, b, c, d, 0, 0, 0, 0]);
            assert_eq!(record, None, "{}", function.name);
        }
    }
}
