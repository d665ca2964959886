//! Answers of the functions on values known from elsewhere, the tables on the text of the source.
#![cfg(not(no_plaits))]

use record::functions::function;

/// The first output to these first inputs.
fn first_output<const N: usize>(number: u32, first: [u32; N]) -> u32 {
    let mut inputs = [0; 8];
    inputs[..N].copy_from_slice(&first);
    let function = function(number).expect("a function of that number");
    (function.answer)(&inputs)[0]
}

#[test]
fn known_answers() {
    for (x, whole) in [(3.75, 3), (-2.5, 0), (f32::NAN, 0)] {
        assert_eq!(first_output(1, [f32::to_bits(x)]), whole);
    }
    assert_eq!(first_output(6, [33]), 1068833548);
    for (semitones, ratio) in [(0.0, 1.0), (12.0, 2.0), (-12.0, 0.5)] {
        let answer = first_output(21, [f32::to_bits(semitones)]);
        assert_eq!(answer, f32::to_bits(ratio));
    }
    assert_eq!(first_output(8, [0.25f32.to_bits()]), 0);
}

#[test]
fn the_noise_of_33() {
    let random = function(6).expect("a function of that number");
    let outputs = (random.answer)(&[33, 0, 0, 0, 0, 0, 0, 0]);
    assert_eq!(f32::from_bits(outputs[2]), -4213477.0 / 8388608.0);
}

/// The numbers between the brackets of the table of that name, as the source's text has them.
fn table_in_text(file: &str, name: &str) -> Vec<f32> {
    let folder = oracle::SOURCE.expect("the source was found");
    let path = std::path::Path::new(folder).join(file);
    let text = std::fs::read_to_string(path).expect("the source is read");
    let (_, after) = text.split_once(name).expect("the table is declared");
    let (_, after) = after.split_once("= [").expect("the table opens");
    let (entries, _) = after.split_once("];").expect("the table closes");
    let entries = entries.split(',').map(str::trim).filter(|e| !e.is_empty());
    entries.map(|e| e.parse().expect("a number")).collect()
}

#[test]
fn every_entry_of_the_tables_is_that_of_the_text() {
    let tables = [
        ("resources/stiffness.rs", "LUT_STIFFNESS:", 65),
        ("resources/svf.rs", "LUT_SVF_SHIFT:", 257),
        ("utils/units.rs", "LUT_PITCH_RATIO_HIGH:", 256),
        ("utils/units.rs", "LUT_PITCH_RATIO_LOW:", 256),
    ];
    for (which, (file, name, length)) in (0..).zip(tables) {
        let entries = table_in_text(file, name);
        assert_eq!(entries.len(), length, "{name}");
        for (i, entry) in (0..).zip(entries) {
            assert_eq!(first_output(22, [which, i]), entry.to_bits(), "{name} {i}");
        }
    }
}

#[test]
fn each_pitch_table_is_read_where_the_other_is_1() {
    assert_eq!(table_in_text("utils/units.rs", "LUT_PITCH_RATIO_HIGH:")[128], 1.0);
    assert_eq!(table_in_text("utils/units.rs", "LUT_PITCH_RATIO_LOW:")[0], 1.0);
}
