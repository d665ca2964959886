//! Each changed byte of the recorded answers is a difference that names its row and a field.

mod common;

use common::{has, replayed, rows};
use replay::File::{Banks, Leaves, Modals, Strings};
use replay::{Difference, File, Libraries, Report};

/// The report of a file up to a row in which one bit of a word is turned.
fn changed(file: File, row: usize, word: usize, bit: u32) -> Report {
    let mut rows = rows(file);
    rows.truncate(row + 1);
    rows[row][word] ^= 1 << bit;
    replayed(file, &rows, &mut Libraries)
}

/// A changed word that is not asked with is the one difference, and comes out again as it was.
fn is_the_one_difference(file: File, row: usize, word: usize, field: &str) {
    let report = changed(file, row, word, 0);
    let own = rows(file)[row][word];
    let difference = Difference {
        row,
        field: field.into(),
        word: Some(word),
        recorded: own ^ 1,
        again: Some(own),
    };
    assert_eq!((report.differ, report.differences), (1, vec![difference]), "{}", file.name());
}

/// A changed word that is asked with shows in a field of the same row.
fn shows_in(file: File, row: usize, (word, bit): (usize, u32), field: &str) {
    let report = changed(file, row, word, bit);
    assert_eq!(report.differ, 1, "{} {row}, word {word}", file.name());
    assert!(has(&report, row, field), "{} {row}, word {word}: {report}", file.name());
}

/// A word that asks nothing is the one difference.
fn asks_nothing(file: File, row: usize, bit: u32, field: &str) {
    let report = changed(file, row, 0, bit);
    let recorded = rows(file)[row][0] ^ 1 << bit;
    let difference = Difference { row, field: field.into(), word: Some(0), recorded, again: None };
    assert_eq!((report.differ, report.differences), (1, vec![difference]), "{}", file.name());
}

#[test]
fn an_answer_of_a_leaf() {
    for (record, word, field) in [
        (986, 9, "output get_word of random"),
        (1326, 9, "output stiffness of interpolate"),
        (2669, 10, "output r of svf_process"),
        (2885, 11, "output write_ptr of delay_line_reads"),
        (3195, 11, "output digest of the line of allpass"),
        (3447, 12, "output initial_amplitude of cosine_oscillator"),
        (4642, 3, "digest of whole_part"),
        (4808, 3, "digest of tables"),
    ] {
        is_the_one_difference(Leaves, record, word, field);
    }
}

#[test]
fn an_input_of_a_leaf() {
    for (record, place, field) in [
        (986, (1, 0), "output get_float of random"),
        (2608, (2, 1), "output second digest of dc_blocker"),
        (2783, (6, 0), "output digest of svf_process_buffer"),
        (3195, (5, 20), "output last output of allpass"),
        (3808, (2, 0), "output entry of tables"),
        (4642, (1, 0), "digest of whole_part"),
        (4642, (2, 0), "digest of whole_part"),
        (4642, (4, 0), "digest of whole_part"),
    ] {
        shows_in(Leaves, record, place, field);
    }
}

#[test]
fn a_word_of_a_leaf_that_is_not_in_use() {
    is_the_one_difference(Leaves, 954, 3, "unused input 2 of abs");
    is_the_one_difference(Leaves, 954, 12, "unused output 3 of abs");
    is_the_one_difference(Leaves, 4642, 9, "unused word of a digest of whole_part");
    // A shape of an input that is not in use, one that is none, more cases than there may be, and a size and a table beyond the last.
    shows_in(Leaves, 4663, (4, 4), "shapes of abs");
    shows_in(Leaves, 4807, (4, 3), "shapes of tables");
    shows_in(Leaves, 4642, (2, 31), "count of whole_part");
    shows_in(Leaves, 2285, (3, 13), "input size of parameter_interpolator");
    shows_in(Leaves, 3808, (1, 2), "input which of tables");
    asks_nothing(Leaves, 954, 10, "function number");
    asks_nothing(Leaves, 954, 17, "function number");
}

#[test]
fn what_a_string_left() {
    for (word, field) in [
        (12, "write_ptr of the string line"),
        (13, "write_ptr of the stretch line"),
        (14, "remaining_noise_samples"),
        (15, "g of the excitation filter"),
        (23, "state_1 of the damping filter"),
        (33, "out_sample 1"),
        (35, "digest of temp"),
        (38, "digest of aux"),
        (40, "digest of the stretch line"),
        (44, "sample 3 of out"),
        (60, "unused"),
    ] {
        is_the_one_difference(Strings, 5, word, field);
    }
    shows_in(Strings, 5, (11, 0), "the generator's word");
}

#[test]
fn what_a_call_of_a_string_was_given() {
    for (call, place, field) in [
        (0, (3, 10), "sample_rate_hz"),
        (5, (1, 0), "digest of temp"),
        (5, (2, 0), "digest of out"),
        (1, (4, 22), "g of the excitation filter"),
        (5, (5, 10), "src_phase"),
        (8, (6, 20), "state_1 of the damping filter"),
        (5, (7, 20), "g of the damping filter"),
        (5, (8, 20), "digest of the string line"),
        (5, (9, 0), "the generator's word"),
        (5, (10, 0), "digest of out"),
    ] {
        shows_in(Strings, call, place, field);
    }
}

#[test]
fn a_word_of_a_string_that_is_not_in_use() {
    is_the_one_difference(Strings, 0, 4, "accent");
    is_the_one_difference(Strings, 0, 50, "sample 9 of out");
    is_the_one_difference(Strings, 5, 3, "sample rate");
    shows_in(Strings, 5, (1, 2), "flags");
    shows_in(Strings, 5, (2, 13), "frames");
    asks_nothing(Strings, 5, 0, "kind");
}

#[test]
fn a_call_that_the_bank_refuses() {
    for (file, call, place, number) in [
        (Strings, 0, (3, 30), 4),
        (Strings, 5, (2, 12), 8),
        (Strings, 5, (5, 30), 9),
        (Modals, 16, (4, 30), 10),
        (Modals, 16, (8, 31), 13),
    ] {
        shows_in(file, call, place, "the number of a refusal");
        let report = changed(file, call, place.0, place.1);
        let found = report.differences.iter().find(|found| found.word.is_none());
        let found = found.map(|found| (found.recorded, found.again));
        assert_eq!(found, Some((0, Some(number))), "{} {call}", file.name());
    }
    let mut calls = rows(Modals);
    calls[1] = [&[1][..], &[0; 10], &calls[0][11..]].concat();
    let report = replayed(Modals, &calls[..2], &mut Libraries);
    assert!(has(&report, 1, "the number of a refusal"), "a modal voice is reset: {report}");
    let report = replayed(Strings, &rows(Strings)[1..2], &mut Libraries);
    assert!(has(&report, 0, "the number of a refusal"), "no string is open: {report}");
}

#[test]
fn what_a_modal_voice_left() {
    for (word, field) in [
        (12, "the held strike"),
        (13, "digest of the amplitudes"),
        (14, "unused"),
        (16, "state_2 of the excitation filter"),
        (18, "state_1 of mode 1 of the first batch"),
        (32, "state_2 of mode 3 of the last batch"),
        (34, "unused"),
        (37, "digest of out"),
        (40, "digest of state_2 of all modes"),
        (56, "sample 15 of out"),
    ] {
        is_the_one_difference(Modals, 16, word, field);
    }
}

#[test]
fn what_a_call_of_a_modal_voice_was_given() {
    for (place, field) in [
        ((1, 0), "the generator's word"),
        ((2, 0), "digest of aux"),
        ((4, 20), "digest of temp"),
        ((5, 20), "digest of state_1 of all modes"),
        ((6, 20), "state_1 of mode 0 of the last batch"),
        ((7, 20), "state_1 of the excitation filter"),
        ((8, 20), "state_2 of mode 2 of the first batch"),
        ((10, 0), "digest of out"),
    ] {
        shows_in(Modals, 158, place, field);
    }
}

#[test]
fn what_a_call_of_a_bank_left() {
    for (row, word, field) in [
        (15, 17, "the number of 01's table"),
        (8, 18, "count of the burst"),
        (8, 19, "count of the dust"),
        (8, 20, "count of the dispersion"),
        (8, 21, "the generator's word"),
        (8, 25, "digest of aux"),
        (8, 26, "digest of line memory"),
        (8, 28, "digest of the record of slot 1"),
        (8, 34, "digest of the record of slot 7"),
        (8, 36, "sample 1 of out"),
        (8, 63, "unused"),
    ] {
        is_the_one_difference(Banks, row, word, field);
    }
}

#[test]
fn what_a_row_of_a_bank_was_given() {
    for (row, place, field) in [
        (0, (9, 0), "the generator's word"),
        (0, (10, 0), "digest of line memory"),
        (4, (12, 1), "the number of 01's table"),
        (4, (3, 10), "digest of the record of slot 0"),
        (8, (2, 0), "the number of 01's table"),
        (8, (15, 0), "digest of aux"),
        (8, (5, 20), "digest of the record of slot 1"),
        (8, (11, 3), "the number of 01's table"),
        (8, (16, 0), "the number of 01's table"),
        (531, (12, 0), "digest of the record of slot 2"),
        (531, (13, 0), "digest of the record of slot 2"),
    ] {
        shows_in(Banks, row, place, field);
    }
}

#[test]
fn a_word_of_a_bank_that_is_not_in_use() {
    is_the_one_difference(Banks, 0, 11, "slot");
    is_the_one_difference(Banks, 4, 13, "length of temp_2, or the number put");
    is_the_one_difference(Banks, 8, 9, "seed");
    is_the_one_difference(Banks, 531, 16, "length of line memory");
    shows_in(Banks, 8, (14, 31), "length of out");
    shows_in(Banks, 8, (16, 31), "length of line memory");
    shows_in(Banks, 531, (11, 3), "slot");
    shows_in(Banks, 531, (12, 2), "the kind asked for, or which number is put");
    asks_nothing(Banks, 8, 3, "kind");
}

/// Of one row of each kind every word behind those given is compared by itself.
#[test]
fn every_word_that_was_left() {
    for (file, row, given) in
        [(Leaves, 2669, 9), (Strings, 5, 12), (Modals, 16, 12), (Banks, 8, 17), (Banks, 531, 17)]
    {
        for word in given..file.words() {
            let report = changed(file, row, word, 31);
            let [found] = &report.differences[..] else { panic!("word {word}: {report}") };
            assert_eq!((found.row, found.word), (row, Some(word)), "{}", file.name());
        }
    }
}

/// A difference early in a sequence is one of every later call; five are shown.
#[test]
fn all_rows_are_counted_and_five_are_shown() {
    let mut rows = rows(Strings);
    rows[4][10] ^= 1;
    let report = replayed(Strings, &rows, &mut Libraries);
    assert_eq!(report.differ, 1, "what buffers held is not kept: {report}");
    rows[0][3] += 1;
    let report = replayed(Strings, &rows, &mut Libraries);
    assert_eq!(report.differ, 9, "the whole first sequence: {report}");
    let shown: Vec<usize> = report.differences.iter().map(|found| found.row).collect();
    assert!(shown.is_sorted() && shown.first() == Some(&0) && shown.last() == Some(&4));
}

#[test]
fn how_a_difference_is_said() {
    let report = changed(Strings, 5, 23, 0);
    let own = rows(Strings)[5][23];
    let line = format!(
        "strings.bin: call 5, field state_1 of the damping filter (word 23): recorded {:08x}, again {own:08x}",
        own ^ 1
    );
    assert_eq!(report.to_string().lines().next(), Some(&line[..]));
    assert!(report.to_string().ends_with(" samples, 1 differ\n"), "{report}");
    let report = changed(Banks, 8, 0, 3);
    let line = "banks.bin: row 8, field kind (word 0): recorded 0000000a, which asks nothing";
    assert_eq!(report.to_string().lines().next(), Some(line));
}
