//! What a caller with pointers may lend to the exported functions.

use bleidhvan::raw::{self, Answer, EVENTS, Event, LINES, SLOT_BYTES, exported};
use bleidhvan::{Counts, Knobs};
use std::ptr::{null, null_mut};

const BANK_BYTES: usize = 8 * SLOT_BYTES;

/// Bank, line memory, word, and what a call answered.
type Left = (Vec<u8>, Vec<u32>, u32, Vec<(u32, [usize; 3])>);

/// A string in slot 0 and a modal voice in slot 1, in bytes that begin at a place, and what renders of them leave.
fn renders(
    place: usize,
    frames: usize,
    render: impl Fn(&mut [u8], &mut [f32], &mut u32, usize, usize) -> Answer,
) -> Left {
    let mut bytes = vec![0; place + BANK_BYTES];
    let bank = &mut bytes[place..];
    let (mut lines, mut word) = (vec![0.0; LINES], 33);
    assert_eq!(raw::fresh(bank), 0);
    for slot in [0, 1] {
        assert_eq!(raw::open(bank, &mut lines, slot, 1 + slot as u32, 48000.0), 0);
    }
    let answers = (0..16).map(|k| {
        let Answer { number, counts } = render(bank, &mut lines, &mut word, k % 2, frames);
        (number, [counts.burst, counts.dust, counts.dispersion])
    });
    let answers = answers.collect();
    (bank.to_vec(), lines.iter().map(|x| x.to_bits()).collect(), word, answers)
}

fn knobs() -> Knobs {
    Knobs { trigger: true, ..Knobs::default() }
}

/// A render of empty slices, or of buffers of so many frames.
fn by_slices(
    bank: &mut [u8],
    lines: &mut [f32],
    word: &mut u32,
    slot: usize,
    frames: usize,
) -> Answer {
    let mut buffers = [0; 4].map(|_| vec![0.0; frames]);
    let buffers = buffers.each_mut().map(|buffer| &mut buffer[..]);
    raw::render(bank, lines, word, slot, &knobs(), buffers, false)
}

/// The same of no frames, by null pointers.
fn by_null(bank: &mut [u8], lines: &mut [f32], word: &mut u32, slot: usize, _: usize) -> Answer {
    let Knobs { sustain, trigger, accent, f0, structure, brightness, damping } = knobs();
    let mut answer = Answer { number: u32::MAX, counts: Counts::default() };
    let counts = &mut answer.counts;
    answer.number = unsafe {
        exported::bleidhvan_render(
            bank.as_mut_ptr(),
            bank.len(),
            lines.as_mut_ptr(),
            lines.len(),
            word,
            slot,
            sustain,
            trigger,
            accent,
            f0,
            structure,
            brightness,
            damping,
            null_mut(),
            0,
            null_mut(),
            0,
            null_mut(),
            0,
            null_mut(),
            0,
            &mut counts.burst,
            &mut counts.dust,
            &mut counts.dispersion,
            false,
        )
    };
    answer
}

#[test]
fn an_empty_slice_may_be_null() {
    let left = renders(0, 0, by_null);
    assert!(left.3.iter().all(|(number, counts)| (*number, *counts) == (0, [0; 3])));
    assert!(left == renders(0, 0, by_slices), "null pointers leave something else");
    let (mut bank, mut lines) = (vec![0; BANK_BYTES], vec![0.0; LINES]);
    let (bank_at, lines_at) = (bank.as_mut_ptr(), lines.as_mut_ptr());
    unsafe {
        assert_eq!(exported::bleidhvan_fresh(null_mut(), 0), 1);
        assert_eq!(exported::bleidhvan_open(null_mut(), 0, lines_at, LINES, 0, 1, 48000.0), 1);
        assert_eq!(exported::bleidhvan_open(bank_at, BANK_BYTES, null_mut(), 0, 0, 1, 48000.0), 1);
        assert_eq!(exported::bleidhvan_reset(null_mut(), 0, null_mut(), 0, 0), 1);
    }
    assert_eq!(by_null(&mut [], &mut lines, &mut 33, 0, 0).number, 1);
}

/// A sheet of no events over no frames, by null pointers but for the answers.
fn play_by_null(bank: &mut [u8], lines: &mut [f32], word: &mut u32, answers: &mut [Answer]) -> u32 {
    let (bytes, size) = (bank.as_mut_ptr(), bank.len());
    let (numbers, count) = (lines.as_mut_ptr(), lines.len());
    let (given, none) = (answers.as_mut_ptr(), null_mut());
    unsafe {
        exported::bleidhvan_play(
            bytes,
            size,
            numbers,
            count,
            word,
            null(),
            0,
            given,
            answers.len(),
            none,
            0,
            none,
            0,
            none,
            0,
            none,
            0,
            false,
        )
    }
}

#[test]
fn a_sheet_of_no_events_may_be_null() {
    let (mut bank, mut lines, mut word) = (vec![0; BANK_BYTES], vec![0.0; LINES], 33);
    assert_eq!(raw::fresh(&mut bank), 0);
    let before = bank.clone();
    let given = Answer { number: 9, counts: Counts { burst: 1, dust: 2, dispersion: 3 } };
    let mut answers = [given; EVENTS];
    assert_eq!(play_by_null(&mut bank, &mut lines, &mut word, &mut answers), 0);
    assert_eq!(answers, [Answer::default(); EVENTS]);
    answers.fill(given);
    assert_eq!(play_by_null(&mut bank, &mut lines, &mut word, &mut answers[1..]), 1);
    assert_eq!(answers, [given; EVENTS], "answers of another length stay");
    assert_eq!(play_by_null(&mut [], &mut lines, &mut word, &mut answers), 1);
    assert_eq!(answers, [Answer { number: 1, counts: Counts::default() }; EVENTS]);
    assert!(before == bank && word == 33 && lines.iter().all(|x| x.to_bits() == 0));
}

#[test]
fn a_flag_of_an_event_is_0_or_1() {
    let (mut lines, mut word) = (vec![0.0; LINES], 33);
    let mut bank = vec![0; BANK_BYTES];
    assert_eq!(raw::fresh(&mut bank), 0);
    let plain = Event::new(3, 9, &knobs());
    for (trigger, sustain) in [(2, 0), (0, 2), (u32::MAX, 1), (1, u32::MAX), (256, 0)] {
        for place in [0, 40, 64] {
            let mut sheet = [plain; EVENTS + 1];
            sheet[place] = Event { trigger, sustain, ..plain };
            let mut answers = [Answer::default(); EVENTS];
            let mut buffers = [[0.0; 2], [0.0; 2], [0.0; 2], [0.0; 2]];
            let lent = buffers.each_mut().map(|buffer| &mut buffer[..]);
            let number =
                raw::play(&mut bank, &mut lines, &mut word, &sheet, &mut answers, lent, false);
            assert_eq!(number, 1, "{trigger} and {sustain} at {place}");
            assert!(answers.iter().all(|answer| answer.number == 1));
        }
    }
}

#[test]
fn a_bank_may_begin_at_any_address() {
    let left = renders(0, 64, by_slices);
    for place in 1..8 {
        assert!(left == renders(place, 64, by_slices), "other bits {place} bytes further on");
    }
}
