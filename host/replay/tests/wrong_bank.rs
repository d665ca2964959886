//! A port of which one call of the bank is wrong in one bit, once, is reported by the row and the field.

mod common;

use bleidhvan::raw::Answer;
use bleidhvan::{Buffers, Knobs};
use common::{has, recorded, replayed, rows};
use replay::File::{self, Banks, Modals, Strings};
use replay::{Libraries, Port, replay};

/// The frames of the render that is wrong, at least.
const FRAMES: usize = 64;

/// What a render was lent, and its answer.
struct Rendered<'a> {
    bank: &'a mut [u8],
    lines: &'a mut [f32],
    word: &'a mut u32,
    buffers: Buffers<'a>,
    answer: &'a mut Answer,
}

/// The libraries, but that behind the first accepted render of 64 frames or more something is changed.
struct WrongRender(Option<fn(Rendered)>);

impl Port for WrongRender {
    fn render(
        &mut self,
        bank: &mut [u8],
        lines: &mut [f32],
        word: &mut u32,
        slot: usize,
        knobs: &Knobs,
        mut buffers: Buffers<'_>,
        slow_subnormals: bool,
    ) -> Answer {
        let lent = buffers.each_mut().map(|buffer| &mut buffer[..]);
        let mut answer = Libraries.render(bank, lines, word, slot, knobs, lent, slow_subnormals);
        let is_long = answer.number == 0 && buffers[0].len() >= FRAMES;
        if let Some(change) = self.0.take_if(|_| is_long) {
            change(Rendered { bank, lines, word, buffers, answer: &mut answer });
        }
        answer
    }
}

/// The number of that render's row.
fn wrong_row(file: File) -> usize {
    let accepted = |row: &Vec<u32>| file != Banks || row[17] == 0;
    let is_long = |row: &Vec<u32>| row[0] == 2 && row[2] as usize >= FRAMES;
    let found = rows(file).iter().position(|row| is_long(row) && accepted(row));
    found.expect("there is such a render")
}

/// The change shows in that field of the render's row.
fn shows_in(file: File, field: &str, change: fn(Rendered)) {
    let row = wrong_row(file);
    let report = replayed(file, &rows(file)[..=row], &mut WrongRender(Some(change)));
    assert_eq!(report.differ, 1, "{field}: {report}");
    assert!(has(&report, row, field), "{field}: {report}");
}

fn turn(x: &mut f32) {
    *x = f32::from_bits(x.to_bits() ^ 1);
}

#[test]
fn one_sample_of_a_render() {
    for file in [Strings, Modals, Banks] {
        shows_in(file, "digest of temp", |render| turn(&mut render.buffers[0][63]));
        shows_in(file, "digest of temp_2", |render| turn(&mut render.buffers[1][0]));
        shows_in(file, "digest of out", |render| turn(&mut render.buffers[2][40]));
        shows_in(file, "sample 3 of out", |render| turn(&mut render.buffers[2][3]));
        shows_in(file, "digest of aux", |render| turn(&mut render.buffers[3][63]));
    }
}

#[test]
fn one_number_that_a_string_keeps() {
    shows_in(Strings, "write_ptr of the string line", |render| render.bank[24] ^= 1);
    shows_in(Strings, "state_1 of the damping filter", |render| render.bank[44] ^= 1);
    shows_in(Strings, "remaining_noise_samples", |render| render.bank[92] ^= 1);
    shows_in(Strings, "digest of the string line", |render| turn(&mut render.lines[1023]));
    shows_in(Strings, "digest of the stretch line", |render| turn(&mut render.lines[1024]));
}

#[test]
fn one_number_that_a_modal_voice_keeps() {
    shows_in(Modals, "the held strike", |render| render.bank[392] ^= 1);
    shows_in(Modals, "digest of the amplitudes", |render| render.bank[104 + 4 * 23] ^= 1);
    shows_in(Modals, "state_2 of the excitation filter", |render| render.bank[100] ^= 1);
    shows_in(Modals, "state_1 of mode 3 of the first batch", |render| render.bank[224] ^= 1);
    shows_in(Modals, "state_2 of mode 0 of the last batch", |render| render.bank[364] ^= 1);
    shows_in(Modals, "digest of state_1 of all modes", |render| render.bank[264] ^= 1);
}

#[test]
fn one_number_that_a_bank_keeps() {
    shows_in(Banks, "digest of line memory", |render| turn(&mut render.lines[10239]));
    shows_in(Banks, "digest of the record of slot 0", |render| render.bank[4] ^= 1);
    shows_in(Banks, "digest of the record of slot 7", |render| render.bank[7 * 393 + 392] ^= 1);
}

#[test]
fn the_word_and_the_counts() {
    for file in [Strings, Modals, Banks] {
        shows_in(file, "the generator's word", |render| *render.word ^= 1);
    }
    shows_in(Banks, "count of the burst", |render| render.answer.counts.burst ^= 1);
    shows_in(Banks, "count of the dust", |render| render.answer.counts.dust ^= 1);
    shows_in(Banks, "count of the dispersion", |render| render.answer.counts.dispersion ^= 1 << 40);
    let by_counts = "the generator's word by the counts";
    for file in [Strings, Modals] {
        shows_in(file, by_counts, |render| render.answer.counts.burst ^= 1);
        shows_in(file, by_counts, |render| render.answer.counts.dust ^= 1);
        shows_in(file, by_counts, |render| render.answer.counts.dispersion ^= 1 << 40);
    }
}

/// The libraries, but that the first number that one function returns is wrong.
#[derive(Default)]
struct WrongNumber {
    fresh: bool,
    open: bool,
    reset: bool,
}

/// The number, wrong where it is the first.
fn number(wrong: &mut bool, number: u32) -> u32 {
    number ^ u32::from(std::mem::take(wrong))
}

impl Port for WrongNumber {
    fn fresh(&mut self, bank: &mut [u8]) -> u32 {
        number(&mut self.fresh, Libraries.fresh(bank))
    }

    fn open(
        &mut self,
        bank: &mut [u8],
        lines: &mut [f32],
        slot: usize,
        kind: u32,
        sample_rate_hz: f32,
    ) -> u32 {
        let answer = Libraries.open(bank, lines, slot, kind, sample_rate_hz);
        number(&mut self.open, answer)
    }

    fn reset(&mut self, bank: &mut [u8], lines: &mut [f32], slot: usize) -> u32 {
        number(&mut self.reset, Libraries.reset(bank, lines, slot))
    }
}

#[test]
fn the_number_that_a_call_returns() {
    let refusal = "the number of a refusal";
    for (file, field) in
        [(Strings, refusal), (Modals, refusal), (Banks, "the number of 01's table")]
    {
        shows_in(file, field, |render| render.answer.number ^= 1);
        let rows = rows(file);
        let first = |kind| rows.iter().position(|row| row[0] == kind);
        let none = WrongNumber::default;
        for (row, mut port) in [
            (Some(0), WrongNumber { fresh: true, ..none() }),
            (first(0), WrongNumber { open: true, ..none() }),
            (first(1), WrongNumber { reset: true, ..none() }),
        ] {
            // A modal voice has no reset.
            let Some(row) = row else { continue };
            let report = replayed(file, &rows[..=row], &mut port);
            assert!(has(&report, row, field), "{} {row}: {report}", file.name());
        }
    }
}

/// The libraries, but that a reset does nothing, or that an opening leaves the lines as they were.
#[derive(Default)]
struct Forgets {
    reset: bool,
    lines: bool,
}

impl Port for Forgets {
    fn open(
        &mut self,
        bank: &mut [u8],
        lines: &mut [f32],
        slot: usize,
        kind: u32,
        sample_rate_hz: f32,
    ) -> u32 {
        let before = lines.to_vec();
        let answer = Libraries.open(bank, lines, slot, kind, sample_rate_hz);
        if self.lines {
            lines.copy_from_slice(&before);
        }
        answer
    }

    fn reset(&mut self, bank: &mut [u8], lines: &mut [f32], slot: usize) -> u32 {
        if self.reset { 0 } else { Libraries.reset(bank, lines, slot) }
    }
}

#[test]
fn what_an_opening_and_a_reset_set_to_0() {
    let none = Forgets::default;
    for file in [Strings, Banks] {
        let differ = |mut port: Forgets| {
            replay(file, &recorded(file), &mut port).expect("the file is well formed").differ
        };
        assert_eq!(differ(none()), 0, "{}", file.name());
        assert!(differ(Forgets { reset: true, ..none() }) > 5, "{}", file.name());
        assert!(differ(Forgets { lines: true, ..none() }) > 5, "{}", file.name());
    }
}

/// The libraries, but that the first sample of out is wrong where that is said of subnormal numbers.
struct WrongWhere {
    slow_subnormals: bool,
}

impl Port for WrongWhere {
    fn render(
        &mut self,
        bank: &mut [u8],
        lines: &mut [f32],
        word: &mut u32,
        slot: usize,
        knobs: &Knobs,
        mut buffers: Buffers<'_>,
        slow_subnormals: bool,
    ) -> Answer {
        let lent = buffers.each_mut().map(|buffer| &mut buffer[..]);
        let answer = Libraries.render(bank, lines, word, slot, knobs, lent, slow_subnormals);
        if slow_subnormals == self.slow_subnormals {
            buffers[2].iter_mut().take(1).for_each(turn);
        }
        answer
    }
}

#[test]
fn both_ways_with_subnormal_numbers() {
    for file in [Strings, Modals, Banks] {
        for slow_subnormals in [false, true] {
            let mut port = WrongWhere { slow_subnormals };
            let report = replay(file, &recorded(file), &mut port).expect("the file is well formed");
            assert!(report.differ > 400, "{}, slow {slow_subnormals}: {report}", file.name());
        }
    }
}
