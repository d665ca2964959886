//! Any bytes as a bank, any lengths, any knobs: the number is that of a reading of the table in Rust, and a refused call changes nothing.
//! `REFUSALS` says how many cases are drawn.

use bleidhvan::Knobs;
use bleidhvan::layout::slot_bytes;
use bleidhvan::raw::{self, LINES, SLOT_BYTES};
use record::banks::format::{Asked, Call};
use record::banks::table::{self, Numbers};
use record::draws::{next, unit};
use record::voices::format::Render;

const BANK_BYTES: usize = 8 * SLOT_BYTES;

/// Draws, the low bits of a word left out.
struct Draws(u32);

impl Draws {
    fn word(&mut self) -> u32 {
        self.0 = next(self.0);
        let high = self.0 >> 16;
        self.0 = next(self.0);
        high << 16 | self.0 >> 16
    }

    fn pick<T: Copy>(&mut self, from: &[T]) -> T {
        from[self.word() as usize % from.len()]
    }

    fn bytes(&mut self, n: usize) -> Vec<u8> {
        (0..n).map(|_| self.word() as u8).collect()
    }

    /// A knob: often within 0 to 1, else at an edge or any bits.
    fn knob(&mut self) -> f32 {
        let any = f32::from_bits(self.word());
        let inside = unit(self.word());
        let odd = [f32::NAN, f32::INFINITY, f32::NEG_INFINITY, -0.0, 0.0, 1.0, -1e-45, 1e-45];
        let odd = self.pick(&odd);
        self.pick(&[inside, inside, inside, inside, inside, inside, odd, any, 1f32.next_up()])
    }
}

/// Word k of a slot's bytes.
fn word(slot: &[u8], k: usize) -> u32 {
    u32::from_le_bytes(slot[4 * k..][..4].try_into().expect("four bytes"))
}

fn numbers(slot: &[u8]) -> Numbers {
    Numbers {
        kind: word(slot, 0),
        string: word(slot, 6),
        stretch: word(slot, 7),
        left: word(slot, 23),
    }
}

/// The table, where a bank crosses as bytes.
fn number(bank: &[u8], call: &Call, lines: usize, frames: [usize; 4]) -> u32 {
    let flags = || (0..8).all(|slot| slot_bytes(bank, slot)[SLOT_BYTES - 1] <= 1);
    if bank.len() != BANK_BYTES || !flags() {
        return 1;
    }
    let slots = std::array::from_fn(|slot| numbers(slot_bytes(bank, slot)));
    table::number(&slots, call, lines, frames)
}

/// Bytes of any floats, with numbers and flags that the table lets pass but for one now and then.
fn near_bank(draws: &mut Draws) -> Vec<u8> {
    let mut bank = draws.bytes(BANK_BYTES);
    for slot in bank.chunks_mut(SLOT_BYTES) {
        let mut put = |place: usize, value: u32| {
            slot[4 * place..][..4].copy_from_slice(&value.to_le_bytes());
        };
        put(0, draws.pick(&[0, 1, 1, 1, 2, 2, 2]));
        put(6, draws.pick(&[0, 1, 512, 1022, 1023]));
        put(7, draws.pick(&[0, 1, 128, 254, 255]));
        put(23, draws.pick(&[0, 1, 1000, 1048575, 1048576]));
        slot[SLOT_BYTES - 1] = draws.pick(&[0, 1]);
    }
    if draws.word().is_multiple_of(4) {
        let slot = draws.pick(&[0, 3, 7]);
        let (place, value) =
            draws.pick(&[(0, 3), (6, 1024), (7, 256), (23, 1048577), (0, u32::MAX)]);
        bank[SLOT_BYTES * slot + 4 * place..][..4].copy_from_slice(&u32::to_le_bytes(value));
    }
    if draws.word().is_multiple_of(16) {
        let slot = draws.pick(&[0, 3, 7]);
        bank[SLOT_BYTES * (slot + 1) - 1] = draws.pick(&[2, 255]);
    }
    bank
}

fn asked(draws: &mut Draws) -> Asked {
    match draws.word() % 8 {
        0 => {
            let sample_rate = draws.pick(&[48000.0, 8000.0, 192000.0, 7999.0, f32::NAN]);
            Asked::Open { kind: draws.pick(&[0, 1, 2, 3, u32::MAX]), sample_rate }
        }
        1 => Asked::Reset,
        _ => {
            let [sustain, trigger] = [0; 2].map(|_| draws.pick(&[false, true]));
            let f0 = [2f32.powi(-20), 0.5, 0.01, 0.01, 0.3, 1e-7, 0.6];
            let own = draws.knob() * 0.5;
            let f0 = draws.pick(&[&f0[..], &[own; 4]].concat());
            let [accent, structure, brightness, damping] = [0; 4].map(|_| draws.knob());
            let (frames, word, fill) = (0, 0, 0);
            Asked::Render(Render {
                sustain,
                trigger,
                frames,
                accent,
                f0,
                structure,
                brightness,
                damping,
                word,
                fill,
            })
        }
    }
}

/// All that is lent to a call, and its bits.
struct Lent {
    bank: Vec<u8>,
    lines: Vec<f32>,
    buffers: [Vec<f32>; 4],
    word: u32,
}

impl Lent {
    fn new(draws: &mut Draws) -> Self {
        let length = draws.pick(&[0, 1, 392, 393, BANK_BYTES - 1, BANK_BYTES + 1, 4000]);
        let bank = match draws.word() % 16 {
            0 => draws.bytes(length),
            1 => draws.bytes(BANK_BYTES),
            _ => near_bank(draws),
        };
        let lines = draws.pick(&[0, 1280, LINES - 1, LINES + 1, LINES, LINES, LINES, LINES, LINES]);
        let frames = draws.pick(&[0, 1, 2, 24, 64, 24, 64, 4095, 4096, 4097]);
        let mut lengths = [frames; 4];
        if draws.word().is_multiple_of(12) {
            lengths = lengths.map(|n: usize| draws.pick(&[n, n, n.saturating_sub(1), n + 1]));
        }
        let any = |n: usize, draws: &mut Draws| -> Vec<f32> {
            (0..n).map(|_| f32::from_bits(draws.word())).collect()
        };
        let buffers = lengths.map(|n| any(n, draws));
        Lent { bank, lines: any(lines, draws), buffers, word: draws.word() }
    }

    fn call(&mut self, call: &Call, slow: bool) -> (u32, [usize; 3]) {
        let Lent { bank, lines, buffers, word } = self;
        let slot = call.slot as usize;
        match call.asked {
            Asked::Open { kind, sample_rate } => {
                (raw::open(bank, lines, slot, kind, sample_rate), [0; 3])
            }
            Asked::Reset => (raw::reset(bank, lines, slot), [0; 3]),
            Asked::Render(r) => {
                let Render { sustain, trigger, accent, f0, structure, brightness, damping, .. } = r;
                let knobs = Knobs { sustain, trigger, accent, f0, structure, brightness, damping };
                let buffers = buffers.each_mut().map(|buffer| &mut buffer[..]);
                let answer = raw::render(bank, lines, word, slot, &knobs, buffers, slow);
                let counts = answer.counts;
                (answer.number, [counts.burst, counts.dust, counts.dispersion])
            }
        }
    }

    /// The bits of everything but the bank.
    fn bits(&self) -> Vec<u32> {
        let floats = self.buffers.iter().flatten().chain(&self.lines);
        floats.map(|x| x.to_bits()).chain([self.word]).collect()
    }
}

#[test]
fn any_bytes_any_lengths_any_knobs() {
    let cases = std::env::var("REFUSALS").map_or(20_000, |n| n.parse().expect("a number"));
    let mut draws = Draws(33);
    let mut seen = [0; 19];
    for case in 0..cases {
        let mut lent = Lent::new(&mut draws);
        let slot = draws.pick(&[0, 1, 2, 3, 4, 5, 6, 7, 7, 8, u32::MAX]);
        let call = Call { slot, asked: asked(&mut draws) };
        let lengths = lent.buffers.each_ref().map(Vec::len);
        let expected = number(&lent.bank, &call, lent.lines.len(), lengths);
        let (bank, bits) = (lent.bank.clone(), lent.bits());
        let slow = case % 2 == 0;
        let (number, counts) = lent.call(&call, slow);
        assert_eq!(number, expected, "case {case}: {call:?}");
        seen[number as usize] += 1;
        if number != 0 {
            assert_eq!(counts, [0; 3], "case {case}: {call:?}");
            assert_eq!(lent.call(&call, !slow), (number, counts), "case {case}: {call:?}");
            assert!(bank == lent.bank && bits == lent.bits(), "case {case}: {call:?}");
        } else {
            let own = SLOT_BYTES * slot as usize..SLOT_BYTES * (slot as usize + 1);
            assert_eq!(bank[..own.start], lent.bank[..own.start], "case {case}: {call:?}");
            assert_eq!(bank[own.end..], lent.bank[own.end..], "case {case}: {call:?}");
        }
    }
    if cases >= 20_000 {
        let mut own = (0..=13).chain([17, 18]);
        assert!(own.all(|number| seen[number] > 20), "by number: {seen:?}");
    }
}

#[test]
fn every_length_around_every_bound() {
    let mut bank = vec![0; BANK_BYTES];
    assert_eq!(raw::fresh(&mut bank), 0);
    assert_eq!(raw::bank_bytes(), BANK_BYTES);
    assert_eq!(raw::open(&mut bank, &mut [0.0; LINES], 0, 1, 48000.0), 0);
    for length in (0..BANK_BYTES + 10).filter(|n| *n != BANK_BYTES) {
        let mut other = vec![0; length];
        assert_eq!(raw::fresh(&mut other), 1, "{length} bytes");
        other[..length.min(BANK_BYTES)].copy_from_slice(&bank[..length.min(BANK_BYTES)]);
        assert_eq!(raw::reset(&mut other, &mut [0.0; LINES], 0), 1, "{length} bytes");
    }
    for length in [0, 1, 1279, 1280, 10239, 10241, 20000] {
        assert_eq!(raw::reset(&mut bank, &mut vec![0.0; length], 0), 1, "{length} numbers");
    }
    for (length, number) in [(0, 0), (1, 0), (4095, 0), (4096, 0), (4097, 8), (5000, 8)] {
        for slow in [false, true] {
            let mut buffers = [0; 4].map(|_| vec![0.0; length]);
            let buffers = buffers.each_mut().map(|buffer| &mut buffer[..]);
            let (mut lines, mut word, knobs) = ([0.0; LINES], 1, Knobs::default());
            let answer = raw::render(&mut bank, &mut lines, &mut word, 0, &knobs, buffers, slow);
            assert_eq!(answer.number, number, "{length} frames");
        }
    }
}
