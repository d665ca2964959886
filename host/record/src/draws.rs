//! The generator, the shapes of drawn words, the contents of buffers, and digests.

use crate::format::{Inputs, Run};

const MULTIPLIER: u32 = 1664525;
const INCREMENT: u32 = 1013904223;

/// The word after w.
pub fn next(w: u32) -> u32 {
    w.wrapping_mul(MULTIPLIER).wrapping_add(INCREMENT)
}

/// The word before w.
pub fn previous(w: u32) -> u32 {
    // Each step doubles the number of low bits in which the inverse is right, from 3 on.
    let mut inverse = MULTIPLIER;
    for _ in 0..4 {
        let error = 2u32.wrapping_sub(MULTIPLIER.wrapping_mul(inverse));
        inverse = inverse.wrapping_mul(error);
    }
    w.wrapping_sub(INCREMENT).wrapping_mul(inverse)
}

/// The word as a float of 0 to 1, both included.
pub fn unit(w: u32) -> f32 {
    w as f32 / 4294967296.0
}

/// The bits of x, and one word for every NaN.
pub fn canonical(x: f32) -> u32 {
    if x.is_nan() { 0x7fc0_0000 } else { x.to_bits() }
}

/// The shapes into which a drawn word is brought, by their numbers.
pub mod shape {
    pub const ZERO: u32 = 0;
    pub const ANY: u32 = 1;
    pub const BELOW_2_64: u32 = 2;
    pub const UNIT: u32 = 3;
    pub const SIGNED_UNIT: u32 = 4;
    pub const DELAY: u32 = 5;
    pub const SEMITONES: u32 = 6;
    pub const BIT: u32 = 7;
    pub const BELOW_64: u32 = 8;
    pub const BELOW_1500: u32 = 9;
    pub const BELOW_4097: u32 = 10;
    pub const HALF_UNIT: u32 = 11;
    pub const RESONANCE: u32 = 12;
    pub const LAST: u32 = RESONANCE;
}

/// The word s in the shape of that number.
pub fn shaped(shape: u32, s: u32) -> u32 {
    match shape {
        shape::ZERO => 0,
        shape::ANY => s,
        shape::BELOW_2_64 => (s % 2) * 0x8000_0000 + (s / 2) % 0x5f80_0000,
        shape::UNIT => unit(s).to_bits(),
        shape::SIGNED_UNIT => (2.0 * unit(s) - 1.0).to_bits(),
        shape::DELAY => (unit(s) * 2048.0).to_bits(),
        shape::SEMITONES => (unit(s) * 240.0 - 120.0).to_bits(),
        shape::BIT => s % 2,
        shape::BELOW_64 => s % 64,
        shape::BELOW_1500 => s % 1500,
        shape::BELOW_4097 => s % 4097,
        shape::HALF_UNIT => (unit(s) * 0.5).to_bits(),
        shape::RESONANCE => (unit(s) * 100.0 + 0.5).to_bits(),
        _ => panic!("no shape has the number {shape}"),
    }
}

/// The shapes of the first inputs as nibbles, those after them being 0.
pub fn shapes(of_inputs: &[u32]) -> u32 {
    of_inputs.iter().rev().fold(0, |word, shape| word * 16 + shape)
}

/// The next case of a run, and the word after it.
pub fn case(shapes: u32, mut s: u32) -> (Inputs, u32) {
    let inputs = std::array::from_fn(|k| {
        s = next(s);
        shaped(shapes >> (4 * k) & 15, s)
    });
    (inputs, s)
}

/// The cases of a run.
pub fn cases(run: Run) -> impl Iterator<Item = Inputs> {
    (0..run.count).scan(run.seed, move |s, _| {
        let (inputs, after) = case(run.shapes, *s);
        *s = after;
        Some(inputs)
    })
}

/// The digest with one word more: its upper half is added to its lower, so that a sign reaches every later bit.
fn digest_with(h: u32, word: u32) -> u32 {
    let sum = h.wrapping_mul(16777619).wrapping_add(word);
    sum.wrapping_add(sum >> 16)
}

/// The digest of words in their order.
pub fn digest(words: impl IntoIterator<Item = u32>) -> u32 {
    words.into_iter().fold(2166136261, digest_with)
}

/// The digest of a buffer.
pub fn digest_of_buffer(buffer: &[f32]) -> u32 {
    digest(buffer.iter().copied().map(canonical))
}

/// A buffer of n samples from the seed word z: any floats where z % 8 is 7, else floats of -1 to 1.
pub fn buffer(n: usize, z: u32) -> Vec<f32> {
    let mut w = z;
    let sample = |_| {
        w = next(w);
        if z % 8 == 7 { f32::from_bits(w) } else { 2.0 * unit(w) - 1.0 }
    };
    (0..n).map(sample).collect()
}
