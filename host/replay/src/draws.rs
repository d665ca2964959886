//! The generator, the shapes of drawn words, the contents of buffers, and digests, as docs/RECORD.md has them.

/// The word after w.
pub fn next(w: u32) -> u32 {
    w.wrapping_mul(1664525).wrapping_add(1013904223)
}

/// The word as a float of 0 to 1, both included.
fn unit(w: u32) -> f32 {
    w as f32 / 4294967296.0
}

/// The bits of x, and one word for every NaN.
pub fn canonical(x: f32) -> u32 {
    if x.is_nan() { 0x7fc0_0000 } else { x.to_bits() }
}

/// The number of the last shape.
pub const LAST_SHAPE: u32 = 12;

/// The word s in the shape of that number.
fn shaped(shape: u32, s: u32) -> u32 {
    match shape {
        1 => s,
        2 => (s % 2) * 0x8000_0000 + (s / 2) % 0x5f80_0000,
        3 => unit(s).to_bits(),
        4 => (2.0 * unit(s) - 1.0).to_bits(),
        5 => (unit(s) * 2048.0).to_bits(),
        6 => (unit(s) * 240.0 - 120.0).to_bits(),
        7 => s % 2,
        8 => s % 64,
        9 => s % 1500,
        10 => s % 4097,
        11 => (unit(s) * 0.5).to_bits(),
        12 => (unit(s) * 100.0 + 0.5).to_bits(),
        _ => 0,
    }
}

/// The inputs of the next case of a run; nibble k of the shapes, from the lowest, is the shape of input k.
pub fn case(shapes: u32, s: &mut u32) -> [u32; 8] {
    std::array::from_fn(|k| {
        *s = next(*s);
        shaped(shapes >> (4 * k) & 15, *s)
    })
}

/// The digest of no words.
pub const BEGIN: u32 = 2166136261;

/// The digest h with one word more.
pub fn digest_with(h: u32, word: u32) -> u32 {
    let sum = h.wrapping_mul(16777619).wrapping_add(word);
    sum.wrapping_add(sum / 65536)
}

/// The digest of words in their order.
pub fn digest(words: impl IntoIterator<Item = u32>) -> u32 {
    words.into_iter().fold(BEGIN, digest_with)
}

/// The digest of a buffer or of a line.
pub fn digest_of_buffer(buffer: &[f32]) -> u32 {
    digest(buffer.iter().copied().map(canonical))
}

/// The buffer of n samples from a word z.
pub fn buffer(n: usize, z: u32) -> Vec<f32> {
    let mut w = z;
    let sample = |_| {
        w = next(w);
        if z % 8 == 7 { f32::from_bits(w) } else { 2.0 * unit(w) - 1.0 }
    };
    (0..n).map(sample).collect()
}
