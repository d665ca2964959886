//! The four buffers that a render is lent: temp, temp_2, out and aux.

use crate::draws::{buffer, canonical, digest_of_buffer};

/// The most samples of a buffer.
pub const LONGEST: u32 = 4224;

/// The samples of out that a row holds.
const FIRST: usize = 16;

#[derive(Default)]
pub struct Buffers([Vec<f32>; 4]);

impl Buffers {
    /// Buffers of these lengths, filled from the word z and from the three after it.
    pub fn filled(z: u32, lengths: [u32; 4]) -> Self {
        let filled = |k: u32| buffer(lengths[k as usize] as usize, z.wrapping_add(k));
        Buffers([0, 1, 2, 3].map(filled))
    }

    pub fn lent(&mut self) -> bleidhvan::Buffers<'_> {
        self.0.each_mut().map(|buffer| &mut buffer[..])
    }

    pub fn digests(&self) -> [u32; 4] {
        self.0.each_ref().map(|buffer| digest_of_buffer(buffer))
    }

    /// The first samples of out, and zeros where there are no more.
    pub fn first_of_out(&self) -> [u32; FIRST] {
        let out = &self.0[2];
        std::array::from_fn(|k| out.get(k).copied().map_or(0, canonical))
    }
}
