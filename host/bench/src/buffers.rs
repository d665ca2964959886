//! What a render is given.

/// What is rendered: its name, sustain, f0 and structure.
#[derive(Clone, Copy)]
pub struct Setting(pub &'static str, pub bool, pub f32, pub f32);

/// temp, temp_2, out and aux.
pub type Buffers = [Vec<f32>; 4];

pub fn silent(frames: usize) -> Buffers {
    std::array::from_fn(|_| vec![0.0; frames])
}

/// Whether every sample has the same bits.
pub fn same(a: &Buffers, b: &Buffers) -> bool {
    let bits =
        |buffers: &Buffers| -> Vec<u32> { buffers.iter().flatten().map(|x| x.to_bits()).collect() };
    bits(a) == bits(b)
}
