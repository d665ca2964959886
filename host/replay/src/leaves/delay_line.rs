//! The delay line, in the sizes of the string and of its stretch.

use super::functions::{Inputs, Outputs, float, outputs};
use crate::draws::{buffer, canonical, digest_of_buffer};
use crate::port::Port;

/// A place as a word; one that has no word is the last.
fn word_of(place: usize) -> u32 {
    u32::try_from(place).unwrap_or(u32::MAX)
}

/// A new line with the samples of input 1 written, as many as input 2 says, and the next place.
fn written(port: &mut dyn Port, inputs: &Inputs) -> (Vec<f32>, usize) {
    let size = if inputs[0].is_multiple_of(2) { 1024 } else { 256 };
    let (mut line, mut write_ptr) = (vec![0.0; size], 0);
    for sample in buffer((inputs[2] % 1500) as usize, inputs[1]) {
        write_ptr = port.line_write(&mut line, write_ptr, sample);
    }
    (line, write_ptr)
}

pub fn reads(port: &mut dyn Port, inputs: &Inputs) -> Outputs {
    let (line, write_ptr) = written(port, inputs);
    let delay = float(inputs[3]);
    let linear = port.read_with_delay_frac(&line, write_ptr, delay);
    let hermite = port.read_hermite(&line, write_ptr, delay);
    outputs([canonical(linear), canonical(hermite), word_of(write_ptr)])
}

/// An all-pass, and then k more, each of the output before it.
pub fn allpass(port: &mut dyn Port, inputs: &Inputs) -> Outputs {
    let (mut line, write_ptr) = written(port, inputs);
    let (delay, coefficient) = (inputs[3] as usize, float(inputs[4]));
    let mut place = [write_ptr];
    let mut sample = float(inputs[5]);
    for _ in 0..1 + inputs[6] % 64 {
        sample = port.allpass(&mut line, &mut place, sample, delay, coefficient);
    }
    outputs([canonical(sample), word_of(place[0]), digest_of_buffer(&line)])
}

pub fn reset(port: &mut dyn Port, inputs: &Inputs) -> Outputs {
    let (mut line, _) = written(port, inputs);
    let before = digest_of_buffer(&line);
    let write_ptr = port.line_reset(&mut line);
    outputs([word_of(write_ptr), before, digest_of_buffer(&line)])
}
