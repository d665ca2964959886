//! `DelayLine` of `delay_line.rs`, in the sizes of the string and of its stretch.

use super::floats::below_2_64;
use super::{Function, everywhere, float, outputs};
use crate::draws::{buffer, canonical, digest_of_buffer};
use crate::format::{Inputs, Outputs};
use oracle::debug::Tree;
use oracle::physical_modelling::string::DELAY_LINE_SIZE;
use oracle::utils::delay_line::DelayLine;

const STRETCH_SIZE: usize = DELAY_LINE_SIZE / 4;

pub const READS: Function = Function {
    number: 16,
    name: "delay_line_reads",
    domain: |inputs| below_2_64(inputs[3]),
    answer: |inputs| match inputs[0] % 2 {
        0 => reads::<DELAY_LINE_SIZE>(inputs),
        _ => reads::<STRETCH_SIZE>(inputs),
    },
};

pub const ALLPASS: Function = Function {
    number: 17,
    name: "allpass",
    domain: everywhere,
    answer: |inputs| match inputs[0] % 2 {
        0 => allpass::<DELAY_LINE_SIZE>(inputs),
        _ => allpass::<STRETCH_SIZE>(inputs),
    },
};

pub const RESET: Function = Function {
    number: 18,
    name: "reset",
    domain: everywhere,
    answer: |inputs| match inputs[0] % 2 {
        0 => reset::<DELAY_LINE_SIZE>(inputs),
        _ => reset::<STRETCH_SIZE>(inputs),
    },
};

/// A new line with the samples of input 1 written, as many as input 2 says.
fn written<const SIZE: usize>(inputs: &Inputs) -> DelayLine<f32, SIZE> {
    let mut line = DelayLine::new();
    for sample in buffer((inputs[2] % 1500) as usize, inputs[1]) {
        line.write(sample);
    }
    line
}

/// The write place, and the digest of the line.
fn place_and_digest<const SIZE: usize>(line: &DelayLine<f32, SIZE>) -> (u32, u32) {
    let text = format!("{line:?}");
    let tree = Tree::read(&text);
    let digest = digest_of_buffer(&tree.field("line").floats());
    (tree.field("write_ptr").index() as u32, digest)
}

fn reads<const SIZE: usize>(inputs: &Inputs) -> Outputs {
    let line = written::<SIZE>(inputs);
    let delay = float(inputs[3]);
    let linear = line.read_with_delay_frac(delay);
    let hermite = line.read_hermite(delay);
    let (write_ptr, _) = place_and_digest(&line);
    outputs([canonical(linear), canonical(hermite), write_ptr])
}

fn allpass<const SIZE: usize>(inputs: &Inputs) -> Outputs {
    let mut line = written::<SIZE>(inputs);
    let (delay, coefficient) = (inputs[3] as usize, float(inputs[4]));
    let mut sample = line.allpass(float(inputs[5]), delay, coefficient);
    for _ in 0..inputs[6] % 64 {
        sample = line.allpass(sample, delay, coefficient);
    }
    let (write_ptr, digest) = place_and_digest(&line);
    outputs([canonical(sample), write_ptr, digest])
}

fn reset<const SIZE: usize>(inputs: &Inputs) -> Outputs {
    let mut line = written::<SIZE>(inputs);
    let (_, before) = place_and_digest(&line);
    line.reset();
    let (write_ptr, after) = place_and_digest(&line);
    outputs([write_ptr, before, after])
}
