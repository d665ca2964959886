//! The tangents, the DC blocker and the low pass of the state variable filter.

use super::functions::{Inputs, Outputs, float, one, outputs};
use crate::draws::{buffer, canonical, digest_of_buffer};
use crate::port::Port;

/// What a filter's `new` or `init` writes over.
const BEFORE: f32 = 1.0;

/// The number of samples for which a word stands, at most 256.
fn samples(word: u32) -> usize {
    (word % 257) as usize
}

/// The lowest bit is 0 for Fast and 1 for Dirty.
fn is_dirty(approximation: u32) -> bool {
    approximation % 2 == 1
}

pub fn tan(port: &mut dyn Port, inputs: &Inputs) -> Outputs {
    one(port.tan(float(inputs[0]), is_dirty(inputs[1])))
}

/// A buffer, and a second one of three samples after it.
pub fn dc_blocker(port: &mut dyn Port, inputs: &Inputs) -> Outputs {
    let mut first = buffer(samples(inputs[2]), inputs[1]);
    let mut second = buffer(3, inputs[1].wrapping_add(1));
    let mut blocker = [BEFORE; 3];
    port.dc_blocker_init(float(inputs[0]), &mut blocker);
    port.dc_blocker_process(&mut blocker, &mut first);
    port.dc_blocker_process(&mut blocker, &mut second);
    let [_, x, y] = blocker.map(canonical);
    outputs([x, y, digest_of_buffer(&first), digest_of_buffer(&second)])
}

fn set_f_q(port: &mut dyn Port, svf: &mut [f32], inputs: &Inputs) {
    port.svf_set_f_q(svf, float(inputs[0]), float(inputs[1]), is_dirty(inputs[2]));
}

/// The filter's coefficients and memory, then the digest of what it gave.
fn filter_and(svf: [f32; 5], out: &[f32]) -> Outputs {
    let [g, r, h, state_1, state_2] = svf.map(canonical);
    outputs([g, r, h, state_1, state_2, digest_of_buffer(out)])
}

/// `init` where its input is odd, and `set_f_q` unless the input that leaves it out is.
pub fn svf_process(port: &mut dyn Port, inputs: &Inputs) -> Outputs {
    let mut out = buffer(samples(inputs[4]), inputs[3]);
    let mut svf = [BEFORE; 5];
    port.svf_new(&mut svf);
    if inputs[5] % 2 == 1 {
        port.svf_init(&mut svf);
    }
    if inputs[6].is_multiple_of(2) {
        set_f_q(port, &mut svf, inputs);
    }
    for sample in &mut out {
        *sample = port.svf_process(&mut svf, *sample);
    }
    filter_and(svf, &out)
}

/// `process_buffer` from samples of one seed to a buffer that holds samples of another, after five samples one by one.
pub fn svf_process_buffer(port: &mut dyn Port, inputs: &Inputs) -> Outputs {
    let in_ = buffer(samples(inputs[4]), inputs[3]);
    let mut out = buffer(samples(inputs[5]), inputs[6]);
    let mut svf = [BEFORE; 5];
    port.svf_new(&mut svf);
    set_f_q(port, &mut svf, inputs);
    for sample in buffer(5, inputs[3].wrapping_add(1)) {
        port.svf_process(&mut svf, sample);
    }
    port.svf_process_buffer(&mut svf, &in_, &mut out);
    filter_and(svf, &out)
}
