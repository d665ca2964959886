//! What the Rust does to an f32 by `as usize`, `min`, `clamp` and `abs`.

use super::{Function, everywhere, float, outputs};
use crate::draws::canonical;
use crate::format::{Inputs, Outputs};

pub const WHOLE_PART: Function = Function {
    number: 1,
    name: "whole_part",
    domain: |inputs| below_2_64(inputs[0]),
    answer: whole_part,
};

pub const FRACTION: Function = Function {
    number: 2,
    name: "fraction",
    domain: |inputs| below_2_64(inputs[0]),
    answer: fraction,
};

pub const MIN: Function = Function {
    number: 3,
    name: "min",
    domain: |inputs| !zeros_of_two_signs(inputs),
    answer: |inputs| outputs([canonical(float(inputs[0]).min(float(inputs[1])))]),
};

pub const CLAMP: Function = Function {
    number: 4,
    name: "clamp",
    domain: |inputs| {
        let (lo, hi) = ends(inputs);
        lo <= hi
    },
    answer: clamp,
};

pub const ABS: Function = Function {
    number: 5,
    name: "abs",
    domain: everywhere,
    answer: |inputs| outputs([canonical(float(inputs[0]).abs())]),
};

/// Whether the float of these bits is below 2^64 or a NaN.
pub fn below_2_64(bits: u32) -> bool {
    let x = float(bits);
    x < 18446744073709551616.0 || x.is_nan()
}

/// Of +0 and -0 `min` may give either.
fn zeros_of_two_signs(inputs: &Inputs) -> bool {
    inputs[0] ^ inputs[1] == 0x8000_0000 && float(inputs[0]) == 0.0
}

fn whole_part(inputs: &Inputs) -> Outputs {
    let whole = float(inputs[0]) as usize as u64;
    outputs([whole as u32, (whole >> 32) as u32])
}

fn fraction(inputs: &Inputs) -> Outputs {
    let x = float(inputs[0]);
    outputs([canonical(x - (x as usize as f32))])
}

/// The ends as they are where input 3 is odd, else -|a| and |b| with 0 for a NaN.
fn ends(inputs: &Inputs) -> (f32, f32) {
    let [a, b] = [float(inputs[1]), float(inputs[2])];
    if inputs[3] % 2 == 1 {
        return (a, b);
    }
    let size = |end: f32| if end.is_nan() { 0.0 } else { end.abs() };
    (-size(a), size(b))
}

fn clamp(inputs: &Inputs) -> Outputs {
    let (lo, hi) = ends(inputs);
    outputs([canonical(float(inputs[0]).clamp(lo, hi))])
}
