//! What is done to a float by `as usize` and `clamp`.

use super::functions::{Inputs, Outputs, float, one, outputs};
use crate::port::Port;

pub fn whole_part(port: &mut dyn Port, inputs: &Inputs) -> Outputs {
    let whole = port.whole_part(float(inputs[0])) as u64;
    outputs([whole as u32, (whole >> 32) as u32])
}

/// The ends are as given where input 3 is odd, else -|a| and |b| with 0 for a NaN.
pub fn clamp(port: &mut dyn Port, inputs: &Inputs) -> Outputs {
    let [x, a, b] = [0, 1, 2].map(|k| float(inputs[k]));
    let size = |end: f32| if end.is_nan() { 0.0 } else { end.abs() };
    let (lo, hi) = if inputs[3] % 2 == 1 { (a, b) } else { (-size(a), size(b)) };
    one(port.clamp(x, lo, hi))
}
