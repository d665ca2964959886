//! Interpolation, the one-pole, crossfade, ratios of semitones, and the tables.

use super::functions::{Inputs, Outputs, float, one, outputs};
use crate::draws::canonical;
use crate::port::Port;

pub fn interpolate(port: &mut dyn Port, inputs: &Inputs) -> Outputs {
    one(port.interpolate(float(inputs[0])))
}

pub fn one_pole(port: &mut dyn Port, inputs: &Inputs) -> Outputs {
    let [out, in_, coefficient] = [0, 1, 2].map(|k| float(inputs[k]));
    one(port.one_pole(out, in_, coefficient))
}

pub fn crossfade(port: &mut dyn Port, inputs: &Inputs) -> Outputs {
    let [a, b, fade] = [0, 1, 2].map(|k| float(inputs[k]));
    one(port.crossfade(a, b, fade))
}

/// The kept value, the increment, and the last `next`, which is the kept value where there is one.
pub fn parameter_interpolator(port: &mut dyn Port, inputs: &Inputs) -> Outputs {
    let [state, new_value] = [0, 1].map(|k| float(inputs[k]));
    let mut interpolator = [1.0; 2];
    port.interpolator_new(state, new_value, inputs[2] as usize, &mut interpolator);
    let increment = canonical(interpolator[1]);
    for _ in 0..inputs[3] {
        port.interpolator_next(&mut interpolator);
    }
    let value = canonical(interpolator[0]);
    outputs([value, increment, if inputs[3] == 0 { 0 } else { value }])
}

pub fn semitones_to_ratio(port: &mut dyn Port, inputs: &Inputs) -> Outputs {
    one(port.ratio(float(inputs[0])))
}

pub fn entry(port: &mut dyn Port, inputs: &Inputs) -> Outputs {
    one(port.table(inputs[0], inputs[1] as usize))
}
