//! `interpolate`, `one_pole` and `crossfade` of `utils/mod.rs`, and `parameter_interpolator.rs`.

use super::{Function, everywhere, float, outputs};
use crate::draws::canonical;
use crate::format::{Inputs, Outputs};
use oracle::debug::Tree;
use oracle::resources::stiffness::LUT_STIFFNESS;
use oracle::utils::parameter_interpolator::ParameterInterpolator;

pub const INTERPOLATE: Function = Function {
    number: 8,
    name: "interpolate",
    domain: |inputs| float(inputs[0]) < 1.0 || float(inputs[0]).is_nan(),
    answer: interpolate,
};

pub const ONE_POLE: Function =
    Function { number: 9, name: "one_pole", domain: everywhere, answer: one_pole };

pub const CROSSFADE: Function =
    Function { number: 10, name: "crossfade", domain: everywhere, answer: crossfade };

pub const PARAMETER_INTERPOLATOR: Function = Function {
    number: 11,
    name: "parameter_interpolator",
    domain: |inputs| inputs[2] <= 4096 && inputs[3] <= 64,
    answer: parameter_interpolator,
};

fn interpolate(inputs: &Inputs) -> Outputs {
    let structure = float(inputs[0]);
    let stiffness = oracle::utils::interpolate(&LUT_STIFFNESS, structure, 64.0);
    outputs([canonical(stiffness)])
}

fn one_pole(inputs: &Inputs) -> Outputs {
    let [mut out, in_, coefficient] = [0, 1, 2].map(|k| float(inputs[k]));
    oracle::utils::one_pole(&mut out, in_, coefficient);
    outputs([canonical(out)])
}

fn crossfade(inputs: &Inputs) -> Outputs {
    let [a, b, fade] = [0, 1, 2].map(|k| float(inputs[k]));
    outputs([canonical(oracle::utils::crossfade(a, b, fade))])
}

fn parameter_interpolator(inputs: &Inputs) -> Outputs {
    let [mut state, new_value] = [0, 1].map(|k| float(inputs[k]));
    let size = inputs[2] as usize;
    let mut interpolator = ParameterInterpolator::new(&mut state, new_value, size);
    let text = format!("{interpolator:?}");
    let increment = Tree::read(&text).field("increment").float();
    let mut last = 0;
    for _ in 0..inputs[3] {
        last = canonical(interpolator.next());
    }
    drop(interpolator);
    outputs([canonical(state), canonical(increment), last])
}
