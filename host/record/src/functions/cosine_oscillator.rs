//! The approximate cosine of `cosine_oscillator.rs`, and the amplitudes that `Resonator` makes of it.

use super::{Function, everywhere, float, outputs};
use crate::draws::canonical;
use crate::format::{Inputs, Outputs};
use oracle::debug::Tree;
use oracle::physical_modelling::resonator::{MAX_NUM_MODES, Resonator};
use oracle::utils::cosine_oscillator::{CosineOscillator, CosineOscillatorMode};

pub const COSINE_OSCILLATOR: Function = Function {
    number: 19,
    name: "cosine_oscillator",
    domain: everywhere,
    answer: cosine_oscillator,
};

pub const AMPLITUDES: Function =
    Function { number: 20, name: "amplitudes", domain: everywhere, answer: amplitudes };

fn cosine_oscillator(inputs: &Inputs) -> Outputs {
    let mut oscillator = CosineOscillator::new();
    oscillator.init(float(inputs[0]), CosineOscillatorMode::Approximate);
    let mut last = 0;
    for _ in 0..inputs[1] % 64 {
        last = canonical(oscillator.next());
    }
    let text = format!("{oscillator:?}");
    let tree = Tree::read(&text);
    let kept = ["y1", "y0", "iir_coefficient", "initial_amplitude"];
    let [y1, y0, iir_coefficient, initial_amplitude] =
        kept.map(|name| canonical(tree.field(name).float()));
    outputs([y1, y0, iir_coefficient, initial_amplitude, last])
}

fn amplitudes(inputs: &Inputs) -> Outputs {
    let mut resonator = Resonator::new();
    resonator.init(0.015, MAX_NUM_MODES);
    let text = format!("{resonator:?}");
    let amplitudes = Tree::read(&text).field("mode_amplitude").floats();
    outputs([canonical(amplitudes[inputs[0] as usize % MAX_NUM_MODES])])
}
