//! `tan`, `DcBlocker` and the low pass of `Svf`, of `filter.rs`.

use super::{Function, everywhere, float, outputs};
use crate::draws::{buffer, canonical, digest_of_buffer};
use crate::format::{Inputs, Outputs};
use oracle::debug::Tree;
use oracle::utils::filter::{DcBlocker, FilterMode, FrequencyApproximation, OnePole, Svf};

pub const TAN: Function = Function { number: 12, name: "tan", domain: everywhere, answer: tan };

pub const DC_BLOCKER: Function =
    Function { number: 13, name: "dc_blocker", domain: everywhere, answer: dc_blocker };

pub const SVF_PROCESS: Function =
    Function { number: 14, name: "svf_process", domain: everywhere, answer: svf_process };

pub const SVF_PROCESS_BUFFER: Function = Function {
    number: 15,
    name: "svf_process_buffer",
    domain: everywhere,
    answer: svf_process_buffer,
};

/// The number of samples for which a word stands, at most 256.
fn samples(word: u32) -> usize {
    (word % 257) as usize
}

/// The lowest bit is 0 for Fast and 1 for Dirty.
fn approximation(word: u32) -> FrequencyApproximation {
    match word % 2 {
        0 => FrequencyApproximation::Fast,
        _ => FrequencyApproximation::Dirty,
    }
}

fn tan(inputs: &Inputs) -> Outputs {
    let g = OnePole::tan(float(inputs[0]), approximation(inputs[1]));
    outputs([canonical(g)])
}

fn dc_blocker(inputs: &Inputs) -> Outputs {
    let (pole, seed) = (float(inputs[0]), inputs[1]);
    let mut first = buffer(samples(inputs[2]), seed);
    let mut second = buffer(3, seed.wrapping_add(1));
    let mut blocker = DcBlocker::new();
    blocker.init(pole);
    blocker.process(&mut first);
    blocker.process(&mut second);
    let text = format!("{blocker:?}");
    let tree = Tree::read(&text);
    outputs([
        canonical(tree.field("x").float()),
        canonical(tree.field("y").float()),
        digest_of_buffer(&first),
        digest_of_buffer(&second),
    ])
}

/// The filter's coefficients and memory, then the digest of what it gave.
fn filter_and(svf: &Svf, out: &[f32]) -> Outputs {
    let text = format!("{svf:?}");
    let tree = Tree::read(&text);
    let kept =
        ["g", "r", "h", "state_1", "state_2"].map(|name| canonical(tree.field(name).float()));
    let [g, r, h, state_1, state_2] = kept;
    outputs([g, r, h, state_1, state_2, digest_of_buffer(out)])
}

fn set_f_q(svf: &mut Svf, inputs: &Inputs) {
    let (f, resonance) = (float(inputs[0]), float(inputs[1]));
    svf.set_f_q(f, resonance, approximation(inputs[2]));
}

fn svf_process(inputs: &Inputs) -> Outputs {
    let mut out = buffer(samples(inputs[4]), inputs[3]);
    let mut svf = Svf::new();
    if inputs[5] % 2 == 1 {
        svf.init();
    }
    if inputs[6] % 2 != 1 {
        set_f_q(&mut svf, inputs);
    }
    for sample in &mut out {
        *sample = svf.process(*sample, FilterMode::LowPass);
    }
    filter_and(&svf, &out)
}

fn svf_process_buffer(inputs: &Inputs) -> Outputs {
    let seed = inputs[3];
    let in_ = buffer(samples(inputs[4]), seed);
    let mut out = buffer(samples(inputs[5]), inputs[6]);
    let mut svf = Svf::new();
    set_f_q(&mut svf, inputs);
    for sample in buffer(5, seed.wrapping_add(1)) {
        svf.process(sample, FilterMode::LowPass);
    }
    svf.process_buffer(&in_, &mut out, FilterMode::LowPass);
    filter_and(&svf, &out)
}
