//! The functions of the record by their numbers, with the names of what they take and give.

use super::{delay_line, filter, floats, oscillator, random, shaping};
use crate::draws::canonical;
use crate::fields::ANY;
use crate::port::Port;

/// The words that a function is asked with; those that it does not use are 0.
pub type Inputs = [u32; 8];

/// The words that a function answers; those that it does not use are 0.
pub type Outputs = [u32; 7];

pub type Answer = fn(&mut dyn Port, &Inputs) -> Outputs;

pub struct Function {
    pub name: &'static str,
    pub inputs: &'static [&'static str],
    outputs: &'static [&'static str],
    /// The most that each input may be.
    most: Inputs,
    pub answer: Answer,
}

const fn function(
    name: &'static str,
    inputs: &'static [&'static str],
    outputs: &'static [&'static str],
    answer: Answer,
) -> Function {
    let mut most = [0; 8];
    let mut k = 0;
    while k < inputs.len() {
        most[k] = ANY;
        k += 1;
    }
    Function { name, inputs, outputs, most, answer }
}

/// What both filters keep, and the digest of what they gave.
const SVF: &[&str] = &["g", "r", "h", "state_1", "state_2", "digest"];

/// Every function, in the order of the numbers from 1 on.
pub static FUNCTIONS: [Function; 22] = [
    function("whole_part", &["x"], &["low word", "high word"], floats::whole_part),
    function("fraction", &["x"], &["fraction"], |port, i| one(port.fraction(float(i[0])))),
    function("min", &["x", "y"], &["lesser"], |port, i| one(port.min(float(i[0]), float(i[1])))),
    function("clamp", &["x", "a", "b", "given"], &["clamped"], floats::clamp),
    function("abs", &["x"], &["magnitude"], |port, i| one(port.abs(float(i[0])))),
    function("random", &["s"], &["get_word", "get_float", "noise"], random::random),
    function("dust", &["frequency", "s"], &["sample", "word"], random::dust),
    function("interpolate", &["structure"], &["stiffness"], shaping::interpolate),
    function("one_pole", &["out", "in_", "coefficient"], &["out"], shaping::one_pole),
    function("crossfade", &["a", "b", "fade"], &["value"], shaping::crossfade),
    function(
        "parameter_interpolator",
        &["state", "new_value", "size", "k"],
        &["state", "increment", "last next"],
        shaping::parameter_interpolator,
    )
    .at_most(2, 4096)
    .at_most(3, 64),
    function("tan", &["f", "approximation"], &["tangent"], filter::tan),
    function(
        "dc_blocker",
        &["pole", "seed", "n"],
        &["x", "y", "first digest", "second digest"],
        filter::dc_blocker,
    ),
    function(
        "svf_process",
        &["f", "resonance", "approximation", "seed", "n", "init", "left out"],
        SVF,
        filter::svf_process,
    ),
    function(
        "svf_process_buffer",
        &["f", "resonance", "approximation", "seed", "n_in", "n_out", "seed_out"],
        SVF,
        filter::svf_process_buffer,
    ),
    function(
        "delay_line_reads",
        &["size", "seed", "writes", "delay"],
        &["read_with_delay_frac", "read_hermite", "write_ptr"],
        delay_line::reads,
    ),
    function(
        "allpass",
        &["size", "seed", "writes", "delay", "coefficient", "sample", "k"],
        &["last output", "write_ptr", "digest of the line"],
        delay_line::allpass,
    ),
    function(
        "reset",
        &["size", "seed", "writes"],
        &["write_ptr", "digest before", "digest after"],
        delay_line::reset,
    ),
    function(
        "cosine_oscillator",
        &["frequency", "k"],
        &["y1", "y0", "iir_coefficient", "initial_amplitude", "last next"],
        oscillator::cosine_oscillator,
    ),
    function("amplitudes", &["i"], &["amplitude"], oscillator::amplitudes),
    function("semitones_to_ratio", &["semitones"], &["ratio"], shaping::semitones_to_ratio),
    function("tables", &["which", "i"], &["entry"], shaping::entry).at_most(0, 3),
];

impl Function {
    /// The function, whose input k may be no more than that.
    const fn at_most(mut self, k: usize, most: u32) -> Self {
        self.most[k] = most;
        self
    }

    /// The inputs, each at most what it may be; those that are not in use are 0.
    pub fn bounded(&self, inputs: Inputs) -> Inputs {
        std::array::from_fn(|k| inputs[k].min(self.most[k]))
    }

    /// The name of input k.
    pub fn input(&self, k: usize) -> String {
        named("input", self.inputs, k, self.name)
    }

    /// The name of output k.
    pub fn output(&self, k: usize) -> String {
        named("output", self.outputs, k, self.name)
    }
}

fn named(what: &str, names: &[&str], k: usize, function: &str) -> String {
    match names.get(k) {
        Some(name) => format!("{what} {name} of {function}"),
        None => format!("unused {what} {k} of {function}"),
    }
}

pub fn float(bits: u32) -> f32 {
    f32::from_bits(bits)
}

/// The first outputs, those after them being 0.
pub fn outputs<const N: usize>(first: [u32; N]) -> Outputs {
    let mut outputs = [0; 7];
    outputs[..N].copy_from_slice(&first);
    outputs
}

/// The bits of a float as the one output.
pub fn one(x: f32) -> Outputs {
    outputs([canonical(x)])
}
