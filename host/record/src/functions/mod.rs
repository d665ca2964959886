//! The functions of the record, each by its number, its name and its answer.

pub mod cosine_oscillator;
pub mod delay_line;
pub mod filter;
pub mod floats;
pub mod random;
pub mod tables;
pub mod utils;

use crate::draws::{cases, digest};
use crate::format::{Inputs, Kind, Outputs, Record, Run};

pub struct Function {
    pub number: u32,
    pub name: &'static str,
    /// Whether the Rust gives one certain answer to these inputs.
    pub domain: fn(&Inputs) -> bool,
    pub answer: fn(&Inputs) -> Outputs,
}

/// Every function, in the order of the numbers from 1 on.
pub static FUNCTIONS: [Function; 22] = [
    floats::WHOLE_PART,
    floats::FRACTION,
    floats::MIN,
    floats::CLAMP,
    floats::ABS,
    random::RANDOM,
    random::DUST,
    utils::INTERPOLATE,
    utils::ONE_POLE,
    utils::CROSSFADE,
    utils::PARAMETER_INTERPOLATOR,
    filter::TAN,
    filter::DC_BLOCKER,
    filter::SVF_PROCESS,
    filter::SVF_PROCESS_BUFFER,
    delay_line::READS,
    delay_line::ALLPASS,
    delay_line::RESET,
    cosine_oscillator::COSINE_OSCILLATOR,
    cosine_oscillator::AMPLITUDES,
    tables::SEMITONES_TO_RATIO,
    tables::TABLES,
];

/// The function of that number.
pub fn function(number: u32) -> Option<&'static Function> {
    FUNCTIONS.iter().find(|function| function.number == number)
}

impl Function {
    /// The record of one case, none outside the domain.
    pub fn raw(&self, inputs: Inputs) -> Option<Record> {
        let outputs = self.answer_within(&inputs)?;
        Some(Record { function: self.number, kind: Kind::Raw { inputs, outputs } })
    }

    /// The record of a run, none where a case lies outside the domain.
    pub fn digest(&self, run: Run) -> Option<Record> {
        let mut outputs = Vec::new();
        for inputs in cases(run) {
            outputs.extend(self.answer_within(&inputs)?);
        }
        let digest = digest(outputs);
        Some(Record { function: self.number, kind: Kind::Digest { run, digest } })
    }

    fn answer_within(&self, inputs: &Inputs) -> Option<Outputs> {
        (self.domain)(inputs).then(|| (self.answer)(inputs))
    }
}

/// The domain of a function that answers everywhere.
fn everywhere(_: &Inputs) -> bool {
    true
}

fn float(bits: u32) -> f32 {
    f32::from_bits(bits)
}

/// The first outputs, those after them being 0.
fn outputs<const N: usize>(first: [u32; N]) -> Outputs {
    let mut outputs = [0; 7];
    outputs[..N].copy_from_slice(&first);
    outputs
}
