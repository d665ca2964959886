//! `semitones_to_ratio` of `units.rs`, and the entries of the four tables.

use super::{Function, float, outputs};
use crate::draws::canonical;
use crate::format::{Inputs, Outputs};
use oracle::resources::stiffness::LUT_STIFFNESS;
use oracle::resources::svf::LUT_SVF_SHIFT;
use oracle::utils::units::semitones_to_ratio;

pub const SEMITONES_TO_RATIO: Function = Function {
    number: 21,
    name: "semitones_to_ratio",
    domain: |inputs| {
        let pitch = float(inputs[0]) + 128.0;
        pitch < 256.0 || pitch.is_nan()
    },
    answer: |inputs| outputs([canonical(semitones_to_ratio(float(inputs[0])))]),
};

pub const TABLES: Function = Function {
    number: 22,
    name: "tables",
    domain: |inputs| {
        let length = LENGTHS.get(inputs[0] as usize);
        length.is_some_and(|length| inputs[1] < *length)
    },
    answer: entry,
};

/// The lengths of the tables: stiffness, svf shift, pitch high and pitch low.
pub const LENGTHS: [u32; 4] = [LUT_STIFFNESS.len() as u32, LUT_SVF_SHIFT.len() as u32, 256, 256];

/// The private pitch tables are read where the other factor is 1.
fn entry(inputs: &Inputs) -> Outputs {
    let i = inputs[1];
    let entry = match inputs[0] {
        0 => LUT_STIFFNESS[i as usize],
        1 => LUT_SVF_SHIFT[i as usize],
        2 => semitones_to_ratio(i as f32 - 128.0),
        _ => semitones_to_ratio(i as f32 / 256.0),
    };
    outputs([canonical(entry)])
}
