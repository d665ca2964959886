//! The approximate cosine oscillator, and the amplitudes that the resonator makes of it.

use super::functions::{Inputs, Outputs, float, one, outputs};
use crate::draws::canonical;
use crate::port::Port;

/// What an oscillator keeps after calls of `next`, and the last answer; the word 0 where there is none.
pub fn cosine_oscillator(port: &mut dyn Port, inputs: &Inputs) -> Outputs {
    let mut oscillator = [1.0; 4];
    port.oscillator_init(float(inputs[0]), &mut oscillator);
    let mut last = 0;
    for _ in 0..inputs[1] % 64 {
        last = canonical(port.oscillator_next(&mut oscillator));
    }
    let [y1, y0, iir_coefficient, initial_amplitude] = oscillator.map(canonical);
    outputs([y1, y0, iir_coefficient, initial_amplitude, last])
}

pub fn amplitudes(port: &mut dyn Port, inputs: &Inputs) -> Outputs {
    let mut amplitudes = [1.0; 24];
    port.amplitudes(0.015, &mut amplitudes);
    one(amplitudes[inputs[0] as usize % 24])
}
