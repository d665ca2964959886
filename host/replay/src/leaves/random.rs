//! The generator and the dust, from a seed.

use super::functions::{Inputs, Outputs, float, outputs};
use crate::draws::canonical;
use crate::port::Port;

pub fn random(port: &mut dyn Port, inputs: &Inputs) -> Outputs {
    let word = port.get_word(inputs[0]);
    outputs([word, canonical(port.get_float(word)), canonical(port.noise(word))])
}

pub fn dust(port: &mut dyn Port, inputs: &Inputs) -> Outputs {
    let mut word = [inputs[1]];
    let sample = port.dust(float(inputs[0]), &mut word);
    outputs([canonical(sample), word[0]])
}
