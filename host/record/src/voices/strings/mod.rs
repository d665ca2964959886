//! The Rust's `StringVoice`.

mod choice;

use super::format::{Kind, Render, STRINGS};
use super::player::{Buffers, Halt, Voice, numbers};
use crate::draws::{canonical, digest_of_buffer};
use oracle::debug::Tree;
use oracle::physical_modelling::string_voice::StringVoice;

pub use choice::sequences;

const SVF: [&str; 5] = ["g", "r", "h", "state_1", "state_2"];

/// How many numbers a string keeps beside its lines, and the place of the phase among them.
pub const NUMBERS: usize = 23;
pub const PHASE: usize = 19;

/// The numbers that a string keeps, and its string line and stretch line.
pub fn read(voice: &StringVoice) -> (Vec<u32>, [Vec<f32>; 2]) {
    let text = format!("{voice:?}");
    let tree = Tree::read(&text);
    let string = tree.field("string");
    let lines = [string.field("string"), string.field("stretch")];
    let mut words = lines.map(|line| line.field("write_ptr").index() as u32).to_vec();
    words.push(tree.field("remaining_noise_samples").index() as u32);
    words.extend(numbers(tree.field("excitation_filter"), &SVF));
    words.extend(numbers(string.field("iir_damping_filter"), &SVF));
    words.extend(numbers(string.field("dc_blocker"), &["pole", "x", "y"]));
    words.extend(numbers(string, &["delay", "dispersion_noise", "curved_bridge", "src_phase"]));
    words.extend(string.field("out_sample").floats().into_iter().map(canonical));
    words.extend(numbers(string, &["sample_rate_hz"]));
    (words, lines.map(|line| line.field("line").floats()))
}

impl Voice for StringVoice {
    const KIND: Kind = STRINGS;

    fn opened(sample_rate: f32) -> Self {
        let mut voice = StringVoice::new();
        voice.init(sample_rate);
        voice
    }

    fn reset(&mut self) -> Result<(), Halt> {
        StringVoice::reset(self);
        Ok(())
    }

    fn render(&mut self, r: &Render, [temp, temp_2, out, aux]: &mut Buffers) {
        let Render { sustain, trigger, accent, f0, structure, brightness, damping, .. } = *r;
        StringVoice::render(
            self, sustain, trigger, accent, f0, structure, brightness, damping, temp, temp_2, out,
            aux,
        );
    }

    fn kept(&self) -> (Vec<u32>, [u32; 2]) {
        let (words, lines) = read(self);
        (words, lines.map(|line| digest_of_buffer(&line)))
    }
}
