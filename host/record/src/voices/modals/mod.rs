//! The Rust's `ModalVoice`.

mod choice;

use super::format::{Kind, MODALS, Render};
use super::player::{Buffers, Halt, Voice};
use crate::draws::{canonical, digest_of_buffer};
use oracle::debug::Tree;
use oracle::physical_modelling::modal_voice::ModalVoice;

pub use choice::sequences;

/// How many numbers a modal voice keeps.
pub const NUMBERS: usize = 75;

/// Every number of a voice: no held strike, the amplitudes, the excitation filter, and batch after batch.
pub fn record(voice: &ModalVoice) -> Vec<u32> {
    let text = format!("{voice:?}");
    let tree = Tree::read(&text);
    let resonator = tree.field("resonator");
    let mut numbers = resonator.field("mode_amplitude").floats();
    let filters = resonator.field("mode_filters").items();
    for filter in std::iter::once(tree.field("excitation_filter")).chain(filters) {
        numbers.extend(both(filter).concat());
    }
    std::iter::once(0).chain(numbers.into_iter().map(canonical)).collect()
}

/// The first and the second states of a filter's modes.
fn both(filter: &Tree) -> [Vec<f32>; 2] {
    ["state_1", "state_2"].map(|name| filter.field(name).floats())
}

impl Voice for ModalVoice {
    const KIND: Kind = MODALS;

    /// The sample rate is the bank's alone: the voice's `init` has none.
    fn opened(_sample_rate: f32) -> Self {
        let mut voice = ModalVoice::new();
        voice.init();
        voice
    }

    fn reset(&mut self) -> Result<(), Halt> {
        Err(Halt::Other("a modal voice has no reset".into()))
    }

    fn render(&mut self, r: &Render, [temp, temp_2, out, aux]: &mut Buffers) {
        let Render { sustain, trigger, accent, f0, structure, brightness, damping, .. } = *r;
        ModalVoice::render(
            self, sustain, trigger, accent, f0, structure, brightness, damping, temp, temp_2, out,
            aux,
        );
    }

    fn kept(&self) -> (Vec<u32>, [u32; 2]) {
        let text = format!("{self:?}");
        let tree = Tree::read(&text);
        let resonator = tree.field("resonator");
        let filters = resonator.field("mode_filters").items();
        let excitation = tree.field("excitation_filter");
        // No strike is held: the Rust has none.
        let mut words = vec![0, digest_of_buffer(&resonator.field("mode_amplitude").floats()), 0];
        for filter in [excitation, &filters[0], &filters[5]] {
            words.extend(both(filter).concat().into_iter().map(canonical));
        }
        let all = |name| -> Vec<f32> {
            filters.iter().flat_map(|filter| filter.field(name).floats()).collect()
        };
        (words, ["state_1", "state_2"].map(|name| digest_of_buffer(&all(name))))
    }
}
