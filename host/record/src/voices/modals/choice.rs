//! The choice of the sequences: limits, branch points with their neighbours, and random ones. Left out is what halts the Rust:
//! structure 1, and a trigger without sustain on a block of no frames.

use super::super::choice::Play::{Both, Free, Sustain, Trigger};
use super::super::choice::{Choice, Knobs, LENGTHS, LOWEST, MIDDLE, Play, around};
use super::super::format::Given;
use crate::draws::previous;

/// The float below 1.
const BELOW_1: f32 = 1.0 - f32::EPSILON / 2.0;

/// The rate of every opening, which the voice does not read.
const RATE: f32 = 48000.0;

pub fn sequences() -> Vec<Vec<Given>> {
    let mut choice = Modals(Choice::default());
    choice.lengths();
    choice.pitches();
    choice.structures();
    choice.colours();
    choice.strikes_and_sustain();
    choice.every_block();
    choice.words();
    choice.tails();
    choice.random();
    choice.0.sequences
}

/// The f0 at and near the ends, and where the first and the last modes come to 0.499.
fn pitches() -> Vec<f32> {
    let ends = [LOWEST, LOWEST.next_up(), 2f32.powi(-14), 0.5f32.next_down(), 0.5];
    [&ends[..], &around(&[0.499, 0.25, 0.02, 0.0208, 0.1])].concat()
}

/// The structures at and near the ends, the turn of the stiffness and entries of its table.
fn structures() -> Vec<f32> {
    let plain = [0.0, -0.0, 1e-45, 0.1, 0.5, 0.75, 0.9, BELOW_1.next_down(), BELOW_1];
    [&plain[..], &around(&[1.0 / 64.0, 0.25, 17.0 / 64.0, 0.3, 63.0 / 64.0])].concat()
}

/// The modal voice's own sequences.
struct Modals(Choice);

impl Modals {
    /// A render, without its trigger where the Rust would halt.
    fn render(&mut self, play: Play, frames: u32, knobs: Knobs) {
        let play = if frames == 0 && matches!(play, Trigger) { Free } else { play };
        self.0.render(play, frames, knobs);
    }

    fn lengths(&mut self) {
        for structure in [0.0, 0.25, 0.6] {
            self.0.open(RATE);
            for frames in LENGTHS {
                for play in [Trigger, Free, Sustain] {
                    self.render(play, frames, Knobs { structure, ..MIDDLE });
                }
            }
        }
    }

    fn pitches(&mut self) {
        for structure in [0.05, 0.25, 0.5, 0.9] {
            self.0.open(RATE);
            for f0 in pitches() {
                let knobs = Knobs { f0, structure, ..MIDDLE };
                self.render(Trigger, 24, knobs);
                self.render(Sustain, 64, knobs);
            }
        }
    }

    fn structures(&mut self) {
        for f0 in [0.002, 0.02, 0.055, 0.2] {
            self.0.open(RATE);
            for structure in structures() {
                let play = self.0.pick(&[Trigger, Sustain, Both, Free]);
                self.render(play, 64, Knobs { f0, structure, ..MIDDLE });
            }
        }
    }

    /// Accent, brightness and damping at their ends and between.
    fn colours(&mut self) {
        let ends = [0.0, -0.0, 0.3, BELOW_1, 1.0];
        for (accent, f0) in ends.into_iter().zip([0.1, 0.02, 0.005, 0.3, 0.0005]) {
            self.0.open(RATE);
            for brightness in ends {
                for damping in ends {
                    let play = self.0.pick(&[Trigger, Sustain, Both]);
                    let structure = self.0.pick(&[0.0, 0.1, 0.25, 0.6, BELOW_1]);
                    let knobs = Knobs { accent, f0, structure, brightness, damping };
                    self.render(play, 24, knobs);
                }
            }
        }
    }

    /// Strikes within a sustained sound and after it, and blocks of no frames between.
    fn strikes_and_sustain(&mut self) {
        for structure in [0.1, 0.7] {
            let knobs = Knobs { f0: 0.004, structure, brightness: 0.8, ..MIDDLE };
            self.0.open(RATE);
            for (play, frames) in [
                (Sustain, 512),
                (Trigger, 64),
                (Both, 0),
                (Sustain, 0),
                (Free, 0),
                (Both, 24),
                (Free, 512),
                (Trigger, 1),
                (Trigger, 1),
                (Free, 64),
                (Sustain, 4096),
                (Trigger, 4096),
            ] {
                self.render(play, frames, knobs);
            }
        }
    }

    /// A trigger on every block, and none at all.
    fn every_block(&mut self) {
        for play in [Trigger, Free] {
            self.0.open(RATE);
            for k in 0..24 {
                let f0 = 0.4 / (1.0 + k as f32);
                let structure = k as f32 / 24.0;
                self.render(play, 24, Knobs { f0, structure, ..MIDDLE });
            }
        }
    }

    /// Words whose first draw is at an end of the floats of 0 to 1.
    fn words(&mut self) {
        self.0.open(RATE);
        for drawn in [0, 1, 0xffff_ff7f, 0xffff_ff80, 0xffff_ffff] {
            for brightness in [0.0, 0.5, 1.0] {
                let knobs = Knobs { f0: 0.3, brightness, ..MIDDLE };
                self.0.render_from(previous(drawn), Sustain, 2, knobs);
            }
        }
    }

    /// A strike and its decay to nothing, into the smallest floats.
    fn tails(&mut self) {
        for (structure, f0) in [(0.0, 0.1), (0.25, 0.02), (0.6, 0.03), (BELOW_1, 0.3)] {
            let knobs = Knobs { accent: 0.0, f0, structure, brightness: 0.2, damping: 0.0 };
            self.0.open(RATE);
            self.render(Trigger, 512, knobs);
            for _ in 0..30 {
                self.render(Free, 512, knobs);
            }
        }
    }

    /// Sequences of drawn calls.
    fn random(&mut self) {
        for _ in 0..40 {
            self.0.open(RATE);
            for _ in 0..12 {
                self.random_call();
            }
        }
    }

    fn random_call(&mut self) {
        let (play, frames, knobs) = self.0.random_render(&pitches(), &structures());
        let structure = knobs.structure.min(BELOW_1);
        self.render(play, frames, Knobs { structure, ..knobs });
    }
}
