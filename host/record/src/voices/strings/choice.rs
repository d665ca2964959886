//! The choice of the sequences: limits, branch points with their neighbours, and random ones.

use super::super::choice::Play::{Both, Free, Sustain, Trigger};
use super::super::choice::{Choice, Knobs, LENGTHS, LOWEST, MIDDLE, around, turn};
use super::super::format::Given;
use crate::draws::previous;

const RATES: [f32; 4] = [8000.0, 44100.0, 48000.0, 192000.0];

/// All knobs but f0 as they are loudest over a curved bridge.
const LOUD: Knobs = Knobs { accent: 1.0, f0: 0.5, structure: 0.0, brightness: 1.0, damping: 1.0 };

/// The knobs under which the level rises fastest.
const RISING: Knobs = Knobs { f0: 0.25, structure: 0.25, brightness: 0.9, ..LOUD };

pub fn sequences() -> Vec<Vec<Given>> {
    let mut choice = Strings(Choice::default());
    choice.ledger();
    choice.lengths();
    choice.pitches();
    choice.empty_blocks();
    choice.structures();
    choice.colours();
    choice.sustained();
    choice.resets();
    choice.low_pitches();
    choice.every_block();
    choice.words();
    choice.tails();
    choice.loud();
    choice.far_delays();
    choice.random();
    choice.fewest_frames();
    choice.0.sequences
}

/// The turn of f0 from which on the phase is 1.
fn whole_ratio() -> [f32; 4] {
    turn(0.99985 / 1020.0, |f0| (1.0 / f0).clamp(4.0, 1020.0) * f0 >= 0.9999)
}

/// The f0 at and near the ends and the branches.
fn pitches() -> Vec<f32> {
    let ends = [LOWEST, LOWEST.next_up(), 2f32.powi(-14), 1.0 / 2048.0, 0.5f32.next_down(), 0.5];
    let near = around(&[1.0 / 1020.0, 0.25, 0.01, 0.1]);
    [&ends[..], &near, &whole_ratio()].concat()
}

/// The structures at and near the ends and the branches, the last where noise enters the dispersion.
fn structures() -> Vec<f32> {
    let plain = [0.0, -0.0, 1e-45, 0.12, 0.5, 0.8, 0.9, 1f32.next_down(), 1.0];
    let noisy = turn(0.8149, |structure| (structure - 0.26) * 1.35135 > 0.75);
    [&plain[..], &around(&[0.24, 0.25, 0.26]), &noisy].concat()
}

/// The string voice's own sequences.
struct Strings(Choice);

impl Strings {
    /// The example of 01, whose burst goes on over the next blocks.
    fn ledger(&mut self) {
        let knobs = Knobs { f0: 1.0 / 2048.0, ..MIDDLE };
        self.0.open(48000.0);
        self.0.render(Trigger, 8, knobs);
        for frames in [8, 0, 24, 512, 512, 512, 512] {
            self.0.render(Free, frames, knobs);
        }
    }

    fn lengths(&mut self) {
        for structure in [0.0, 0.25, 0.5] {
            self.0.open(48000.0);
            for frames in LENGTHS {
                for play in [Trigger, Free, Sustain] {
                    self.0.render(play, frames, Knobs { structure, ..MIDDLE });
                }
            }
        }
    }

    fn pitches(&mut self) {
        for (rate, structure) in RATES.into_iter().zip([0.5, 0.25, 0.0, 0.9]) {
            self.0.open(rate);
            for f0 in pitches() {
                let knobs = Knobs { f0, structure, ..MIDDLE };
                self.0.render(Trigger, 24, knobs);
                self.0.render(Free, 64, knobs);
            }
        }
    }

    /// Blocks of no frames, which still set the phase, the filters and the samples left.
    fn empty_blocks(&mut self) {
        self.0.open(44100.0);
        for f0 in whole_ratio().into_iter().chain([0.5, LOWEST, 1.0 / 3000.0]) {
            for (play, frames) in [(Trigger, 0), (Free, 1), (Sustain, 0), (Free, 2)] {
                self.0.render(play, frames, Knobs { f0, ..MIDDLE });
            }
        }
        self.0.open(48000.0);
        self.0.render(Free, 0, Knobs { f0: 0.5, ..MIDDLE });
        self.0.reset();
        self.0.render(Free, 3, Knobs { f0: LOWEST, structure: 0.0, ..MIDDLE });
    }

    fn structures(&mut self) {
        for (rate, f0) in RATES.into_iter().zip([0.002, 0.02, 0.055, 0.2]) {
            self.0.open(rate);
            for structure in structures() {
                let play = self.0.pick(&[Trigger, Sustain, Both, Free]);
                self.0.render(play, 64, Knobs { f0, structure, ..MIDDLE });
            }
        }
    }

    /// Brightness, damping and accent at and near the ends and the branches.
    fn colours(&mut self) {
        let accents = [0.0, -0.0, 0.5, 1.0];
        for ((rate, accent), f0) in RATES.into_iter().zip(accents).zip([0.1, 0.02, 0.005, 0.3]) {
            // The accent brings these to 0.95.
            let infinite = turn(0.925, |damping| damping + 0.25 * accent * (1.0 - damping) >= 0.95);
            self.0.open(rate);
            for brightness in [0.0, -0.0, 0.5, 1.0] {
                let ends = [0.0, -0.0, 0.5, 1f32.next_down(), 1.0];
                for damping in ends.into_iter().chain(infinite) {
                    let play = self.0.pick(&[Trigger, Sustain, Both]);
                    let structure = self.0.pick(&[0.0, 0.1, 0.25, 0.6, 0.95]);
                    let knobs = Knobs { accent, f0, structure, brightness, damping };
                    self.0.render(play, 64, knobs);
                }
            }
        }
    }

    /// Sustain, after whose end the samples left play out as a burst.
    fn sustained(&mut self) {
        for (f0, frames, blocks) in [(0.002, 64, 9), (0.001, 512, 3), (2f32.powi(-14), 4096, 5)] {
            for structure in [0.1, 0.6] {
                let knobs = Knobs { f0, structure, brightness: 0.8, ..MIDDLE };
                self.0.open(44100.0);
                self.0.render(Sustain, frames, knobs);
                self.0.render(Both, frames / 2, Knobs { accent: 1.0, ..knobs });
                for _ in 0..blocks {
                    self.0.render(Free, frames, knobs);
                }
                self.0.render(Sustain, 24, knobs);
                self.0.render(Free, 3, knobs);
            }
        }
    }

    /// Resets after an opening, in a burst, in a sustained sound and one after another.
    fn resets(&mut self) {
        for structure in [0.0, 0.25, 0.7] {
            let knobs = Knobs { f0: 1.0 / 300.0, structure, ..MIDDLE };
            self.0.open(48000.0);
            self.0.reset();
            self.0.render(Trigger, 64, knobs);
            self.0.reset();
            self.0.render(Free, 64, knobs);
            self.0.render(Sustain, 512, knobs);
            self.0.reset();
            self.0.reset();
            self.0.render(Free, 24, knobs);
            self.0.render(Free, 512, Knobs { f0: 1.0 / 1500.0, ..knobs });
            self.0.reset();
            self.0.render(Free, 1, Knobs { f0: 1.0 / 1500.0, ..knobs });
        }
    }

    /// Pitches below the longest delay, at which only some frames take a step of the string.
    fn low_pitches(&mut self) {
        let slow = [1.0 / 1100.0, 1.0 / 2040.0, 1.0 / 4080.0, 0.0004, 2f32.powi(-14), LOWEST];
        for structure in [0.05, 0.75] {
            self.0.open(48000.0);
            for f0 in slow {
                let knobs = Knobs { accent: 0.8, f0, structure, ..MIDDLE };
                self.0.render(Trigger, 512, knobs);
                self.0.render(Free, 64, knobs);
                self.0.render(Sustain, 64, knobs);
            }
            for f0 in [LOWEST, 2f32.powi(-14), 0.0004] {
                self.0.render(Both, 4096, Knobs { f0, structure, damping: 1.0, ..MIDDLE });
            }
        }
    }

    /// A trigger on every block, and none at all.
    fn every_block(&mut self) {
        self.0.open(48000.0);
        for k in 0..24 {
            let f0 = 0.4 / (1.0 + k as f32);
            let structure = k as f32 / 23.0;
            self.0.render(Trigger, 24, Knobs { f0, structure, ..MIDDLE });
        }
        self.0.open(48000.0);
        for (k, structure) in structures().into_iter().enumerate() {
            let f0 = 0.001 * (1.0 + k as f32);
            self.0.render(Free, 24, Knobs { f0, structure, ..MIDDLE });
        }
    }

    /// Words whose first draw is at an end of the floats of 0 to 1.
    fn words(&mut self) {
        for structure in [0.2, 0.9] {
            self.0.open(48000.0);
            for drawn in [0, 1, 0xffff_ff7f, 0xffff_ff80, 0xffff_ffff] {
                for (play, brightness) in [(Trigger, 0.5), (Sustain, 0.0), (Sustain, 1.0)] {
                    let knobs = Knobs { f0: 0.3, structure, brightness, ..MIDDLE };
                    self.0.render_from(previous(drawn), play, 2, knobs);
                }
            }
        }
    }

    /// A strike and its decay to nothing, into the smallest floats.
    fn tails(&mut self) {
        for (structure, f0) in [(0.0, 0.1), (0.25, 0.02), (0.6, 0.03)] {
            let knobs = Knobs { accent: 0.0, f0, structure, brightness: 0.2, damping: 0.0 };
            self.0.open(48000.0);
            self.0.render(Trigger, 512, knobs);
            for _ in 0..40 {
                self.0.render(Free, 512, knobs);
            }
        }
    }

    /// Sounds that grow beyond all numbers: the level rises over a straight bridge and a short delay, then the bridge is curved
    /// and f0 falls.
    fn loud(&mut self) {
        for frames in [200, 320, 450, 600] {
            self.0.open(192000.0);
            self.0.render(Sustain, 1, LOUD);
            self.0.render(Sustain, frames, RISING);
            for f0 in [0.1, 0.03, 0.01, 0.002, 1.0 / 1020.0] {
                self.0.render(Sustain, 8, Knobs { f0, ..LOUD });
            }
            self.0.render(Free, 64, Knobs { structure: 0.5, ..LOUD });
            self.0.reset();
            self.0.render(Trigger, 24, Knobs { structure: 0.1, ..LOUD });
        }
    }

    /// The same frame by frame, from words found by trial.
    fn far_delays(&mut self) {
        // The first ends in NaN, the next three come to delays of 7e13, 6e12 and 2e15, and the last halts the Rust in its
        // eighth block of one frame.
        let found =
            [(520, 0, 0.0), (600, 2531, 0.0), (640, 388, 0.0), (640, 5157, 0.5), (640, 5208, 0.5)];
        for ((frames, word, damping), blocks) in found.into_iter().zip([6, 10, 16, 8, 8]) {
            let silent = Knobs { accent: 0.0, f0: 1.0 / 1020.0, brightness: 0.0, damping, ..LOUD };
            self.0.open(192000.0);
            self.0.render_from(word, Sustain, 1, LOUD);
            self.0.render_from(word, Sustain, frames, RISING);
            for _ in 0..blocks {
                self.0.render_from(word, Free, 1, silent);
            }
        }
    }

    /// Sequences of drawn calls.
    fn random(&mut self) {
        for _ in 0..40 {
            let own = 8000.0 + 184000.0 * self.0.draw();
            let rate = self.0.pick(&[RATES[0], RATES[1], RATES[2], RATES[3], own, own]);
            self.0.open(rate);
            for _ in 0..12 {
                self.random_call();
            }
        }
    }

    /// The sequence of the fewest frames known whose third render halts the Rust, in its sixth frame, by a delay of 1.7e20.
    fn fewest_frames(&mut self) {
        let [accent, f0, damping] = [0x3f795bfc, 0x3eb237b2, 0x3e0b770e].map(f32::from_bits);
        let first = Knobs { accent, f0, structure: 0.25, brightness: 0.0, damping };
        let [f0, brightness] = [0x3ee5bb74, 0x3f577666].map(f32::from_bits);
        let second = Knobs { accent: 1.0, f0, structure: 0.25, brightness, damping: 0.0 };
        let [accent, f0] = [0x3f7ec86f, 0x3a90310b].map(f32::from_bits);
        let [structure, brightness, damping] =
            [0x3a8bf974, 0x3ecd0924, 0x3f52e71f].map(f32::from_bits);
        let third = Knobs { accent, f0, structure, brightness, damping };
        self.0.open(f32::from_bits(0x47aba6d6));
        self.0.render_from(0, Free, 1, first);
        self.0.render_from(3451915375, Sustain, 355, second);
        self.0.render_from(0, Sustain, 6, third);
    }

    fn random_call(&mut self) {
        if self.0.draw() < 0.08 {
            return self.0.reset();
        }
        let (play, frames, knobs) = self.0.random_render(&pitches(), &structures());
        self.0.render(play, frames, knobs);
    }
}
