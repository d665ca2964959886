//! What the choices of sequences have in common: knobs, draws, and calls one after the other.

use super::format::{Given, MOST_FRAMES, Render};
use crate::SEED;
use crate::draws::{next, unit};

/// The lengths of blocks, from none to the most frames.
pub const LENGTHS: [u32; 8] = [0, 1, 2, 3, 24, 64, 512, MOST_FRAMES];

/// The lowest f0.
pub const LOWEST: f32 = 1.0 / 1048576.0;

#[derive(Clone, Copy)]
pub struct Knobs {
    pub accent: f32,
    pub f0: f32,
    pub structure: f32,
    pub brightness: f32,
    pub damping: f32,
}

pub const MIDDLE: Knobs =
    Knobs { accent: 0.5, f0: 0.01, structure: 0.5, brightness: 0.5, damping: 0.5 };

#[derive(Clone, Copy)]
pub enum Play {
    Free,
    Trigger,
    Sustain,
    Both,
}
use Play::{Both, Free, Sustain, Trigger};

/// A render of these knobs, with no frames, word and fill.
pub fn asked(play: Play, knobs: Knobs) -> Render {
    let Knobs { accent, f0, structure, brightness, damping } = knobs;
    let (sustain, trigger) = (matches!(play, Sustain | Both), matches!(play, Trigger | Both));
    let (frames, word, fill) = (0, 0, 0);
    Render { sustain, trigger, frames, accent, f0, structure, brightness, damping, word, fill }
}

/// Each number with the float below and the float above.
pub fn around(numbers: &[f32]) -> Vec<f32> {
    numbers.iter().flat_map(|x| [x.next_down(), *x, x.next_up()]).collect()
}

/// The first float from x on of which it holds, with two floats before it and one after.
pub fn turn(mut x: f32, holds: impl Fn(f32) -> bool) -> [f32; 4] {
    while !holds(x) {
        x = x.next_up();
    }
    let before = x.next_down();
    [before.next_down(), before, x, x.next_up()]
}

/// The sequences chosen so far, and the word of the draws.
pub struct Choice {
    pub sequences: Vec<Vec<Given>>,
    word: u32,
}

impl Default for Choice {
    fn default() -> Self {
        Choice::from_seed(SEED)
    }
}

impl Choice {
    pub fn from_seed(word: u32) -> Self {
        Choice { sequences: Vec::new(), word }
    }

    pub fn draw(&mut self) -> f32 {
        self.word = next(self.word);
        unit(self.word)
    }

    /// A word whose successors are not those of the draws.
    pub fn seed(&mut self) -> u32 {
        self.word = next(self.word);
        self.word.rotate_left(16).wrapping_mul(0x9e37_79b1)
    }

    pub fn pick<T: Copy>(&mut self, from: &[T]) -> T {
        let place = (self.draw() * from.len() as f32) as usize;
        from[place.min(from.len() - 1)]
    }

    pub fn add(&mut self, given: Given) {
        assert!(given.accepted(), "{given:?} is not accepted");
        self.sequences.last_mut().expect("an opening comes first").push(given);
    }

    /// Begins a sequence.
    pub fn open(&mut self, sample_rate: f32) {
        self.sequences.push(Vec::new());
        self.add(Given::Open { sample_rate });
    }

    pub fn reset(&mut self) {
        self.add(Given::Reset);
    }

    pub fn render(&mut self, play: Play, frames: u32, knobs: Knobs) {
        let word = self.seed();
        self.render_from(word, play, frames, knobs);
    }

    /// Renders with that word in the generator before it.
    pub fn render_from(&mut self, word: u32, play: Play, frames: u32, knobs: Knobs) {
        let fill = self.seed();
        self.add(Given::Render(Render { frames, word, fill, ..asked(play, knobs) }));
    }

    /// An f0 whose bits are drawn, so that every octave is as likely.
    fn any_pitch(&mut self) -> f32 {
        let [lowest, highest] = [LOWEST, 0.5].map(f32::to_bits);
        let above = self.draw() * (highest - lowest) as f32;
        f32::from_bits((lowest + above as u32).min(highest))
    }

    /// 0, 1 or, more often, a draw.
    fn knob(&mut self) -> f32 {
        let drawn = self.draw();
        self.pick(&[0.0, 1.0, drawn, drawn, drawn])
    }

    /// A length of a random block.
    fn frames(&mut self) -> u32 {
        let below = (self.draw() * 300.0) as u32;
        let frames = self.pick(&[below, below, below, 24, 64, 0, 1, 512]);
        if self.draw() < 0.02 { MOST_FRAMES } else { frames }
    }

    /// How a random block is played, its length and its knobs; a quarter of the pitches and three tenths of the structures are from the lists.
    pub fn random_render(&mut self, pitches: &[f32], structures: &[f32]) -> (Play, u32, Knobs) {
        let frames = self.frames();
        let play = self.pick(&[Trigger, Sustain, Both, Free, Free]);
        let f0 = match self.draw() {
            u if u < 0.25 => self.pick(pitches),
            u if u < 0.5 => LOWEST.max(0.5 * self.draw()),
            _ => self.any_pitch(),
        };
        let structure = if self.draw() < 0.3 { self.pick(structures) } else { self.draw() };
        let [accent, brightness, damping] = [0; 3].map(|_| self.knob());
        (play, frames, Knobs { accent, f0, structure, brightness, damping })
    }
}
