//! Lists of drawn calls on eight slots: plain ones, extreme ones, and loud ones whose sound grows beyond all numbers.

use record::banks::LINES;
use record::banks::format::{Asked, Call, Lent};
use record::draws::next;
use record::voices::choice::Play::{Free, Sustain, Trigger};
use record::voices::choice::{Choice, Knobs, LOWEST, MIDDLE, Play, around, asked};
use record::voices::format::{MOST_FRAMES, Render};

/// How the knobs of a list are drawn.
#[derive(Clone, Copy, Debug)]
enum Style {
    Plain,
    Loud,
    Still,
}

/// The calls of a list, drawn one by one.
pub struct List {
    choice: Choice,
    style: Style,
    /// The generator's word and the word that fills line memory, as the list begins.
    pub seed: u32,
    pub fill: u32,
    /// The calls that are left to be drawn.
    calls: u32,
    /// The slots that were not opened yet.
    unopened: u32,
}

/// The f0 at the ends, at the branches and between.
fn pitches() -> Vec<f32> {
    let ends = [LOWEST, LOWEST.next_up(), 2f32.powi(-14), 1.0 / 2048.0, 0.5f32.next_down(), 0.5];
    [&ends[..], &around(&[1.0 / 1020.0, 0.25, 0.01, 0.1, 0.499, 0.0208])].concat()
}

/// The structures at the ends and at the branches.
fn structures() -> Vec<f32> {
    let plain = [0.0, -0.0, 1e-45, 0.12, 0.5, 0.8, 0.9, 1f32.next_down(), 1.0];
    [&plain[..], &around(&[1.0 / 64.0, 0.24, 0.25, 0.26, 17.0 / 64.0, 0.815])].concat()
}

impl List {
    /// The list of that number of a run.
    pub fn new(run: u32, number: u32) -> Self {
        let mixed = next(run ^ number.wrapping_mul(0x9e37_79b1)).rotate_left(13);
        let mut choice = Choice::from_seed(next(mixed));
        let style =
            choice.pick(&[Style::Plain, Style::Plain, Style::Plain, Style::Loud, Style::Still]);
        let [seed, fill] = [0; 2].map(|_| choice.seed());
        let calls = 40 + (choice.draw() * 360.0) as u32;
        List { choice, style, seed, fill, calls, unopened: 8 }
    }

    fn slot(&mut self) -> u32 {
        (self.choice.draw() * 8.0).min(7.0) as u32
    }

    fn call(&mut self) -> (Call, Lent) {
        let mut lent = Lent { frames: [0; 4], fill: 0, lines: LINES as u32 };
        let slot = self.slot();
        let u = self.choice.draw();
        let asked = match (self.unopened, u) {
            (1.., _) if u < 0.8 => {
                self.unopened -= 1;
                return (Call { slot: self.unopened, asked: self.opening() }, lent);
            }
            (_, ..0.03) => self.opening(),
            (_, ..0.07) => Asked::Reset,
            _ => {
                let (play, frames, knobs) = self.render();
                lent = Lent { frames: [frames; 4], fill: self.choice.seed(), ..lent };
                Asked::Render(asked(play, knobs))
            }
        };
        let mut call = Call { slot, asked };
        if self.choice.draw() < 0.04 {
            self.fault(&mut call, &mut lent);
        }
        (call, lent)
    }

    fn opening(&mut self) -> Asked {
        let kind = self.choice.pick(&[1, 1, 2]);
        let own = 8000.0 + 184000.0 * self.choice.draw();
        let sample_rate = self.choice.pick(&[8000.0, 44100.0, 48000.0, 192000.0, own, own]);
        Asked::Open { kind, sample_rate }
    }

    fn render(&mut self) -> (Play, u32, Knobs) {
        let (play, frames, knobs) = self.choice.random_render(&pitches(), &structures());
        let short = frames.min(1 + (self.choice.draw() * 60.0) as u32);
        let frames = self.choice.pick(&[frames, short, short, short]);
        match self.style {
            Style::Plain => (play, frames, knobs),
            Style::Loud => self.loud(play, frames, knobs),
            Style::Still => {
                let play = if self.choice.draw() < 0.05 { Trigger } else { Free };
                (play, frames, Knobs { damping: 0.0, brightness: 0.2, ..knobs })
            }
        }
    }

    /// The level rises over a straight bridge and a short delay; then the bridge is curved and f0 falls.
    fn loud(&mut self, play: Play, frames: u32, knobs: Knobs) -> (Play, u32, Knobs) {
        let loud = Knobs { accent: 1.0, structure: 0.0, brightness: 1.0, damping: 1.0, ..MIDDLE };
        match self.choice.draw() {
            u if u < 0.4 => {
                (Sustain, 8 * frames.min(90), Knobs { f0: 0.25, structure: 0.25, ..loud })
            }
            u if u < 0.8 => (Sustain, frames.min(12), Knobs { f0: knobs.f0.max(0.001), ..loud }),
            _ => (play, frames, knobs),
        }
    }

    /// Something that the table refuses, most often.
    fn fault(&mut self, call: &mut Call, lent: &mut Lent) {
        let bad = self.choice.pick(&[f32::NAN, f32::INFINITY, -1e-45, 1f32.next_up(), -1.0, 0.6]);
        let frames = &mut lent.frames;
        match self.choice.pick(&[0, 1, 2, 3, 4, 5, 6]) {
            0 => call.slot = self.choice.pick(&[8, 9, u32::MAX]),
            1 => lent.lines = self.choice.pick(&[LINES as u32 - 1, LINES as u32 + 1, 0]),
            2 => frames[self.choice.pick(&[0, 1, 2, 3])] += 1,
            3 => *frames = frames.map(|n| n % 8 + MOST_FRAMES + 1),
            4 => {
                call.asked =
                    Asked::Open { kind: self.choice.pick(&[0, 3, u32::MAX]), sample_rate: bad }
            }
            _ => {
                if let Asked::Render(render) = &mut call.asked {
                    let which = self.choice.pick(&[0, 1, 2, 3, 4]);
                    *knobs_of(render)[which] = bad;
                }
            }
        }
    }
}

fn knobs_of(r: &mut Render) -> [&mut f32; 5] {
    [&mut r.f0, &mut r.accent, &mut r.structure, &mut r.brightness, &mut r.damping]
}

impl Iterator for List {
    type Item = (Call, Lent);

    fn next(&mut self) -> Option<Self::Item> {
        self.calls = self.calls.checked_sub(1)?;
        Some(self.call())
    }
}
