//! The choice of the lists: each check of the table at the ends of its range, checks in pairs, bad slots, line memory of another
//! length, and random calls on eight slots. Left out is what halts the Rust: of a modal voice structure 1, and a trigger without
//! sustain on a block of no frames.

use super::LINES;
use super::format::{Asked, Call, Given, Lent, Number};
use crate::voices::choice::Play::{self, Both, Free, Sustain, Trigger};
use crate::voices::choice::{Choice, Knobs, LOWEST, MIDDLE, asked};
use crate::voices::format::{MOST_FRAMES, Render};

const STRING: u32 = 1;
const MODAL: u32 = 2;

/// The float below 1.
const BELOW_1: f32 = 1.0 - f32::EPSILON / 2.0;

pub fn lists() -> Vec<Vec<Given>> {
    let mut lists = Lists::default();
    lists.openings();
    lists.slots_and_resets();
    lists.buffers();
    lists.knobs();
    lists.pairs();
    lists.bad_slots();
    lists.other_memory();
    lists.ledger();
    for (seed, calls) in [(0, 220), (33, 220), (u32::MAX, 220), (0x8000_0000, 220)] {
        lists.random(seed, calls);
    }
    lists.lists
}

/// The lists so far, and the kinds that the slots of the last one have.
#[derive(Default)]
struct Lists {
    lists: Vec<Vec<Given>>,
    choice: Choice,
    kinds: [u32; 8],
}

/// A call with the lengths of its buffers and of line memory.
#[derive(Clone, Copy)]
struct Asking {
    slot: u32,
    asked: Asked,
    frames: [u32; 4],
    lines: u32,
}

fn opening(slot: u32, kind: u32, sample_rate: f32) -> Asking {
    Asking { slot, asked: Asked::Open { kind, sample_rate }, frames: [0; 4], lines: LINES as u32 }
}

fn reset(slot: u32) -> Asking {
    Asking { slot, asked: Asked::Reset, frames: [0; 4], lines: LINES as u32 }
}

fn render(slot: u32, play: Play, frames: u32, knobs: Knobs) -> Asking {
    let asked = Asked::Render(asked(play, knobs));
    Asking { slot, asked, frames: [frames; 4], lines: LINES as u32 }
}

/// The floats at the ends of a range, those beyond them, and those of no range.
fn around_range(low: f32, high: f32) -> Vec<f32> {
    let inside = [low, low.next_up(), high.next_down(), high];
    let beyond = [low.next_down(), high.next_up(), -high, 2.0 * high];
    let nowhere = [f32::NAN, f32::INFINITY, f32::NEG_INFINITY, f32::MAX, f32::MIN];
    [&inside[..], &beyond, &nowhere].concat()
}

/// The lengths of four buffers of which temp has so many frames, and one or more of the others one less or one more.
fn by_one(frames: u32) -> Vec<[u32; 4]> {
    let near = move || frames.saturating_sub(1)..=frames + 1;
    let two = near().flat_map(|temp_2| near().map(move |out| (temp_2, out)));
    let all = two.flat_map(|(temp_2, out)| near().map(move |aux| [frames, temp_2, out, aux]));
    all.filter(|lengths| *lengths != [frames; 4]).collect()
}

/// The ways in which a render can be at fault, in the table's order.
fn faults() -> [(u32, fn(&mut Asking)); 12] {
    fn knobs(asking: &mut Asking, change: fn(&mut Render)) {
        if let Asked::Render(render) = &mut asking.asked {
            change(render);
        }
    }
    [
        (1, |a| a.lines -= 1),
        (2, |a| a.slot = 8),
        (5, |a| a.slot = 7),
        (7, |a| a.frames[1] += 1),
        (17, |a| a.frames[2] += 1),
        (18, |a| a.frames[3] += 1),
        (8, |a| a.frames = a.frames.map(|n| n % 64 + MOST_FRAMES + 1)),
        (9, |a| knobs(a, |r| r.f0 = 0.0)),
        (10, |a| knobs(a, |r| r.accent = f32::NAN)),
        (11, |a| knobs(a, |r| r.structure = 1.5)),
        (12, |a| knobs(a, |r| r.brightness = -1.0)),
        (13, |a| knobs(a, |r| r.damping = f32::INFINITY)),
    ]
}

impl Lists {
    fn begin(&mut self, seed: u32) {
        let fill = self.choice.seed();
        self.lists.push(vec![Given::Begin { seed, fill }]);
        self.kinds = [0; 8];
    }

    fn add(&mut self, given: Given) {
        self.lists.last_mut().expect("a list has begun").push(given);
    }

    fn call(&mut self, asking: Asking) {
        let Asking { slot, asked, frames, lines } = asking;
        let fill = if let Asked::Render(_) = asked { self.choice.seed() } else { 0 };
        let lent = Lent { frames, fill, lines };
        self.add(Given::Call { call: Call { slot, asked }, lent });
    }

    /// An opening that the table accepts.
    fn open(&mut self, slot: u32, kind: u32, sample_rate: f32) {
        self.kinds[slot as usize] = kind;
        self.call(opening(slot, kind, sample_rate));
    }

    /// A string in slot 0, a modal voice in slot 1.
    fn one_of_each(&mut self, seed: u32) {
        self.begin(seed);
        self.open(0, STRING, 48000.0);
        self.open(1, MODAL, 48000.0);
    }

    /// A strike in both, which shows what the calls before it left.
    fn strike_both(&mut self) {
        for slot in [0, 1] {
            self.call(render(slot, Trigger, 24, MIDDLE));
        }
    }

    /// Numbers 3 and 4, and openings over what a slot held.
    fn openings(&mut self) {
        self.begin(1);
        for kind in [0, 3, u32::MAX, 1, 2, 1] {
            self.call(opening(0, kind, 44100.0));
        }
        for kind in [STRING, MODAL] {
            for sample_rate in around_range(8000.0, 192000.0) {
                self.call(opening(kind, kind, sample_rate));
                self.call(render(kind, Trigger, 3, MIDDLE));
            }
        }
        for kind in [MODAL, STRING, STRING] {
            self.call(opening(1, kind, 48000.0));
            self.call(render(1, Both, 24, MIDDLE));
        }
    }

    /// Numbers 2, 5 and 6.
    fn slots_and_resets(&mut self) {
        self.begin(2);
        self.open(7, STRING, 48000.0);
        self.open(6, MODAL, 48000.0);
        for slot in [7, 6, 5, 8, 9, 1 << 31, u32::MAX] {
            self.call(reset(slot));
            self.call(render(slot, Trigger, 24, MIDDLE));
            self.call(reset(slot));
            self.call(render(slot, Sustain, 24, MIDDLE));
        }
        for slot in [8, u32::MAX] {
            self.call(opening(slot, STRING, 48000.0));
        }
    }

    /// Numbers 7, 17, 18 and 8.
    fn buffers(&mut self) {
        self.one_of_each(3);
        for slot in [0, 1] {
            for frames in [0, 24, MOST_FRAMES, MOST_FRAMES + 1] {
                for lengths in by_one(frames) {
                    let mut asking = render(slot, Trigger, frames, MIDDLE);
                    asking.frames = lengths;
                    self.call(asking);
                }
            }
            for frames in [MOST_FRAMES + 1, MOST_FRAMES, MOST_FRAMES + 64, MOST_FRAMES - 1, 1] {
                self.call(render(slot, Sustain, frames, MIDDLE));
            }
            let mut asking = render(slot, Free, 0, MIDDLE);
            self.call(asking);
            asking.frames = [1, 2, 3, 4];
            self.call(asking);
        }
    }

    /// Numbers 9 to 13, at the ends of each knob's range.
    fn knobs(&mut self) {
        self.one_of_each(4);
        for slot in [0, 1] {
            for f0 in around_range(LOWEST, 0.5).into_iter().chain([0.0, -0.0]) {
                self.call(render(slot, Trigger, 8, Knobs { f0, ..MIDDLE }));
            }
            for knob in around_range(0.0, 1.0).into_iter().chain([-0.0]) {
                self.call(render(slot, Trigger, 8, Knobs { accent: knob, ..MIDDLE }));
                self.call(render(slot, Sustain, 8, Knobs { brightness: knob, ..MIDDLE }));
                self.call(render(slot, Both, 8, Knobs { damping: knob, ..MIDDLE }));
                let structure = if slot == 1 && knob == 1.0 { BELOW_1 } else { knob };
                self.call(render(slot, Both, 8, Knobs { structure, ..MIDDLE }));
            }
        }
    }

    /// Renders with two faults, with all from one on, and with none.
    fn pairs(&mut self) {
        self.one_of_each(5);
        let faults = faults();
        for (k, (_, first)) in faults.iter().enumerate() {
            for (_, second) in &faults[k..] {
                let mut asking = render(0, Trigger, 3, MIDDLE);
                second(&mut asking);
                first(&mut asking);
                self.call(asking);
            }
        }
        for from in 0..faults.len() {
            let mut asking = render(1, Trigger, 3, MIDDLE);
            faults[from..].iter().rev().for_each(|(_, fault)| fault(&mut asking));
            self.call(asking);
        }
        for (slot, kind) in [(8, 0), (0, 0), (0, STRING)] {
            self.call(opening(slot, kind, f32::NAN));
        }
        self.strike_both();
    }

    /// Number 1 by the numbers of an empty slot: each at its end, beyond it and as it was, seen by calls of the other slots.
    fn bad_slots(&mut self) {
        self.one_of_each(6);
        for (number, last) in [
            (Number::Kind, 2),
            (Number::String, 1023),
            (Number::Stretch, 255),
            (Number::Left, 1048576),
        ] {
            for slot in [2, 7] {
                for value in [last, last + 1, u32::MAX, 0] {
                    self.add(Given::Put { slot, number, value });
                    self.strike_both();
                    self.call(opening(3, STRING, 48000.0));
                    self.call(reset(0));
                    self.call(reset(1));
                }
            }
        }
    }

    /// Number 1 by the length of line memory, for a call and for a whole list.
    fn other_memory(&mut self) {
        self.one_of_each(7);
        let own = LINES as u32;
        for lines in [own - 1, own + 1, 0, 1280, own] {
            self.call(Asking { lines, ..opening(2, STRING, 48000.0) });
            self.call(Asking { lines, ..reset(0) });
            for slot in [0, 1, 2, 9] {
                self.call(Asking { lines, ..render(slot, Trigger, 24, MIDDLE) });
            }
        }
        self.begin(8);
        for slot in 0..4 {
            let lines = own - 1;
            self.call(Asking { lines, ..opening(slot, 1 + slot % 2, 48000.0) });
            self.call(Asking { lines, ..render(slot, Both, 64, MIDDLE) });
        }
    }

    /// The example of 01 beside a second voice, whose calls take words of the same generator.
    fn ledger(&mut self) {
        self.one_of_each(33);
        let low = Knobs { f0: 1.0 / 2048.0, ..MIDDLE };
        self.call(render(0, Trigger, 8, low));
        for frames in [8, 0, 24, 512, 512, 512, 512] {
            self.call(render(1, Sustain, frames / 8, MIDDLE));
            self.call(render(0, Free, frames, low));
        }
        self.call(render(0, Trigger, 0, Knobs { f0: LOWEST, ..MIDDLE }));
        self.call(render(0, Free, 64, Knobs { f0: LOWEST, ..MIDDLE }));
        self.call(reset(0));
        self.call(render(0, Free, 64, low));
    }

    /// Drawn calls on eight slots.
    fn random(&mut self, seed: u32, calls: usize) {
        self.begin(seed);
        for slot in 0..8 {
            self.open(slot, 1 + (seed / 3 + slot) % 2, 8000.0 * (slot + 1) as f32);
        }
        for _ in 0..calls {
            let slot = (self.choice.draw() * 8.0).min(7.0) as u32;
            match self.choice.draw() {
                u if u < 0.06 => self.random_opening(slot),
                u if u < 0.14 => self.call(reset(slot)),
                u if u < 0.26 => self.random_refusal(slot),
                _ => {
                    let asking = self.random_render(slot);
                    self.call(asking);
                }
            }
        }
    }

    fn random_opening(&mut self, slot: u32) {
        let kind = self.choice.pick(&[STRING, MODAL]);
        let rate = 8000.0 + 184000.0 * self.choice.draw();
        self.open(slot, kind, rate);
    }

    /// A render of a slot that holds a voice.
    fn random_render(&mut self, slot: u32) -> Asking {
        let (play, frames, knobs) = self.choice.random_render(&[LOWEST, 0.5], &[0.0, 0.25, 0.26]);
        if self.kinds[slot as usize] == STRING {
            return render(slot, play, frames, knobs);
        }
        let play = if frames == 0 && matches!(play, Trigger) { Free } else { play };
        let structure = knobs.structure.min(BELOW_1);
        render(slot, play, frames, Knobs { structure, ..knobs })
    }

    /// A render with one fault.
    fn random_refusal(&mut self, slot: u32) {
        let mut asking = self.random_render(slot);
        let faults = faults().map(|(_, fault)| fault);
        self.choice.pick(&[&faults[..2], &faults[3..]].concat())(&mut asking);
        self.call(asking);
    }
}
