//! A bank of the Rust's voices: one voice a slot, the generator set to the bank's word before each render.

use super::format::{Asked, Call, Number};
use super::ledger::Ledger;
use super::table::{self, Numbers};
use crate::draws::next;
use crate::functions::random::seeded;
use crate::voices::format::Render;
use crate::voices::player::{Buffers, Halt, Voice, caught};
use crate::voices::{modals, strings};
use oracle::physical_modelling::{modal_voice::ModalVoice, string_voice::StringVoice};
use oracle::utils::random::get_word;

/// The numbers of line memory that a slot owns.
const OWN: usize = 1280;

#[derive(Clone)]
enum Held {
    Empty,
    String(Box<StringVoice>),
    Modal(Box<ModalVoice>),
    /// A voice of that kind that halted.
    Stopped(u32),
}

#[derive(Clone)]
struct Slot {
    held: Held,
    ledger: Ledger,
    /// What the table reads, with the numbers that were put.
    numbers: Numbers,
    /// The slot's record: kind, the string's numbers, the modal voice's numbers.
    record: Vec<u32>,
    /// Whether a number was put that is not the voice's own.
    put: bool,
}

pub struct Bank {
    slots: [Slot; 8],
    /// The generator's word.
    pub word: u32,
    pub memory: Vec<f32>,
}

impl Slot {
    /// The slot with that voice, and its lines where it has some.
    fn holding(held: Held, ledger: Ledger) -> (Self, Vec<f32>) {
        let (record, lines) = read(&held);
        let [kind, string, stretch, left] = [record[0], record[1], record[2], record[3]];
        let numbers = Numbers { kind, string, stretch, left };
        (Slot { held, ledger, numbers, record, put: false }, lines)
    }
}

/// The record and the lines of a voice. One that is not there has every number 0.
fn read(held: &Held) -> (Vec<u32>, Vec<f32>) {
    let (kind, string, lines, modal) = match held {
        Held::Empty => (0, vec![], vec![], vec![]),
        Held::String(voice) => {
            let (words, lines) = strings::read(voice);
            (1, words, lines.concat(), vec![])
        }
        Held::Modal(voice) => (2, vec![], vec![], modals::record(voice)),
        Held::Stopped(kind) => (*kind, vec![], vec![], vec![]),
    };
    let part = |mut words: Vec<u32>, length| {
        words.resize(length, 0);
        words
    };
    let record =
        [vec![kind], part(string, strings::NUMBERS), part(modal, modals::NUMBERS)].concat();
    (record, lines)
}

impl Bank {
    pub fn fresh(seed: u32, memory: Vec<f32>) -> Self {
        let (empty, _) = Slot::holding(Held::Empty, Ledger::default());
        Bank { slots: std::array::from_fn(|_| empty.clone()), word: seed, memory }
    }

    pub fn records(&self) -> [&[u32]; 8] {
        self.slots.each_ref().map(|slot| &slot.record[..])
    }

    /// The number of a slot, as a call would read it.
    pub fn number(&self, slot: u32, number: Number) -> u32 {
        self.slots[slot as usize].record[number as usize]
    }

    /// Puts a number in the place of a slot's own, for the table and the record; no voice is changed.
    pub fn put(&mut self, slot: u32, number: Number, value: u32) {
        let slot = &mut self.slots[slot as usize];
        slot.record[number as usize] = value;
        slot.put = slot.record != read(&slot.held).0;
        match number {
            Number::Kind => slot.numbers.kind = value,
            Number::String => slot.numbers.string = value,
            Number::Stretch => slot.numbers.stretch = value,
            Number::Left => slot.numbers.left = value,
        }
    }

    /// Whether the voice of a slot was stopped, so that nothing is known of it but its kind and its ledger.
    pub fn is_stopped(&self, slot: u32) -> bool {
        matches!(self.slots[slot as usize].held, Held::Stopped(_))
    }

    /// Stops the voice of a slot whose render halted, and gives the counts of that render by the ledger.
    pub fn stop(&mut self, slot: u32, render: &Render, frames: u32) -> [u32; 3] {
        let Slot { mut ledger, numbers, .. } = self.slots[slot as usize];
        let counts = ledger.render(render, frames);
        self.word = after_draws(self.word, counts.iter().sum());
        (self.slots[slot as usize], _) = Slot::holding(Held::Stopped(numbers.kind), ledger);
        counts
    }

    /// 01's number and the three counts, or how the Rust halted; line memory is lent up to that length.
    pub fn call(
        &mut self,
        call: &Call,
        lines: usize,
        buffers: &mut Buffers,
    ) -> Result<[u32; 4], Halt> {
        let numbers = self.slots.each_ref().map(|slot| slot.numbers);
        let frames = buffers.each_ref().map(Vec::len);
        let number = table::number(&numbers, call, lines, frames);
        if number != 0 {
            return Ok([number, 0, 0, 0]);
        }
        let [burst, dust, dispersion] = self.accepted(call, buffers)?;
        Ok([0, burst, dust, dispersion])
    }

    /// The counts of a call that the table accepts.
    fn accepted(&mut self, call: &Call, buffers: &mut Buffers) -> Result<[u32; 3], Halt> {
        let place = call.slot as usize;
        let Slot { mut held, mut ledger, put, .. } = self.slots[place].clone();
        if put {
            return Err(Halt::Other("a number was put in the slot that is called".into()));
        }
        let mut counts = [0; 3];
        match call.asked {
            Asked::Open { kind, sample_rate } => {
                held = opened(kind, sample_rate);
                ledger = Ledger::open(kind);
                self.memory[OWN * place..][..OWN].fill(0.0);
            }
            Asked::Reset => {
                reset(&mut held)?;
                ledger.reset();
            }
            Asked::Render(render) if matches!(held, Held::Stopped(_)) => {
                return Ok(self.stop(call.slot, &render, buffers[0].len() as u32));
            }
            Asked::Render(render) => {
                counts = ledger.render(&render, buffers[0].len() as u32);
                let after = caught(|| rendered(&mut held, self.word, &render, buffers))?;
                self.word = moved(self.word, counts.iter().sum(), after)?;
            }
        }
        let (slot, lines) = Slot::holding(held, ledger);
        slot.agrees()?;
        self.slots[place] = slot;
        self.memory[OWN * place..][..lines.len()].copy_from_slice(&lines);
        Ok(counts)
    }
}

impl Slot {
    /// The voice has left and the phase that the ledger has.
    fn agrees(&self) -> Result<(), Halt> {
        let Held::String(_) = self.held else { return Ok(()) };
        let phase = self.record[1 + strings::PHASE];
        match self.numbers.left == self.ledger.left && phase == self.ledger.phase.to_bits() {
            true => Ok(()),
            false => Err(Halt::Other("left or the phase is not the ledger's".into())),
        }
    }
}

fn opened(kind: u32, sample_rate: f32) -> Held {
    match kind {
        1 => Held::String(Box::new(StringVoice::opened(sample_rate))),
        _ => Held::Modal(Box::new(ModalVoice::opened(sample_rate))),
    }
}

fn reset(held: &mut Held) -> Result<(), Halt> {
    match held {
        Held::String(voice) => Voice::reset(&mut **voice),
        Held::Stopped(_) => Ok(()),
        _ => Err(Halt::Other("no string is reset".into())),
    }
}

/// The word that the generator gives after a render.
fn rendered(held: &mut Held, word: u32, r: &Render, buffers: &mut Buffers) -> u32 {
    seeded(word, || {
        match held {
            Held::String(voice) => Voice::render(&mut **voice, r, buffers),
            Held::Modal(voice) => Voice::render(&mut **voice, r, buffers),
            Held::Empty | Held::Stopped(_) => unreachable!("there is a voice"),
        }
        get_word()
    })
}

fn after_draws(word: u32, draws: u32) -> u32 {
    (0..draws).fold(word, |word, _| next(word))
}

/// The word after so many draws, where the next one gives that word.
fn moved(word: u32, draws: u32, following: u32) -> Result<u32, Halt> {
    let after = after_draws(word, draws);
    match next(after) == following {
        true => Ok(after),
        false => Err(Halt::Other(format!("the Rust did not draw the ledger's {draws} words"))),
    }
}
