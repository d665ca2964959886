//! The Rust's voices, which make the renders of a sheet on the parts of its buffers.

use super::{Beside, Single, render_of, tally::Tally};
use crate::same::{same, same_floats, same_words};
use bleidhvan::layout;
use oracle::physical_modelling::{modal_voice::ModalVoice, string_voice::StringVoice};
use oracle::utils::random::get_word;
use record::draws::next;
use record::functions::random::seeded;
use record::voices::format::Render;
use record::voices::player::{Halt, Voice, caught};
use record::voices::{modals, strings};

/// The numbers of line memory that a slot owns.
const OWN: usize = 1280;

enum Held {
    Empty,
    String(Box<StringVoice>),
    Modal(Box<ModalVoice>),
    /// A voice of which nothing is known: it halted, or it began with any numbers.
    Stopped,
}

/// One voice of the Rust a slot.
pub struct Voices([Held; 8]);

impl Voices {
    /// Eight empty slots, or eight of which nothing is known.
    pub fn new(known: bool) -> Self {
        Voices([0; 8].map(|_| if known { Held::Empty } else { Held::Stopped }))
    }
}

impl Beside for Voices {
    fn open(&mut self, slot: usize, kind: u32, rate: f32) {
        self.0[slot] = match kind {
            1 => Held::String(Box::new(StringVoice::opened(rate))),
            _ => Held::Modal(Box::new(ModalVoice::opened(rate))),
        };
    }

    fn reset(&mut self, slot: usize) {
        if let Held::String(voice) = &mut self.0[slot] {
            StringVoice::reset(voice);
        }
    }

    fn render(&mut self, single: Single<'_>, tally: &mut Tally) -> Result<(), String> {
        let Single { event, words: [before, after], left, mut parts } = single;
        let (held, r) = (&mut self.0[event.slot as usize], render_of(event));
        let is_modal = matches!(held, Held::Modal(_));
        match caught(|| rendered(held, before, &r, parts.each_mut())) {
            Ok(Some(following)) => {
                tally.heard += 1;
                return same("beside the Rust: the word that follows", next(after), following);
            }
            Ok(None) => (),
            Err(halt) => {
                let departure = departure(halt, is_modal, &r, parts[0].len())?;
                tally.departures[departure] += 1;
                *held = Held::Stopped;
            }
        }
        parts.into_iter().zip(left).for_each(|(part, left)| part.copy_from_slice(left));
        Ok(())
    }

    fn same_slot(&self, slot: usize, bytes: &[u8], lines: &[f32]) -> Result<(), String> {
        let own = &lines[OWN * slot..][..OWN];
        let (kind, string, modal, line) = match &self.0[slot] {
            Held::String(voice) => {
                let (words, line) = strings::read(voice);
                (1, words, vec![0; modals::NUMBERS], line.concat())
            }
            Held::Modal(voice) => {
                (2, vec![0; strings::NUMBERS], modals::record(voice), vec![0.0; OWN])
            }
            Held::Empty | Held::Stopped => return Ok(()),
        };
        let record = [vec![kind], string, modal].concat();
        same_words("beside the Rust: number", &layout::record(bytes), &record)?;
        same_floats("beside the Rust: number of the lines", own, &line)
    }

    fn stopped(&self) -> [bool; 8] {
        self.0.each_ref().map(|held| matches!(held, Held::Stopped))
    }
}

/// The word that the generator gives after a render of a voice that is known.
fn rendered(
    held: &mut Held,
    word: u32,
    r: &Render,
    [temp, temp_2, out, aux]: [&mut &mut [f32]; 4],
) -> Option<u32> {
    let Render { sustain, trigger, accent, f0, structure, brightness, damping, .. } = *r;
    seeded(word, || {
        match held {
            Held::String(voice) => voice.render(
                sustain, trigger, accent, f0, structure, brightness, damping, temp, temp_2, out,
                aux,
            ),
            Held::Modal(voice) => voice.render(
                sustain, trigger, accent, f0, structure, brightness, damping, temp, temp_2, out,
                aux,
            ),
            Held::Empty | Held::Stopped => return None,
        }
        Some(get_word())
    })
}

/// Which of 01's departures a halt is, from 0 on.
fn departure(halt: Halt, is_modal: bool, r: &Render, frames: usize) -> Result<usize, String> {
    let struck = r.trigger && !r.sustain;
    match halt {
        Halt::LongDelay => Ok(0),
        Halt::Other(_) if is_modal && r.structure == 1.0 => Ok(1),
        Halt::Other(_) if is_modal && struck && frames == 0 => Ok(2),
        Halt::Other(message) => Err(format!("beside the Rust: {message}")),
    }
}
