//! The wrapper's sheets beside the exported player's: every bit, and every refusal with what is at fault in it.

use bleidhvan::raw::{self, Answer, EVENTS, LINES};
use bleidhvan::{Bank, Buffer, Event, Kind, Knob, Knobs, Refusal};
use compare::sheets::list::{Lent, List, Step};
use compare::sheets::{knobs_of, model};
use record::draws::{buffer, canonical};

/// temp, temp_2, out and aux.
type Buffers = [Vec<f32>; 4];

fn filled(lent: &Lent) -> Buffers {
    std::array::from_fn(|k| buffer(lent.lengths[k], lent.fill.wrapping_add(k as u32)))
}

fn events(lent: &Lent) -> Vec<Event> {
    let event = |event: &raw::Event| {
        let [frame, slot] = [event.frame, event.slot].map(|number| number as usize);
        Event { frame, slot, knobs: knobs_of(event) }
    };
    lent.sheet.iter().map(event).collect()
}

/// Why a sheet is refused with that number.
fn whole(number: u32, sheet: &[Event], [frames, temp_2, out, aux]: [usize; 4]) -> Refusal {
    let other = |buffer, length| Refusal::Length { buffer, frames: length, temp: frames };
    match number {
        7 => other(Buffer::Temp2, temp_2),
        17 => other(Buffer::Out, out),
        18 => other(Buffer::Aux, aux),
        8 => Refusal::TooLong { frames },
        14 => Refusal::TooMany { events: sheet.len() },
        15 => {
            let mut pairs = sheet.windows(2).enumerate();
            let down = pairs.find(|(_, pair)| pair[1].frame < pair[0].frame);
            let (before, pair) = down.expect("the frames go down");
            let [before_frame, frame] = [&pair[0], &pair[1]].map(|event| event.frame);
            Refusal::OutOfOrder { event: before + 1, frame, before: before_frame }
        }
        _ => {
            let past = sheet.iter().position(|event| event.frame >= frames);
            let event = past.expect("an event is past the end");
            Refusal::PastEnd { event, frame: sheet[event].frame, frames }
        }
    }
}

/// Why an event is refused with that number.
fn own(number: u32, event: &Event) -> Refusal {
    let (slot, Knobs { f0, accent, structure, brightness, damping, .. }) =
        (event.slot, event.knobs);
    let (knob, value) = match number {
        2 => return Refusal::NoSlot { slot },
        5 => return Refusal::Empty { slot },
        9 => (Knob::F0, f0),
        10 => (Knob::Accent, accent),
        11 => (Knob::Structure, structure),
        12 => (Knob::Brightness, brightness),
        _ => (Knob::Damping, damping),
    };
    Refusal::OutOfRange { knob, value }
}

/// Two refusals are the same by what they show, in which two NaNs are equal.
fn same(ours: &Refusal, theirs: &Refusal) {
    assert_eq!(format!("{ours:?}"), format!("{theirs:?}"));
    assert_eq!(ours.number(), theirs.number());
}

/// The exported player's bank, lines and word.
struct World {
    bytes: Vec<u8>,
    lines: Vec<f32>,
    word: u32,
}

impl World {
    fn play(&mut self, lent: &Lent, buffers: &mut Buffers) -> (u32, [Answer; EVENTS]) {
        let World { bytes, lines, word } = self;
        let mut answers = [Answer::default(); EVENTS];
        let buffers = buffers.each_mut().map(|buffer| &mut buffer[..]);
        let number = raw::play(bytes, lines, word, &lent.sheet, &mut answers, buffers, false);
        (number, answers)
    }

    fn is_same(&self, bank: &Bank) -> bool {
        let bits = |floats: &[f32]| -> Vec<u32> { floats.iter().copied().map(canonical).collect() };
        self.bytes == bank.bytes()
            && self.word == bank.word()
            && bits(&self.lines) == bits(bank.lines())
    }
}

/// A sheet on both sides, and the number that both gave it.
fn play(bank: &mut Bank, world: &mut World, lent: &Lent) -> u32 {
    let (sheet, mut ours) = (events(lent), filled(lent));
    let mut theirs = ours.clone();
    let given = bank.play(&sheet, ours.each_mut().map(|buffer| &mut buffer[..]));
    let (number, answers) = world.play(lent, &mut theirs);
    match given {
        Err(refusal) => same(&refusal, &whole(number, &sheet, lent.lengths)),
        Ok(given) => {
            assert_eq!((number, given.len()), (0, sheet.len()));
            for ((given, answer), event) in given.iter().zip(&answers).zip(&sheet) {
                match given {
                    Ok(counts) => assert_eq!((0, counts), (answer.number, &answer.counts)),
                    Err(refusal) => same(refusal, &own(answer.number, event)),
                }
            }
        }
    }
    let bits = |buffers: &Buffers| -> Vec<u32> {
        buffers.iter().flatten().copied().map(canonical).collect()
    };
    assert!(bits(&ours) == bits(&theirs) && world.is_same(bank), "after {lent:?}");
    number
}

#[test]
fn the_wrapper_plays_as_the_exported_player() {
    let mut seen = [0; 19];
    for number in 0..100 {
        let mut list = List::new(2, number);
        let mut bank = Bank::new(list.seed);
        let mut world =
            World { bytes: bank.bytes().to_vec(), lines: vec![0.0; LINES], word: list.seed };
        while let Some(step) = list.step(&[false; 8]) {
            let World { bytes, lines, .. } = &mut world;
            match step {
                Step::Open { slot, kind, rate } => {
                    let voice = if kind == 1 { Kind::String } else { Kind::Modal };
                    assert_eq!(bank.open(slot, voice, rate), Ok(()));
                    assert_eq!(raw::open(bytes, lines, slot, kind, rate), 0);
                }
                Step::Reset { slot } => {
                    let given = bank.reset(slot).map_or_else(|refusal| refusal.number(), |()| 0);
                    assert_eq!(given, raw::reset(bytes, lines, slot));
                }
                Step::Play(lent) if model::faults(&lent.asked()).first() == Some(&1) => (),
                Step::Play(lent) => seen[play(&mut bank, &mut world, &lent) as usize] += 1,
            }
        }
    }
    for number in [0, 7, 17, 18, 8, 14, 15, 16] {
        assert!(seen[number] > 20, "by number: {seen:?}");
    }
}
