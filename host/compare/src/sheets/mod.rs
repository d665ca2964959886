//! Sheets in the exported player, beside the same renders made one by one by the exported render, and beside another side, which may be
//! the Rust.

mod beside;
pub mod list;
pub mod model;
#[cfg(not(no_plaits))]
pub mod rust;
pub mod tally;

pub use beside::{Beside, Nothing, Single};

use crate::same::{same, same_buffers, same_floats};
use bleidhvan::layout::slot_bytes;
use bleidhvan::raw::{self, Answer, EVENTS, Event, LINES};
use bleidhvan::{Counts, Knobs};
use list::{BANK, Lent, List, Step};
use record::banks::ledger::Ledger;
use record::draws::buffer;
use record::voices::format::Render;
use std::array::from_fn;
use tally::Tally;

/// temp, temp_2, out and aux.
type Buffers = [Vec<f32>; 4];

/// The exported player, or one that is to be found wrong: bank, line memory, word, sheet, answers, buffers, and whether subnormal numbers
/// are slow.
pub type Player =
    fn(&mut [u8], &mut [f32], &mut u32, &[Event], &mut [Answer], [&mut [f32]; 4], bool) -> u32;

/// Where the sides part.
#[derive(Debug)]
pub struct Difference {
    pub sheet: usize,
    pub text: String,
}

/// A bank with its lines and its word; bank and lines have an element more than a call accepts.
#[derive(Clone)]
struct World {
    bytes: Vec<u8>,
    lines: Vec<f32>,
    word: u32,
}

/// The player's side, the side of the single renders, and what the model knows of the slots.
struct Sides {
    player: Player,
    ours: World,
    theirs: World,
    kinds: [u32; 8],
    /// By 01's ledger, none where a slot began with any numbers.
    ledgers: [Option<Ledger>; 8],
    foreign: bool,
}

/// What a player is given and what it leaves there, and the buffers as they were filled.
struct Given<'a> {
    lent: &'a Lent,
    slow: bool,
    answers: Vec<Answer>,
    buffers: Buffers,
    filled: Buffers,
}

/// Plays a list's sheets on all sides, or says where they part.
pub fn run(
    mut list: List,
    player: Player,
    beside: &mut impl Beside,
    tally: &mut Tally,
) -> Result<(), Difference> {
    let mut sides = Sides::new(&list, player);
    tally.lists += 1;
    let mut sheet = 0;
    while let Some(step) = list.step(&beside.stopped()) {
        let done = match &step {
            Step::Open { slot, kind, rate } => sides.open(*slot, *kind, *rate, beside),
            Step::Reset { slot } => sides.reset(*slot, beside),
            Step::Play(lent) => {
                sheet += 1;
                sides.play(lent, sheet % 2 == 0, beside, tally)
            }
        };
        done.map_err(|text| Difference { sheet, text: format!("{text}\n  after {step:?}") })?;
    }
    Ok(())
}

impl Sides {
    fn new(list: &List, player: Player) -> Self {
        let mut bytes = vec![0; BANK + 1];
        let number = raw::fresh(&mut bytes[..BANK]);
        assert_eq!(number, 0, "a bank has that length");
        let (mut kinds, mut ledgers) = ([0; 8], [Some(Ledger::default()); 8]);
        if list.foreign {
            kinds = list.any_floats(&mut bytes);
            ledgers = [None; 8];
        }
        let ours = World { bytes, lines: buffer(LINES + 1, list.fill), word: list.seed };
        let theirs = ours.clone();
        Sides { player, ours, theirs, kinds, ledgers, foreign: list.foreign }
    }

    fn open(
        &mut self,
        slot: usize,
        kind: u32,
        rate: f32,
        beside: &mut impl Beside,
    ) -> Result<(), String> {
        for World { bytes, lines, .. } in [&mut self.ours, &mut self.theirs] {
            let number = raw::open(&mut bytes[..BANK], &mut lines[..LINES], slot, kind, rate);
            same("the number of an opening", number, 0)?;
        }
        self.kinds[slot] = kind;
        self.ledgers[slot] = Some(Ledger::open(kind));
        beside.open(slot, kind, rate);
        Ok(())
    }

    fn reset(&mut self, slot: usize, beside: &mut impl Beside) -> Result<(), String> {
        let expected = [5, 0, 6][self.kinds[slot] as usize];
        for World { bytes, lines, .. } in [&mut self.ours, &mut self.theirs] {
            let number = raw::reset(&mut bytes[..BANK], &mut lines[..LINES], slot);
            same("the number of a reset", number, expected)?;
        }
        if expected == 0 {
            self.ledgers[slot].iter_mut().for_each(Ledger::reset);
            beside.reset(slot);
        }
        Ok(())
    }

    fn play(
        &mut self,
        lent: &Lent,
        slow: bool,
        beside: &mut impl Beside,
        tally: &mut Tally,
    ) -> Result<(), String> {
        tally.sheets += 1;
        tally.events += lent.sheet.len() as u64;
        let filled = from_fn(|k| buffer(lent.lengths[k], lent.fill.wrapping_add(k as u32)));
        let (buffers, answers) = (filled.clone(), vec![UNTOUCHED; lent.answers]);
        let mut given = Given { lent, slow, answers, buffers, filled };
        let number = self.player(&mut given)?;
        let faults = model::faults(&lent.asked());
        same("the sheet's number", number, *faults.first().unwrap_or(&0))?;
        if number == 0 {
            return self.played(&given, beside, tally);
        }
        tally.refused(lent, &faults);
        let all = Answer { number, counts: Counts::default() };
        let expected = if lent.answers == EVENTS { all } else { UNTOUCHED };
        same_answers(&given.answers, &vec![expected; lent.answers])?;
        same_buffers(&given.buffers, &given.filled).and(self.same_worlds())
    }

    /// The player's number, with a byte of the bank spoiled for the call.
    fn player(&mut self, given: &mut Given<'_>) -> Result<u32, String> {
        let Given { lent, slow, answers, buffers, .. } = given;
        let World { bytes, lines, word } = &mut self.ours;
        let own = lent.spoiled.map(|(place, value)| (place, value, bytes[place]));
        own.iter().for_each(|(place, value, _)| bytes[*place] = *value);
        let (bank, lines) = (&mut bytes[..lent.bank], &mut lines[..lent.lines]);
        let buffers = buffers.each_mut().map(|buffer| &mut buffer[..]);
        let number = (self.player)(bank, lines, word, &lent.sheet, answers, buffers, *slow);
        if let Some((place, value, before)) = own {
            same("the byte that is no bank's", bytes[place], value)?;
            bytes[place] = before;
        }
        Ok(number)
    }

    /// Makes the renders of a sheet that was played, and compares what they leave with what the player left.
    fn played(
        &mut self,
        given: &Given<'_>,
        beside: &mut impl Beside,
        tally: &mut Tally,
    ) -> Result<(), String> {
        let Given { lent, slow, answers, buffers, filled } = given;
        let numbers: Vec<u32> =
            lent.sheet.iter().map(|event| model::number(&self.kinds, event)).collect();
        let ends = model::ends(&lent.sheet, lent.lengths[0]);
        tally.played(lent, &numbers, &ends, self.foreign);
        let [mut singles, mut others] = [filled.clone(), filled.clone()];
        let mut expected = [Answer::default(); EVENTS];
        for (k, event) in lent.sheet.iter().enumerate() {
            let before = self.theirs.word;
            let range = event.frame as usize..ends[k];
            let parts = singles.each_mut().map(|buffer| &mut buffer[range.clone()]);
            expected[k] = self.single(event, numbers[k], parts, !slow)?;
            if numbers[k] == 0 {
                let left = singles.each_ref().map(|buffer| &buffer[range.clone()]);
                let parts = others.each_mut().map(|buffer| &mut buffer[range.clone()]);
                let words = [before, self.theirs.word];
                beside.render(Single { event, words, left, parts }, tally)?;
            }
        }
        same_answers(answers, &expected)?;
        self.same_worlds()?;
        same_buffers(buffers, &singles)?;
        same_buffers(buffers, &others).map_err(|text| format!("beside the Rust: {text}"))?;
        self.same_slots(lent, &numbers, beside)
    }

    /// An event's render by itself, whose number and counts are the model's.
    fn single(
        &mut self,
        event: &Event,
        number: u32,
        parts: [&mut [f32]; 4],
        slow: bool,
    ) -> Result<Answer, String> {
        let World { bytes, lines, word } = &mut self.theirs;
        let frames = parts[0].len() as u32;
        let slot = event.slot as usize;
        let (bank, lines) = (&mut bytes[..BANK], &mut lines[..LINES]);
        let answer = raw::render(bank, lines, word, slot, &knobs_of(event), parts, slow);
        same("the number of a render by itself", answer.number, number)?;
        let ledger = self.ledgers.get_mut(slot).and_then(Option::as_mut);
        let counts = match ledger {
            Some(ledger) if number == 0 => ledger.render(&render_of(event), frames),
            None if number == 0 => return Ok(answer),
            _ => [0; 3],
        };
        let Counts { burst, dust, dispersion } = answer.counts;
        let given = [burst, dust, dispersion].map(|count| count as u32);
        same("the counts of a render by itself", given, counts)?;
        Ok(answer)
    }

    fn same_worlds(&self) -> Result<(), String> {
        let Sides { ours, theirs, .. } = self;
        same("the generator's word", ours.word, theirs.word)?;
        for slot in 0..8 {
            let [a, b] = [ours, theirs].map(|world| slot_bytes(&world.bytes, slot));
            same(&format!("the bytes of slot {slot}"), a, b)?;
        }
        same("the byte behind the bank", ours.bytes[BANK], theirs.bytes[BANK])?;
        same_floats("number of the lines", &ours.lines, &theirs.lines)
    }

    /// The slots of accepted events are the other side's.
    fn same_slots(&self, lent: &Lent, numbers: &[u32], beside: &impl Beside) -> Result<(), String> {
        let rendered = |slot: &usize| {
            let mut events = lent.sheet.iter().zip(numbers);
            events.any(|(event, number)| *number == 0 && event.slot as usize == *slot)
        };
        (0..8).filter(rendered).try_for_each(|slot| {
            beside.same_slot(slot, slot_bytes(&self.ours.bytes, slot), &self.ours.lines)
        })
    }
}

/// What stands in the answers before a call.
const UNTOUCHED: Answer =
    Answer { number: 77, counts: Counts { burst: 7, dust: 8, dispersion: 9 } };

/// The knobs of an event whose flags are 0 or 1.
pub fn knobs_of(event: &Event) -> Knobs {
    let Event { trigger, sustain, f0, accent, structure, brightness, damping, .. } = *event;
    let [trigger, sustain] = [trigger, sustain].map(|flag| flag == 1);
    Knobs { sustain, trigger, accent, f0, structure, brightness, damping }
}

/// The same as a render of no frames, no word and no fill.
pub fn render_of(event: &Event) -> Render {
    let Knobs { sustain, trigger, accent, f0, structure, brightness, damping } = knobs_of(event);
    let (frames, word, fill) = (0, 0, 0);
    Render { sustain, trigger, frames, accent, f0, structure, brightness, damping, word, fill }
}

fn same_answers(ours: &[Answer], theirs: &[Answer]) -> Result<(), String> {
    same("the count of the answers", ours.len(), theirs.len())?;
    let mut pairs = ours.iter().zip(theirs).enumerate();
    pairs.try_for_each(|(k, (ours, theirs))| same(&format!("answer {k}"), ours, theirs))
}
