//! What was compared, by the kinds of cases that a run has to have.

use super::list::{BANK, Lent};
use super::model::{OWN, WHOLE};
use bleidhvan::raw::{EVENTS, LINES};
use std::collections::BTreeMap;

/// From so many sheets on, each kind of case has to have come up.
pub const ENOUGH: u64 = 5000;

/// How often something came up, by its name.
#[derive(Debug, Default, Clone)]
pub struct Tally {
    pub lists: u64,
    pub sheets: u64,
    pub events: u64,
    /// Accepted events that were heard in the Rust too, and all.
    pub heard: u64,
    pub accepted: u64,
    pub samples: u64,
    /// How often a voice of the Rust was stopped at each of the three departures.
    pub departures: [u64; 3],
    /// Sheets refused whole, and events, by their numbers.
    whole: BTreeMap<u32, u64>,
    own: BTreeMap<u32, u64>,
    /// Of the sheets with two faults or more, the first two.
    pairs: BTreeMap<(u32, u32), u64>,
    cases: BTreeMap<&'static str, u64>,
}

/// The kinds of cases besides the numbers.
const CASES: [&str; 16] = [
    "sheets of no events",
    "sheets of 64 events",
    "sheets on one slot",
    "sheets on eight slots",
    "blocks of no frames",
    "blocks of 4,096 frames",
    "events on the frame of the one before",
    "renders of no frames",
    "strikes in such renders",
    "events at the last frame",
    "refused events between played ones",
    "flags above 1",
    "answers of another length",
    "banks or lines of another length",
    "bytes that are no bank",
    "banks of any floats",
];

impl Tally {
    fn add(&mut self, case: &'static str, times: usize) {
        assert!(CASES.contains(&case), "{case} has no line");
        *self.cases.entry(case).or_default() += times as u64;
    }

    /// A sheet that was refused whole, with the numbers that applied.
    pub fn refused(&mut self, lent: &Lent, faults: &[u32]) {
        *self.whole.entry(faults[0]).or_default() += 1;
        for later in &faults[1..] {
            *self.pairs.entry((faults[0], *later)).or_default() += 1;
        }
        let odd = lent.sheet.iter().any(|event| event.trigger > 1 || event.sustain > 1);
        self.add("flags above 1", usize::from(odd));
        self.add("answers of another length", usize::from(lent.answers != EVENTS));
        let lengths = lent.bank != BANK || lent.lines != LINES;
        self.add("banks or lines of another length", usize::from(lengths));
        self.add("bytes that are no bank", usize::from(lent.spoiled.is_some()));
    }

    /// A sheet that was played, with its events' numbers and ends.
    pub fn played(&mut self, lent: &Lent, numbers: &[u32], ends: &[usize], foreign: bool) {
        let (sheet, frames) = (&lent.sheet[..], lent.lengths[0]);
        for number in numbers {
            *self.own.entry(*number).or_default() += 1;
        }
        let mut slots: Vec<u32> = sheet.iter().map(|e| e.slot).filter(|slot| *slot < 8).collect();
        slots.sort();
        slots.dedup();
        self.add("sheets of no events", usize::from(sheet.is_empty()));
        self.add("sheets of 64 events", usize::from(sheet.len() == EVENTS));
        self.add("sheets on one slot", usize::from(slots.len() == 1));
        self.add("sheets on eight slots", usize::from(slots.len() == 8));
        self.add("blocks of no frames", usize::from(frames == 0));
        self.add("blocks of 4,096 frames", usize::from(frames == 4096));
        self.add("banks of any floats", usize::from(foreign));
        let equal = sheet.windows(2).filter(|pair| pair[0].frame == pair[1].frame).count();
        self.add("events on the frame of the one before", equal);
        let at_end = sheet.iter().filter(|event| event.frame as usize + 1 == frames).count();
        self.add("events at the last frame", at_end);
        let between = numbers.windows(3).filter(|n| n[0] == 0 && n[1] != 0 && n[2] == 0).count();
        self.add("refused events between played ones", between);
        let accepted = sheet.iter().zip(ends).zip(numbers).filter(|(_, number)| **number == 0);
        for ((event, end), _) in accepted {
            self.accepted += 1;
            self.samples += (end - event.frame as usize) as u64;
            let empty = event.frame as usize == *end;
            self.add("renders of no frames", usize::from(empty));
            self.add("strikes in such renders", usize::from(empty && event.trigger == 1));
        }
    }

    /// The kinds of cases that never came up.
    pub fn missing(&self) -> Vec<String> {
        let mut missing = Vec::new();
        let mut asked = |times: Option<&u64>, name: String| {
            if times.is_none_or(|times| *times == 0) {
                missing.push(name);
            }
        };
        for number in WHOLE {
            asked(self.whole.get(&number), format!("a sheet refused with {number}"));
        }
        for number in OWN {
            asked(self.own.get(&number), format!("an event answered with {number}"));
        }
        for (place, first) in WHOLE.into_iter().enumerate() {
            for later in &WHOLE[place + 1..] {
                let name = format!("a sheet with {first} and {later} at once");
                asked(self.pairs.get(&(first, *later)), name);
            }
        }
        CASES.iter().for_each(|case| asked(self.cases.get(case), (*case).into()));
        missing
    }

    /// What is printed of a run of that seed.
    pub fn lines(&self, seed: u32) -> Vec<String> {
        let Tally { lists, sheets, events, heard, accepted, samples, .. } = self;
        let [first, second, third] = self.departures;
        let refused: u64 = self.whole.values().sum();
        let (two, least) = (self.pairs.values().sum::<u64>(), self.pairs.values().min());
        let numbers = |counts: &BTreeMap<u32, u64>| -> String {
            let each = |(number, times): (&u32, &u64)| format!("{number}: {times}");
            counts.iter().map(each).collect::<Vec<_>>().join(", ")
        };
        let case = |case: &&str| format!("{case}: {}", self.cases.get(case).unwrap_or(&0));
        let cases: Vec<String> = CASES.iter().map(case).collect();
        let (whole, own) = (numbers(&self.whole), numbers(&self.own));
        vec![
            format!("seed {seed}: {lists} lists of {sheets} sheets with {events} events"),
            format!(
                "sheets refused whole: {refused}, by number {whole}; two numbers at once: {two}, each pair {} times or more",
                least.unwrap_or(&0)
            ),
            format!(
                "events of the others by number {own}; {accepted} renders of {samples} samples, {heard} of them heard in the Rust too"
            ),
            cases.join(", "),
            format!(
                "voices stopped in sheets at departures 1, 2 and 3: {first}, {second}, {third}"
            ),
        ]
    }
}
