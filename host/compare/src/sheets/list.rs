//! Lists of drawn sheets on one bank, with openings and resets between them.

use super::model::Asked;
use bleidhvan::raw::{EVENTS, Event, LINES, SLOT_BYTES};
use record::draws::{next, unit};

/// Draws, the low bits of a word left out.
pub struct Draws(u32);

impl Draws {
    pub fn word(&mut self) -> u32 {
        self.0 = next(self.0);
        let high = self.0 >> 16;
        self.0 = next(self.0);
        high << 16 | self.0 >> 16
    }

    /// A number below n.
    pub fn below(&mut self, n: usize) -> usize {
        self.word() as usize % n
    }

    pub fn pick<T: Copy>(&mut self, from: &[T]) -> T {
        from[self.below(from.len())]
    }

    /// Once in n times.
    pub fn once_in(&mut self, n: usize) -> bool {
        self.below(n) == 0
    }

    pub fn unit(&mut self) -> f32 {
        unit(self.word())
    }
}

/// What a sheet's call is lent beside the bank, the word and the answers.
#[derive(Debug, Clone)]
pub struct Lent {
    pub sheet: Vec<Event>,
    /// The lengths of the answers, of the bank, of line memory, and of temp, temp_2, out and aux.
    pub answers: usize,
    pub bank: usize,
    pub lines: usize,
    pub lengths: [usize; 4],
    /// A byte of the bank that is another one for this call alone, which is then no bank.
    pub spoiled: Option<(usize, u8)>,
    /// The word from which the four buffers are filled.
    pub fill: u32,
}

impl Lent {
    pub fn asked(&self) -> Asked<'_> {
        let memory = self.bank == BANK && self.lines == LINES && self.spoiled.is_none();
        Asked { memory, sheet: &self.sheet, answers: self.answers, lengths: self.lengths }
    }
}

/// A step of a list.
#[derive(Debug, Clone)]
pub enum Step {
    Open { slot: usize, kind: u32, rate: f32 },
    Reset { slot: usize },
    Play(Lent),
}

/// The bytes of a bank.
pub const BANK: usize = 8 * SLOT_BYTES;

/// A list, drawn step by step.
pub struct List {
    draws: Draws,
    /// The generator's word and the word that fills line memory, as the list begins.
    pub seed: u32,
    pub fill: u32,
    /// Whether the bank begins with any floats and not fresh.
    pub foreign: bool,
    unopened: usize,
    sheets: usize,
}

/// What may be wrong with a sheet, or with what is lent with it.
const FAULTS: [fn(&mut Draws, &mut Lent); 10] =
    [lines, bank, spoil, flag, answers, lengths, too_long, too_many, out_of_order, past_end];

impl List {
    /// The list of that number of a run.
    pub fn new(run: u32, number: u32) -> Self {
        let mixed = next(run ^ number.wrapping_mul(0x85eb_ca6b)).rotate_left(11);
        let mut draws = Draws(next(mixed));
        let [seed, fill] = [0; 2].map(|_| draws.word());
        let foreign = draws.once_in(6);
        let sheets = 10 + draws.below(50);
        List { draws, seed, fill, foreign, unopened: if foreign { 0 } else { 8 }, sheets }
    }

    /// The next step; a slot that was stopped in the Rust is opened again before long.
    pub fn step(&mut self, stopped: &[bool; 8]) -> Option<Step> {
        if self.unopened > 0 {
            self.unopened -= 1;
            if !self.draws.once_in(12) {
                return Some(self.opening(self.unopened));
            }
        }
        let slot = self.draws.below(8);
        let stopped = stopped.iter().position(|stopped| *stopped && !self.foreign);
        match self.draws.below(24) {
            0 => return Some(self.opening(slot)),
            1 => return Some(Step::Reset { slot }),
            2..=13 => {
                if let Some(slot) = stopped {
                    return Some(self.opening(slot));
                }
            }
            _ => (),
        }
        self.sheets = self.sheets.checked_sub(1)?;
        Some(Step::Play(self.sheet()))
    }

    /// Fills the slots with any floats and with numbers and flags of a bank, and gives the kinds.
    pub fn any_floats(&self, bytes: &mut [u8]) -> [u32; 8] {
        let mut draws = Draws(self.seed);
        let mut kinds = [0; 8];
        for (slot, kind) in bytes.chunks_exact_mut(SLOT_BYTES).zip(&mut kinds) {
            slot.fill_with(|| draws.word() as u8);
            *kind = draws.pick(&[0, 1, 1, 1, 2, 2, 2]);
            let numbers = [
                (0, *kind),
                (6, draws.pick(&[0, 1, 512, 1023])),
                (7, draws.pick(&[0, 1, 128, 255])),
                (23, draws.pick(&[0, 1, 1000, 1048576])),
            ];
            for (place, number) in numbers {
                slot[4 * place..][..4].copy_from_slice(&u32::to_le_bytes(number));
            }
            slot[SLOT_BYTES - 1] = draws.pick(&[0, 1]);
        }
        kinds
    }

    fn opening(&mut self, slot: usize) -> Step {
        let own = 8000.0 + 184000.0 * self.draws.unit();
        let rate = self.draws.pick(&[8000.0, 44100.0, 48000.0, 192000.0, own, own]);
        Step::Open { slot, kind: self.draws.pick(&[1, 1, 2]), rate }
    }

    fn sheet(&mut self) -> Lent {
        let draws = &mut self.draws;
        let short = 1 + draws.below(60);
        let long = 1 + draws.below(400);
        let lengths = [0, 1, 2, 3, 24, 64, short, short, short, short, short, long];
        let frames = if draws.once_in(150) { 4096 } else { draws.pick(&lengths) };
        let [few, some] = [12, 65].map(|n| draws.below(n));
        let events = draws.pick(&[few, few, few, some, 64, 1]);
        let sheet = if frames == 0 { Vec::new() } else { events_of(draws, events, frames) };
        let mut lent = Lent {
            sheet,
            answers: EVENTS,
            bank: BANK,
            lines: LINES,
            lengths: [frames; 4],
            spoiled: None,
            fill: draws.word(),
        };
        let faults = draws.pick(&[0, 0, 0, 0, 0, 0, 0, 1, 2, 2]);
        for _ in 0..faults {
            let fault = 4 + draws.below(6);
            let fault = if fault == 4 { draws.pick(&[0, 1, 2, 3, 3, 3, 4]) } else { fault };
            FAULTS[fault](draws, &mut lent);
        }
        lent
    }
}

/// So many events on 1 to 8 slots, on frames that do not go down.
fn events_of(draws: &mut Draws, events: usize, frames: usize) -> Vec<Event> {
    let (first, several) = (draws.below(8), 1 + draws.below(8));
    let slots = draws.pick(&[several, several, 8]);
    let places = draws.pick(&[1, 3, frames, frames, frames, frames]).min(frames);
    let mut at: Vec<usize> = (0..events).map(|_| draws.below(places) * (frames / places)).collect();
    at.sort();
    if let Some(last) = at.last_mut().filter(|_| draws.once_in(4)) {
        *last = frames - 1;
    }
    at.into_iter().map(|frame| event(draws, frame, first, slots)).collect()
}

fn event(draws: &mut Draws, frame: usize, first: usize, slots: usize) -> Event {
    let own = ((first + draws.below(slots)) % 8) as u32;
    let slot = if draws.once_in(25) { draws.pick(&[8, 9, 1 << 31, u32::MAX]) } else { own };
    let [trigger, sustain] = draws.pick(&[[1, 0], [0, 1], [1, 1], [0, 0], [0, 0]]);
    let f0 = pitch(draws);
    let [accent, structure, brightness, damping] = [0; 4].map(|_| knob(draws));
    let frame = frame as u32;
    let mut event =
        Event { frame, slot, trigger, sustain, f0, accent, structure, brightness, damping };
    if draws.once_in(12) {
        let bad = [f32::NAN, f32::INFINITY, -1e-45, 1f32.next_up(), -1.0, f32::NEG_INFINITY];
        let bad = draws.pick(&bad);
        let Event { f0, accent, structure, brightness, damping, .. } = &mut event;
        match draws.below(5) {
            0 => *f0 = draws.pick(&[bad, 0.5f32.next_up(), LOWEST.next_down()]),
            1 => *accent = bad,
            2 => *structure = bad,
            3 => *brightness = bad,
            _ => *damping = bad,
        }
    }
    event
}

/// The lowest f0.
const LOWEST: f32 = 1.0 / 1048576.0;

/// The f0 at the ends and at the branches, or a drawn one, so that every octave is as likely.
fn pitch(draws: &mut Draws) -> f32 {
    let branch = draws.pick(&[1.0 / 1020.0, 0.25, 0.01, 0.499, 0.4989, 0.0208, 1.0 / 2048.0]);
    let ends = [LOWEST, 0.5, branch, branch.next_up(), branch.next_down()];
    let [low, high] = [LOWEST, 0.5].map(f32::to_bits);
    let any = f32::from_bits(low + draws.word() % (high - low));
    let high = LOWEST.max(0.5 * draws.unit());
    let end = draws.pick(&ends);
    draws.pick(&[end, any, any, high])
}

/// 0, 1, a branch of the structure or, more often, a draw.
fn knob(draws: &mut Draws) -> f32 {
    let drawn = draws.unit();
    draws.pick(&[0.0, 1.0, 0.25, 0.26, drawn, drawn, drawn, drawn, drawn, drawn, drawn, drawn])
}

fn lines(draws: &mut Draws, lent: &mut Lent) {
    lent.lines = draws.pick(&[0, 1280, LINES - 1, LINES + 1]);
}

fn bank(draws: &mut Draws, lent: &mut Lent) {
    lent.bank = draws.pick(&[0, SLOT_BYTES, BANK - 1, BANK + 1]);
}

/// A kind of 3, a place beyond its line, too much left of a burst, or a flag of 2, in any slot.
fn spoil(draws: &mut Draws, lent: &mut Lent) {
    let (place, value) = draws.pick(&[(0, 3), (25, 4), (29, 1), (95, 1), (SLOT_BYTES - 1, 2)]);
    lent.spoiled = Some((SLOT_BYTES * draws.below(8) + place, value));
}

/// A flag above 1; where the sheet has too many events, half of the time in one of those behind the 64th.
fn flag(draws: &mut Draws, lent: &mut Lent) {
    let event = match lent.sheet.len().checked_sub(EVENTS) {
        Some(behind @ 1..) if draws.once_in(2) => &mut lent.sheet[EVENTS + draws.below(behind)],
        _ => some_event(draws, lent),
    };
    let flag = draws.pick(&[2, 2, 256, u32::MAX]);
    if draws.once_in(2) { event.trigger = flag } else { event.sustain = flag }
}

fn answers(draws: &mut Draws, lent: &mut Lent) {
    lent.answers = draws.pick(&[0, 1, EVENTS - 1, EVENTS + 1]);
}

/// Any of the four a frame shorter or longer; alone the last more often than the others, since what is checked before it hides it.
fn lengths(draws: &mut Draws, lent: &mut Lent) {
    let any = 1 + draws.below(15);
    let which = draws.pick(&[2, 4, 4, 8, 8, 8, 12, any]);
    for (_, length) in (0..).zip(&mut lent.lengths).filter(|(k, _)| which >> k & 1 == 1) {
        *length = draws.pick(&[*length + 1, length.saturating_sub(1)]);
    }
}

fn too_long(draws: &mut Draws, lent: &mut Lent) {
    let more = draws.pick(&[0, 0, 40]);
    lent.lengths = lent.lengths.map(|n| n % 8 + 4097 + more);
}

fn too_many(draws: &mut Draws, lent: &mut Lent) {
    let last = *some_event(draws, lent);
    let events = EVENTS + draws.pick(&[1, 1, 2, 100]);
    lent.sheet.resize(events, last);
    lent.sheet.sort_by_key(|event| event.frame);
}

/// An event one frame before the one before it, with both within the block where it has two frames.
fn out_of_order(draws: &mut Draws, lent: &mut Lent) {
    some_event(draws, lent);
    if lent.sheet.len() < 2 {
        lent.sheet.push(lent.sheet[0]);
    }
    let later = 1 + draws.below(lent.sheet.len() - 1);
    let before = lent.sheet[later - 1].frame.max(1);
    lent.sheet[later - 1].frame = before;
    lent.sheet[later].frame = before - 1;
}

/// The last event, or one among them, at the block's end or behind it.
fn past_end(draws: &mut Draws, lent: &mut Lent) {
    let end = lent.lengths[0] as u32;
    let frame = draws.pick(&[end, end, end + 1, 4096, u32::MAX]).max(end);
    some_event(draws, lent);
    let from = lent.sheet.len() - 1 - draws.below(lent.sheet.len()) % 3;
    lent.sheet[from..].iter_mut().for_each(|event| event.frame = frame);
}

/// An event of the sheet, which has one then.
fn some_event<'a>(draws: &mut Draws, lent: &'a mut Lent) -> &'a mut Event {
    if lent.sheet.is_empty() {
        lent.sheet.push(event(draws, 0, 0, 8));
    }
    let place = draws.below(lent.sheet.len());
    &mut lent.sheet[place]
}
