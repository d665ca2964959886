//! A player by single renders, right or wrong in one thing.

use bleidhvan::Counts;
use bleidhvan::raw::{self, Answer, EVENTS, Event};
use compare::sheets::{Player, knobs_of, model};

pub const NOTHING: usize = 0;
const BACKWARDS: usize = 1;
const NEIGHBOUR: usize = 2;
const TO_THE_END: usize = 3;
const ANY_SLOT: usize = 4;
const FIRST_OWNS: usize = 5;
const STOPS: usize = 6;
const SIXTY_FIVE: usize = 7;
const EQUAL_REFUSED: usize = 8;
const END_ACCEPTED: usize = 9;
const ONE_ANSWER: usize = 10;
const NO_ZEROS: usize = 11;
const WORD_MOVES: usize = 12;
const FLAG_TAKEN: usize = 13;
const SLOT_BY_SLOT: usize = 14;
const END_FIRST: usize = 15;
const OWN_WORDS: usize = 16;
const OTHER_LENGTH: usize = 17;
const EMPTY_SKIPPED: usize = 18;
const REFUSED_HAS_NONE: usize = 19;
const LONG_FIRST: usize = 20;
const LATE_FLAG: usize = 21;
const OUT_BESIDE_TEMP_2: usize = 22;
const EXCHANGED: usize = 23;
const AUX_LATE: usize = 24;

/// What is wrong with each.
pub const PLAYERS: [(&str, Player); 24] = [
    ("the sheet run backwards", play::<BACKWARDS>),
    ("the answer of the neighbour", play::<NEIGHBOUR>),
    ("renders to the block's end always", play::<TO_THE_END>),
    ("the next event of any slot", play::<ANY_SLOT>),
    ("the first event owns the frame", play::<FIRST_OWNS>),
    ("a refused event stops the sheet", play::<STOPS>),
    ("65 events accepted", play::<SIXTY_FIVE>),
    ("equal frames refused", play::<EQUAL_REFUSED>),
    ("the block's end accepted", play::<END_ACCEPTED>),
    ("one answer of a refused sheet", play::<ONE_ANSWER>),
    ("answers past the events stay", play::<NO_ZEROS>),
    ("a refused sheet moves the word", play::<WORD_MOVES>),
    ("a flag of 2 taken for 1", play::<FLAG_TAKEN>),
    ("frames compared slot by slot", play::<SLOT_BY_SLOT>),
    ("16 before 15", play::<END_FIRST>),
    ("each render with the sheet's first word", play::<OWN_WORDS>),
    ("answers of another length written", play::<OTHER_LENGTH>),
    ("renders of no frames left out", play::<EMPTY_SKIPPED>),
    ("a refused event has no frames", play::<REFUSED_HAS_NONE>),
    ("8 before 7", play::<LONG_FIRST>),
    ("only the flags of the first 64 events looked at", play::<LATE_FLAG>),
    ("out compared with temp_2 and not with temp, before 7", play::<OUT_BESIDE_TEMP_2>),
    ("17 and 18 exchanged", play::<EXCHANGED>),
    ("8 before 18", play::<AUX_LATE>),
];

pub fn play<const WRONG: usize>(
    bank: &mut [u8],
    lines: &mut [f32],
    word: &mut u32,
    sheet: &[Event],
    answers: &mut [Answer],
    mut buffers: [&mut [f32]; 4],
    slow: bool,
) -> u32 {
    let lengths = buffers.each_ref().map(|buffer| buffer.len());
    let memory = raw::reset(bank, lines, 8) != 1;
    let number = number::<WRONG>(memory, sheet, answers.len(), lengths);
    if number != 0 {
        *word ^= u32::from(WRONG == WORD_MOVES);
        refuse::<WRONG>(number, answers);
        return number;
    }
    if WRONG != NO_ZEROS {
        answers.fill(Answer::default());
    }
    let sheet = &sheet[..sheet.len().min(EVENTS)];
    let ends = ends::<WRONG>(bank, sheet, lengths[0]);
    let first = *word;
    for turn in 0..sheet.len() {
        let k = if WRONG == BACKWARDS { sheet.len() - 1 - turn } else { turn };
        let (from, to) = (sheet[k].frame as usize, ends[k]);
        if WRONG == EMPTY_SKIPPED && from == to {
            continue;
        }
        *word = if WRONG == OWN_WORDS { first } else { *word };
        let parts = buffers.each_mut().map(|buffer| &mut buffer[from..to]);
        let (slot, knobs) = (sheet[k].slot as usize, knobs_of(&sheet[k]));
        answers[k] = raw::render(bank, lines, word, slot, &knobs, parts, slow);
        if WRONG == STOPS && answers[k].number != 0 {
            break;
        }
    }
    if WRONG == NEIGHBOUR && !sheet.is_empty() {
        answers[..sheet.len()].rotate_left(1);
    }
    0
}

/// The answers of a sheet that is refused whole.
fn refuse<const WRONG: usize>(number: u32, answers: &mut [Answer]) {
    let written = match (WRONG, answers.len()) {
        (ONE_ANSWER, EVENTS) => 1,
        (OTHER_LENGTH, written) | (_, written @ EVENTS) => written,
        _ => 0,
    };
    answers[..written].fill(Answer { number, counts: Counts::default() });
}

/// The sheet's number, wrong in one check or none.
fn number<const WRONG: usize>(
    memory: bool,
    sheet: &[Event],
    answers: usize,
    lengths: [usize; 4],
) -> u32 {
    let mut seen = sheet.to_vec();
    match WRONG {
        SIXTY_FIVE => seen.truncate(if sheet.len() == EVENTS + 1 { EVENTS } else { sheet.len() }),
        FLAG_TAKEN => seen.iter_mut().for_each(|event| event.trigger = event.trigger.min(1)),
        END_ACCEPTED if lengths[0] > 0 => seen.iter_mut().for_each(|event| {
            event.frame -= u32::from(event.frame as usize == lengths[0]);
        }),
        SLOT_BY_SLOT => seen.sort_by_key(|event| event.slot),
        LATE_FLAG => seen.iter_mut().skip(EVENTS).for_each(|event| {
            (event.trigger, event.sustain) = (0, 0);
        }),
        _ => (),
    }
    let asked = model::Asked { memory, sheet: &seen, answers, lengths };
    let mut faults = model::faults(&asked);
    match WRONG {
        SLOT_BY_SLOT => {
            let down =
                |pair: &[Event]| pair[0].slot == pair[1].slot && pair[0].frame > pair[1].frame;
            let any = seen.windows(2).any(down);
            faults.retain(|number| *number != 15 || any);
        }
        EQUAL_REFUSED if faults.is_empty() => {
            let equal = sheet.windows(2).any(|pair| pair[0].frame == pair[1].frame);
            faults.extend(equal.then_some(15));
        }
        END_FIRST if faults.starts_with(&[15, 16]) => faults.reverse(),
        LONG_FIRST if faults.starts_with(&[7, 8]) => faults.reverse(),
        OUT_BESIDE_TEMP_2 if faults.starts_with(&[7]) && lengths[2] != lengths[1] => {
            faults.insert(0, 17);
        }
        AUX_LATE if faults.starts_with(&[18, 8]) => faults.reverse(),
        EXCHANGED => faults.iter_mut().for_each(|number| match number {
            17 => *number = 18,
            18 => *number = 17,
            _ => (),
        }),
        _ => (),
    }
    *faults.first().unwrap_or(&0)
}

/// The ends of the events, wrong in one thing or none.
fn ends<const WRONG: usize>(bank: &[u8], sheet: &[Event], frames: usize) -> Vec<usize> {
    let kinds = std::array::from_fn(|slot| u32::from(bank[raw::SLOT_BYTES * slot]));
    let mut seen = sheet.to_vec();
    let right = model::ends(sheet, frames);
    match WRONG {
        TO_THE_END => vec![frames; sheet.len()],
        ANY_SLOT => {
            seen.iter_mut().for_each(|event| event.slot = 0);
            model::ends(&seen, frames)
        }
        FIRST_OWNS => first_owns(sheet, right),
        REFUSED_HAS_NONE => {
            seen.retain(|event| model::number(&kinds, event) == 0);
            let kept = model::ends(&seen, frames);
            let mut kept = kept.into_iter();
            let end = |(event, right): (&Event, usize)| match model::number(&kinds, event) {
                0 => kept.next().unwrap_or(right),
                _ => right,
            };
            sheet.iter().zip(right).map(end).collect()
        }
        _ => right,
    }
}

/// Of the events of a slot on one frame the first has the frames, and the others none.
fn first_owns(sheet: &[Event], mut ends: Vec<usize>) -> Vec<usize> {
    for later in (1..sheet.len()).rev() {
        let same =
            |event: &Event| (event.slot, event.frame) == (sheet[later].slot, sheet[later].frame);
        if let Some(first) = sheet[..later].iter().rposition(same) {
            ends[first] = ends[later];
            ends[later] = sheet[later].frame as usize;
        }
    }
    ends
}
