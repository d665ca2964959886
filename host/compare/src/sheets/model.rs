//! What a sheet's call is to answer and whose frames are whose, read from the request anew.

use bleidhvan::raw::Event;
use std::collections::HashMap;
use std::ops::RangeInclusive;

/// The numbers for which a sheet is refused whole, in the order of the checks.
pub const WHOLE: [u32; 8] = [1, 7, 17, 18, 8, 14, 15, 16];

/// The numbers of an event's own answer.
pub const OWN: [u32; 8] = [0, 2, 5, 9, 10, 11, 12, 13];

/// What the checks of a whole sheet read.
pub struct Asked<'a> {
    /// Whether the bank's bytes are a bank and line memory has its length.
    pub memory: bool,
    pub sheet: &'a [Event],
    pub answers: usize,
    /// The lengths of temp, temp_2, out and aux.
    pub lengths: [usize; 4],
}

/// The numbers that apply to a sheet, in the order of the checks: the first is its answer, and where there is none it is played.
pub fn faults(asked: &Asked) -> Vec<u32> {
    let Asked { memory, sheet, answers, lengths } = *asked;
    let frames = lengths[0];
    let odd = |event: &Event| event.trigger > 1 || event.sustain > 1;
    let applies = [
        !memory || answers != 64 || sheet.iter().any(odd),
        lengths[1] != frames,
        lengths[2] != frames,
        lengths[3] != frames,
        frames > 4096,
        sheet.len() > 64,
        !sheet.is_sorted_by_key(|event| event.frame),
        sheet.iter().any(|event| event.frame as usize >= frames),
    ];
    WHOLE.into_iter().zip(applies).filter(|(_, applies)| *applies).map(|(n, _)| n).collect()
}

/// An event's own number, by the kinds of the slots.
pub fn number(kinds: &[u32; 8], event: &Event) -> u32 {
    match kinds.get(event.slot as usize) {
        None => return 2,
        Some(0) => return 5,
        Some(_) => (),
    }
    let own = 0.0..=1.0;
    let knobs: [(f32, &RangeInclusive<f32>); 5] = [
        (event.f0, &(2f32.powi(-20)..=0.5)),
        (event.accent, &own),
        (event.structure, &own),
        (event.brightness, &own),
        (event.damping, &own),
    ];
    let outside = knobs.iter().position(|(value, range)| !range.contains(value));
    outside.map_or(0, |place| 9 + place as u32)
}

/// Where each event's frames end: at the next event of its slot, or at the block's end.
pub fn ends(sheet: &[Event], frames: usize) -> Vec<usize> {
    let mut next = HashMap::new();
    let end = |event: &Event| next.insert(event.slot, event.frame as usize).unwrap_or(frames);
    let mut ends: Vec<usize> = sheet.iter().rev().map(end).collect();
    ends.reverse();
    ends
}
