//! A sheet of events, played over a block in one call.

use crate::bank::{Asked, Bank, Buffers, Counts, Knobs, refusal, refused};
use crate::raw::{self, EVENTS};
use crate::refusal::Refusal;
use crate::subnormal::slow_subnormals;
use std::fmt;
use std::ops::Deref;

/// An event of a sheet: from its frame on its slot sounds by its knobs, up to the next event of that slot or the block's end.
#[derive(Debug, Clone, Copy, Default, PartialEq)]
pub struct Event {
    /// The frame of the block at which it begins, from 0. The frames of a sheet never go down.
    pub frame: usize,
    /// The slot that it renders.
    pub slot: usize,
    /// What its render is given.
    pub knobs: Knobs,
}

/// What each event of a sheet was answered, in the order of the sheet: a slice of its length.
#[derive(Clone, Copy)]
pub struct Answers {
    all: [Result<Counts, Refusal>; EVENTS],
    events: usize,
}

impl Deref for Answers {
    type Target = [Result<Counts, Refusal>];

    fn deref(&self) -> &Self::Target {
        &self.all[..self.events]
    }
}

impl fmt::Debug for Answers {
    fn fmt(&self, f: &mut fmt::Formatter<'_>) -> fmt::Result {
        f.debug_list().entries(self.iter()).finish()
    }
}

impl PartialEq for Answers {
    fn eq(&self, other: &Self) -> bool {
        self[..] == other[..]
    }
}

impl Answers {
    /// The answers of a sheet that was played.
    fn new(sheet: &[Event], given: &[raw::Answer; EVENTS]) -> Self {
        let mut all = [Ok(Counts::default()); EVENTS];
        for ((answer, event), given) in all.iter_mut().zip(sheet).zip(given) {
            let asked = || Asked { slot: event.slot, knobs: event.knobs, ..Asked::default() };
            *answer = refused(given.number, asked).map(|()| given.counts);
        }
        Answers { all, events: sheet.len() }
    }
}

impl Bank {
    /// Plays a sheet of up to 64 events over a block: one render an event, in the order of the sheet, each on the frames from its own
    /// to the next event of its slot or to the block's end.
    ///
    /// The render writes over its part of temp and temp_2, and the sound is added to its part of out and aux. Of two events of a slot
    /// on one frame the first makes a render of no frames. A slot without an event stays as it is. An event that is refused changes
    /// nothing, and the others go on.
    ///
    /// ```
    /// # use bleidhvan::{Bank, Event, Kind, Knob, Knobs, Refusal};
    /// let mut bank = Bank::new(33);
    /// bank.open(0, Kind::String, 48000.0)?;
    /// bank.open(1, Kind::Modal, 48000.0)?;
    /// let strike = Knobs { trigger: true, ..Knobs::default() };
    /// let sheet = [
    ///     Event { frame: 0, slot: 0, knobs: strike },
    ///     Event { frame: 16, slot: 1, knobs: Knobs { f0: 0.7, ..strike } },
    ///     Event { frame: 40, slot: 0, knobs: strike },
    /// ];
    /// let [mut temp, mut temp_2, mut out, mut aux] = [[0.0; 64]; 4];
    /// let answers = bank.play(&sheet, [&mut temp, &mut temp_2, &mut out, &mut aux])?;
    /// assert_eq!(answers.len(), 3);
    /// assert_eq!(answers[0]?.burst, 40);
    /// assert_eq!(answers[1], Err(Refusal::OutOfRange { knob: Knob::F0, value: 0.7 }));
    /// assert_eq!(answers[2]?.burst, 24);
    /// # Ok::<(), Refusal>(())
    /// ```
    ///
    /// A sheet of more than 64 events, one whose frames go down and one with a frame at or past the block's end are refused whole:
    /// nothing changes, and the refusal says which event is at fault. So are buffers of different lengths, where it names the buffer,
    /// and a block of more than 4,096 frames, before that.
    ///
    /// ```
    /// # use bleidhvan::{Bank, Event, Refusal};
    /// let mut bank = Bank::new(33);
    /// let [mut temp, mut temp_2, mut out, mut aux] = [[0.0; 64]; 4];
    /// let sheet = [12, 10].map(|frame| Event { frame, ..Event::default() });
    /// let refusal = bank.play(&sheet, [&mut temp, &mut temp_2, &mut out, &mut aux]).unwrap_err();
    /// assert_eq!(refusal, Refusal::OutOfOrder { event: 1, frame: 10, before: 12 });
    /// assert_eq!(
    ///     refusal.to_string(),
    ///     "event 1, counted from 0, is at frame 10, and the one before it at 12: put the events in the order of their frames"
    /// );
    /// ```
    pub fn play(&mut self, sheet: &[Event], buffers: Buffers<'_>) -> Result<Answers, Refusal> {
        let lengths = buffers.each_ref().map(|buffer| buffer.len());
        let crossing = crossing(sheet);
        let mut answers = [raw::Answer::default(); EVENTS];
        let number = raw::play(
            &mut self.bytes,
            &mut self.lines,
            &mut self.word,
            &crossing[..sheet.len().min(CROSSING)],
            &mut answers,
            buffers,
            slow_subnormals(),
        );
        match number {
            0 => Ok(Answers::new(sheet, &answers)),
            _ => Err(refused_whole(number, sheet, lengths)),
        }
    }
}

/// The most events that are handed on: one more than a sheet may have, for which the table refuses it.
const CROSSING: usize = EVENTS + 1;

/// The first events of a sheet as they cross.
fn crossing(sheet: &[Event]) -> [raw::Event; CROSSING] {
    let mut crossing = [raw::Event::default(); CROSSING];
    let mut before = 0;
    for (to, Event { frame, slot, knobs }) in crossing.iter_mut().zip(sheet) {
        *to = raw::Event::new(narrow(*frame, before), narrow(*slot, 0), knobs);
        before = *frame;
    }
    crossing
}

/// A number as 32 bits. From the last of them on every number is that last one, or the one before it where it is below the number
/// before it, so that what goes down goes down there too.
fn narrow(number: usize, before: usize) -> u32 {
    match u32::try_from(number) {
        Ok(number) if number < u32::MAX => number,
        _ => u32::MAX - u32::from(number < before),
    }
}

/// Why a sheet was refused whole, and by which event.
fn refused_whole(number: u32, sheet: &[Event], lengths: [usize; 4]) -> Refusal {
    let at_fault = |is: &dyn Fn(usize) -> bool| {
        (0..sheet.len()).find(|event| is(*event)).expect("an event is at fault")
    };
    match number {
        14 => Refusal::TooMany { events: sheet.len() },
        15 => {
            let event = at_fault(&|k| k > 0 && sheet[k].frame < sheet[k - 1].frame);
            let [before, frame] = [event - 1, event].map(|k| sheet[k].frame);
            Refusal::OutOfOrder { event, frame, before }
        }
        16 => {
            let frames = lengths[0];
            let event = at_fault(&|k| sheet[k].frame >= frames);
            Refusal::PastEnd { event, frame: sheet[event].frame, frames }
        }
        _ => refusal(number, Asked { lengths, ..Asked::default() }),
    }
}

#[cfg(test)]
mod tests {
    use super::*;

    #[test]
    fn bytes_that_are_no_bank_are_refused_before_all_else() {
        let mut bank = Bank::new(33);
        bank.bytes[0] = 3;
        let sheet = [9, 8].map(|frame| Event { frame, ..Event::default() });
        let [mut temp, mut temp_2, mut out, mut aux] = [1, 2, 3, 4].map(|n| vec![0.0; n]);
        let answers = bank.play(&sheet, [&mut temp, &mut temp_2, &mut out, &mut aux]);
        assert_eq!(answers, Err(Refusal::Memory));
    }
}
