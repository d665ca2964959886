//! Why a call was refused, by the numbers of the table.

use std::fmt;
use std::ops::RangeInclusive;

/// A knob of a render that has a range.
#[derive(Debug, Clone, Copy, PartialEq, Eq, Hash)]
pub enum Knob {
    /// The pitch, as a part of the sample rate.
    F0,
    /// How hard a strike is.
    Accent,
    /// The non-linearity of the string, the stiffness of the modes.
    Structure,
    /// The brightness of the excitation.
    Brightness,
    /// How long the sound rings.
    Damping,
}

impl Knob {
    /// The knobs in the order in which they are checked.
    pub const ALL: [Knob; 5] =
        [Knob::F0, Knob::Accent, Knob::Structure, Knob::Brightness, Knob::Damping];

    /// The name that the knob has in a sheet.
    pub fn name(self) -> &'static str {
        match self {
            Knob::F0 => "f0",
            Knob::Accent => "accent",
            Knob::Structure => "structure",
            Knob::Brightness => "brightness",
            Knob::Damping => "damping",
        }
    }

    /// The values that are accepted, both ends included.
    pub fn range(self) -> RangeInclusive<f32> {
        match self {
            Knob::F0 => 1.0 / 1048576.0..=0.5,
            _ => 0.0..=1.0,
        }
    }

    /// The range as it is said to a user.
    pub fn range_text(self) -> &'static str {
        match self {
            Knob::F0 => "2^-20 to 0.5 of the sample rate",
            _ => "0 to 1",
        }
    }
}

/// A buffer that is to have the length of temp.
#[derive(Debug, Clone, Copy, PartialEq, Eq, Hash)]
pub enum Buffer {
    /// The filtered excitation.
    Temp2,
    /// What the sound is added to.
    Out,
    /// What the filtered excitation is added to.
    Aux,
}

impl Buffer {
    /// The buffers in the order in which they are checked, which is theirs in the array that a call is lent.
    pub const ALL: [Buffer; 3] = [Buffer::Temp2, Buffer::Out, Buffer::Aux];

    /// The name that the buffer has in a call.
    pub fn name(self) -> &'static str {
        match self {
            Buffer::Temp2 => "temp_2",
            Buffer::Out => "out",
            Buffer::Aux => "aux",
        }
    }

    /// The number of a refusal for its length.
    pub fn number(self) -> u32 {
        match self {
            Buffer::Temp2 => 7,
            Buffer::Out => 17,
            Buffer::Aux => 18,
        }
    }
}

/// Why a call was refused. It changed nothing.
#[derive(Debug, Clone, Copy, PartialEq)]
pub enum Refusal {
    /// 1: the bytes are not a bank's, or line memory has another length.
    Memory,
    /// 2: there is no such slot.
    NoSlot {
        /// The slot asked for.
        slot: usize,
    },
    /// 3: there is no voice of that kind.
    Kind {
        /// The kind asked for.
        kind: u32,
    },
    /// 4: the sample rate is out of range.
    SampleRate {
        /// The rate asked for.
        rate: f32,
    },
    /// 5: the slot holds no voice.
    Empty {
        /// The slot asked for.
        slot: usize,
    },
    /// 6: the slot holds a modal voice, which has no reset.
    NoReset {
        /// The slot asked for.
        slot: usize,
    },
    /// 7, 17 or 18: a buffer has another length than temp.
    Length {
        /// The first such buffer.
        buffer: Buffer,
        /// Its length.
        frames: usize,
        /// The length of temp.
        temp: usize,
    },
    /// 8: the block is too long.
    TooLong {
        /// The frames of the block.
        frames: usize,
    },
    /// 9 to 13: a knob is out of its range.
    OutOfRange {
        /// The first such knob.
        knob: Knob,
        /// Its value.
        value: f32,
    },
    /// 14: the sheet has too many events.
    TooMany {
        /// The events of the sheet.
        events: usize,
    },
    /// 15: the frames of the sheet go down.
    OutOfOrder {
        /// The place in the sheet, from 0, of the first event that is before the one before it.
        event: usize,
        /// Its frame.
        frame: usize,
        /// The frame of the event before it.
        before: usize,
    },
    /// 16: an event is at or past the end of the block.
    PastEnd {
        /// The place in the sheet, from 0, of the first such event.
        event: usize,
        /// Its frame.
        frame: usize,
        /// The frames of the block.
        frames: usize,
    },
}

impl Refusal {
    /// The number of the table.
    pub fn number(&self) -> u32 {
        match self {
            Refusal::Memory => 1,
            Refusal::NoSlot { .. } => 2,
            Refusal::Kind { .. } => 3,
            Refusal::SampleRate { .. } => 4,
            Refusal::Empty { .. } => 5,
            Refusal::NoReset { .. } => 6,
            Refusal::Length { buffer, .. } => buffer.number(),
            Refusal::TooLong { .. } => 8,
            Refusal::OutOfRange { knob, .. } => 9 + *knob as u32,
            Refusal::TooMany { .. } => 14,
            Refusal::OutOfOrder { .. } => 15,
            Refusal::PastEnd { .. } => 16,
        }
    }
}

impl fmt::Display for Refusal {
    fn fmt(&self, f: &mut fmt::Formatter<'_>) -> fmt::Result {
        match self {
            Refusal::Memory => {
                write!(f, "the bytes are not a bank's, or line memory is not 10,240 numbers")
            }
            Refusal::NoSlot { slot } => write!(f, "there is no slot {slot}: slots are 0 to 7"),
            Refusal::Kind { kind } => {
                write!(f, "there is no kind {kind}: 1 is a string, 2 a modal voice")
            }
            Refusal::SampleRate { rate } => {
                write!(f, "the sample rate is {rate}, and must be 8000 to 192000")
            }
            Refusal::Empty { slot } => write!(f, "slot {slot} is empty: open it first"),
            Refusal::NoReset { slot } => {
                write!(f, "slot {slot} holds a modal voice, which has no reset: open it again")
            }
            Refusal::Length { buffer, frames, temp } => write!(
                f,
                "the length of {} is {frames} and that of temp is {temp}: give the four buffers one length",
                buffer.name()
            ),
            Refusal::TooLong { frames } => {
                write!(f, "the block has {frames} frames: at most 4096 are rendered at once")
            }
            Refusal::OutOfRange { knob, value } => {
                write!(f, "{} is {value}, and must be {}", knob.name(), knob.range_text())
            }
            Refusal::TooMany { events } => write!(
                f,
                "the sheet has {events} events: give a block at most 64, and the next block the others"
            ),
            Refusal::OutOfOrder { event, frame, before } => write!(
                f,
                "event {event}, counted from 0, is at frame {frame}, and the one before it at {before}: put the events in the order of their frames"
            ),
            Refusal::PastEnd { event, frame, frames } => past_end(f, *event, *frame, *frames),
        }
    }
}

/// What is said of an event at or past the end of a block of so many frames.
fn past_end(f: &mut fmt::Formatter<'_>, event: usize, frame: usize, frames: usize) -> fmt::Result {
    write!(f, "event {event}, counted from 0, is at frame {frame} of a block of ")?;
    match frames.checked_sub(1) {
        None => write!(f, "no frames: such a block takes no event"),
        Some(last) => {
            write!(f, "{frames}: give it a frame from 0 to {last}, or put it in a later block")
        }
    }
}

impl std::error::Error for Refusal {}
