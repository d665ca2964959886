//! A row of the file: what a call of a bank was given and what it left.

use crate::draws::{canonical, digest, digest_of_buffer};
use crate::rows::{ROW_WORDS, Row};
use crate::voices::format::Render;

/// The words at the beginning of a row that say what was given.
pub const GIVEN_WORDS: usize = 17;

/// The numbers of line memory of which a call is lent a part from the first on.
pub const MEMORY: usize = super::LINES + 1;

/// The most frames of a buffer that a call is lent here.
pub const LONGEST: u32 = 4224;

/// A call with any arguments; the frames, the word and the fill of a render stand elsewhere, and are 0 here.
#[derive(Debug, Clone, Copy)]
pub enum Asked {
    Open { kind: u32, sample_rate: f32 },
    Reset,
    Render(Render),
}

#[derive(Debug, Clone, Copy)]
pub struct Call {
    pub slot: u32,
    pub asked: Asked,
}

/// What a call is lent.
#[derive(Debug, Clone, Copy)]
pub struct Lent {
    /// The lengths of temp, temp_2, out and aux.
    pub frames: [u32; 4],
    /// The word from which the four buffers are filled.
    pub fill: u32,
    /// The length of line memory.
    pub lines: u32,
}

/// A number of a slot's record that the table reads.
#[derive(Debug, Clone, Copy, PartialEq, Eq)]
pub enum Number {
    Kind,
    String,
    Stretch,
    Left,
}

#[derive(Debug, Clone, Copy)]
pub enum Given {
    /// A list begins: a fresh bank of that seed, and line memory filled from that word.
    Begin {
        seed: u32,
        fill: u32,
    },
    /// A number of a slot is put in the place of its own.
    Put {
        slot: u32,
        number: Number,
        value: u32,
    },
    Call {
        call: Call,
        lent: Lent,
    },
}

impl Given {
    fn words(&self) -> [u32; GIVEN_WORDS] {
        let mut words = [0; GIVEN_WORDS];
        match *self {
            Given::Begin { seed, fill } => {
                words[0] = 3;
                words[9..11].copy_from_slice(&[seed, fill]);
            }
            Given::Put { slot, number, value } => {
                words[0] = 4;
                words[11..14].copy_from_slice(&[slot, number as u32, value]);
            }
            Given::Call { call, lent } => words = call_words(&call, &lent),
        }
        words
    }
}

fn call_words(call: &Call, lent: &Lent) -> [u32; GIVEN_WORDS] {
    let mut words = [0; GIVEN_WORDS];
    assert!(lent.frames.iter().all(|n| *n <= LONGEST) && lent.lines as usize <= MEMORY);
    match call.asked {
        Asked::Open { kind, sample_rate } => {
            words[3] = sample_rate.to_bits();
            words[12] = kind;
        }
        Asked::Reset => words[0] = 1,
        Asked::Render(render) => {
            words[..11].copy_from_slice(&render.words());
            words[2] = lent.frames[0];
            words[10] = lent.fill;
            words[13..16].copy_from_slice(&lent.frames[1..]);
        }
    }
    words[11] = call.slot;
    words[16] = lent.lines;
    words
}

/// The row of what was given; the answer is 01's number and the three counts.
pub fn row(
    given: &Given,
    answer: [u32; 4],
    word: u32,
    buffers: &[Vec<f32>; 4],
    memory: &[f32],
    records: [&[u32]; 8],
) -> Row {
    let mut words = given.words().to_vec();
    words.extend(answer);
    words.push(word);
    words.extend(buffers.each_ref().map(|buffer| digest_of_buffer(buffer)));
    words.push(digest_of_buffer(memory));
    words.extend(records.map(|record| digest(record.iter().copied())));
    words.extend(buffers[2].iter().take(16).copied().map(canonical));
    assert!(words.len() <= ROW_WORDS, "every word has its place");
    std::array::from_fn(|k| words.get(k).copied().unwrap_or(0))
}
