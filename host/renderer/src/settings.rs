//! What every note of a sheet is rendered with.

use crate::format::Format;
use crate::note::{Note, RING_SECONDS};
use std::fmt;

#[derive(Debug, Clone, Copy)]
pub struct Settings {
    pub seed: u32,
    pub rate: u32,
    pub format: Format,
    /// Whether aux is a second channel.
    pub aux: bool,
    pub level: Level,
    /// The milliseconds over which a note's end is faded out.
    pub fade: f64,
    /// The frames of the longest block. No byte of a file hangs on it, to which the tests hold it.
    pub longest: usize,
}

/// What the voice's own level becomes.
#[derive(Debug, Clone, Copy, PartialEq)]
pub enum Level {
    /// So many decibels more.
    Gain(f64),
    /// A peak of so many decibels below full scale.
    Peak(f64),
    /// So many LUFS.
    Loudness(f64),
}

impl Settings {
    /// The channels of a file.
    pub fn channels(&self) -> usize {
        if self.aux { 2 } else { 1 }
    }

    /// The frames of a note, or the most of one that rings.
    pub fn frames(&self, note: &Note) -> u64 {
        let seconds = note.seconds.unwrap_or(RING_SECONDS);
        (seconds * f64::from(self.rate)).round() as u64
    }

    /// The most frames of a file.
    pub fn most_frames(&self) -> u64 {
        self.format.most_bytes() / (self.format.bytes() * self.channels() as u64)
    }

    /// The frames of a note's end that are faded, at most half of it.
    pub fn faded(&self, frames: u64) -> u64 {
        ((self.fade / 1000.0 * f64::from(self.rate)).round() as u64).min(frames / 2)
    }

    /// Whether the voice is measured before it is written.
    pub fn is_measured(&self, note: &Note) -> bool {
        note.seconds.is_none() || !matches!(self.level, Level::Gain(_))
    }
}

impl Level {
    /// Reads a level to come to, as `peak=-1` or `loudness=-18`.
    pub fn read(text: &str) -> Option<Self> {
        let (what, number) = text.split_once('=')?;
        let number = number.parse().ok().filter(|n| (-100.0..=0.0).contains(n))?;
        match what {
            "peak" => Some(Level::Peak(number)),
            "loudness" => Some(Level::Loudness(number)),
            _ => None,
        }
    }
}

impl fmt::Display for Level {
    fn fmt(&self, f: &mut fmt::Formatter<'_>) -> fmt::Result {
        match self {
            Level::Gain(decibels) => write!(f, "gain={decibels}"),
            Level::Peak(decibels) => write!(f, "peak={decibels}"),
            Level::Loudness(lufs) => write!(f, "loudness={lufs}"),
        }
    }
}
