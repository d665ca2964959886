//! The formats of sound files.

use std::fmt;

#[derive(Debug, Clone, Copy, PartialEq, Eq)]
pub enum Format {
    Float32,
    Int24,
    Int16,
    Flac24,
    Flac16,
}

pub const FORMATS: [Format; 5] =
    [Format::Float32, Format::Int24, Format::Int16, Format::Flac24, Format::Flac16];

impl Format {
    /// The format of a kind of file with so many bits a sample.
    pub fn of(is_flac: bool, bits: u32) -> Option<Self> {
        match (is_flac, bits) {
            (false, 32) => Some(Format::Float32),
            (false, 24) => Some(Format::Int24),
            (false, 16) => Some(Format::Int16),
            (true, 24) => Some(Format::Flac24),
            (true, 16) => Some(Format::Flac16),
            _ => None,
        }
    }

    pub fn read(text: &str) -> Option<Self> {
        FORMATS.into_iter().find(|format| format.to_string() == text)
    }

    pub fn is_flac(self) -> bool {
        matches!(self, Format::Flac24 | Format::Flac16)
    }

    pub fn ending(self) -> &'static str {
        if self.is_flac() { "flac" } else { "wav" }
    }

    /// The bits of a whole sample, none of floats.
    pub fn bits(self) -> Option<u32> {
        match self {
            Format::Float32 => None,
            Format::Int24 | Format::Flac24 => Some(24),
            Format::Int16 | Format::Flac16 => Some(16),
        }
    }

    /// The bytes of a sample before a file is packed.
    pub fn bytes(self) -> u64 {
        u64::from(self.bits().unwrap_or(32)) / 8
    }

    /// The most bytes of samples: a WAV file counts its bytes in 32 bits, some of them before the samples.
    pub fn most_bytes(self) -> u64 {
        if self.is_flac() { 1 << 36 } else { u64::from(u32::MAX) - (1 << 14) }
    }

    /// The highest step of whole samples.
    pub fn steps(self) -> f32 {
        match self.bits() {
            Some(bits) => ((1_u32 << (bits - 1)) - 1) as f32,
            None => 1.0,
        }
    }
}

impl fmt::Display for Format {
    fn fmt(&self, f: &mut fmt::Formatter<'_>) -> fmt::Result {
        f.write_str(match self {
            Format::Float32 => "wav float32",
            Format::Int24 => "wav int24",
            Format::Int16 => "wav int16",
            Format::Flac24 => "flac int24",
            Format::Flac16 => "flac int16",
        })
    }
}
