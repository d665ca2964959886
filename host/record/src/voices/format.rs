//! A file of sequences of one voice, a call a row.

use crate::rows::{self, ROW_WORDS, Row};
use std::path::PathBuf;

/// The words at the beginning of a call that say what it was given.
pub const GIVEN_WORDS: usize = 11;

/// The most frames of a render.
pub const MOST_FRAMES: u32 = 4096;

/// The words of a call after those that it was given.
pub type Left = [u32; ROW_WORDS - GIVEN_WORDS];

/// What a render is given.
#[derive(Debug, Clone, Copy)]
pub struct Render {
    pub sustain: bool,
    pub trigger: bool,
    pub frames: u32,
    pub accent: f32,
    pub f0: f32,
    pub structure: f32,
    pub brightness: f32,
    pub damping: f32,
    /// The generator's word before the call.
    pub word: u32,
    /// The word from which the four buffers are filled.
    pub fill: u32,
}

/// What a call is given.
#[derive(Debug, Clone, Copy)]
pub enum Given {
    Open { sample_rate: f32 },
    Reset,
    Render(Render),
}

/// A call, with what it was given and what it left.
#[derive(Debug, Clone, Copy)]
pub struct Call {
    pub given: Given,
    pub left: Left,
}

impl Render {
    pub fn words(&self) -> [u32; GIVEN_WORDS] {
        let flags = u32::from(self.sustain) + 2 * u32::from(self.trigger);
        let [accent, f0] = [self.accent, self.f0].map(f32::to_bits);
        let knobs = [self.structure, self.brightness, self.damping].map(f32::to_bits);
        let [structure, brightness, damping] = knobs;
        [2, flags, self.frames, 0, accent, f0, structure, brightness, damping, self.word, self.fill]
    }

    fn from_words(words: [u32; GIVEN_WORDS]) -> Self {
        let float = |k: usize| f32::from_bits(words[k]);
        Render {
            sustain: words[1] & 1 != 0,
            trigger: words[1] & 2 != 0,
            frames: words[2],
            accent: float(4),
            f0: float(5),
            structure: float(6),
            brightness: float(7),
            damping: float(8),
            word: words[9],
            fill: words[10],
        }
    }

    fn accepted(&self) -> bool {
        let knobs = [self.accent, self.structure, self.brightness, self.damping];
        let lowest = 2f32.powi(-20);
        self.frames <= MOST_FRAMES
            && (lowest..=0.5).contains(&self.f0)
            && knobs.iter().all(|knob| (0.0..=1.0).contains(knob))
    }
}

impl Given {
    pub fn words(&self) -> [u32; GIVEN_WORDS] {
        let mut words = [0; GIVEN_WORDS];
        match self {
            Given::Open { sample_rate } => words[3] = sample_rate.to_bits(),
            Given::Reset => words[0] = 1,
            Given::Render(render) => words = render.words(),
        }
        words
    }

    /// The call of these words, or what is wrong with them.
    pub fn from_words(words: [u32; GIVEN_WORDS]) -> Result<Self, String> {
        let given = match words[0] {
            0 => Given::Open { sample_rate: f32::from_bits(words[3]) },
            1 => Given::Reset,
            2 => Given::Render(Render::from_words(words)),
            kind => return Err(format!("no kind of call has the number {kind}")),
        };
        if given.words() != words {
            return Err("a call was given more than its words".into());
        }
        given.accepted().then_some(given).ok_or(format!("{given:?} is not accepted"))
    }

    /// Whether 01 accepts the call.
    pub fn accepted(&self) -> bool {
        match self {
            Given::Open { sample_rate } => (8000.0..=192000.0).contains(sample_rate),
            Given::Reset => true,
            Given::Render(render) => render.accepted(),
        }
    }
}

impl Call {
    pub fn words(&self) -> Row {
        let mut words = [0; ROW_WORDS];
        words[..GIVEN_WORDS].copy_from_slice(&self.given.words());
        words[GIVEN_WORDS..].copy_from_slice(&self.left);
        words
    }

    pub fn from_words(words: Row) -> Result<Self, String> {
        let given = Given::from_words(std::array::from_fn(|k| words[k]))?;
        Ok(Call { given, left: std::array::from_fn(|k| words[GIVEN_WORDS + k]) })
    }
}

/// What a voice's files have of their own.
#[derive(Debug, Clone, Copy)]
pub struct Kind {
    /// The word of the header, and the file's name.
    pub name: &'static str,
    /// Whether the voice has a reset.
    pub resets: bool,
}

pub const STRINGS: Kind = Kind { name: "strings", resets: true };

pub const MODALS: Kind = Kind { name: "modals", resets: false };

impl Kind {
    /// Whether a voice of the kind has the call.
    pub fn has(&self, given: &Given) -> bool {
        self.resets || !matches!(given, Given::Reset)
    }

    /// Where the file stands in the repository.
    pub fn path(&self) -> PathBuf {
        rows::path(self.name)
    }
}

/// The bytes of a file of these calls.
pub fn to_bytes(kind: Kind, calls: &[Call]) -> Vec<u8> {
    let rows: Vec<Row> = calls.iter().map(Call::words).collect();
    rows::to_bytes(kind.name, &rows)
}

/// The calls of a file, or what is wrong with it.
pub fn from_bytes(kind: Kind, bytes: &[u8]) -> Result<Vec<Call>, String> {
    let rows = rows::from_bytes(kind.name, bytes)?;
    let calls: Vec<Call> = rows.into_iter().map(Call::from_words).collect::<Result<_, _>>()?;
    if !calls.iter().all(|call| kind.has(&call.given)) {
        return Err(format!("{} have no reset", kind.name));
    }
    match calls.first() {
        Some(Call { given: Given::Open { .. }, .. }) | None => Ok(calls),
        _ => Err("the first call opens no voice".into()),
    }
}
