//! A bank of eight slots, with its generator and its line memory.

use crate::raw::{self, Answer};
use crate::refusal::{Buffer, Knob, Refusal};
use crate::subnormal::slow_subnormals;

/// What a slot is opened with.
#[derive(Debug, Clone, Copy, PartialEq, Eq, Hash)]
pub enum Kind {
    /// A string, plucked or bowed.
    String = 1,
    /// A resonator of 24 modes, struck or rubbed.
    Modal = 2,
}

/// What a render is given beside its buffers.
#[derive(Debug, Clone, Copy, PartialEq)]
pub struct Knobs {
    /// Whether the voice is excited all along, by dust.
    pub sustain: bool,
    /// Whether the voice is struck at the first frame.
    pub trigger: bool,
    /// 0 to 1.
    pub accent: f32,
    /// The pitch over the sample rate: 2^-20 to 0.5.
    pub f0: f32,
    /// 0 to 1.
    pub structure: f32,
    /// 0 to 1.
    pub brightness: f32,
    /// 0 to 1.
    pub damping: f32,
}

impl Default for Knobs {
    /// A free sound at a hundredth of the sample rate, the other knobs in the middle.
    fn default() -> Self {
        Knobs {
            sustain: false,
            trigger: false,
            accent: 0.5,
            f0: 0.01,
            structure: 0.5,
            brightness: 0.5,
            damping: 0.5,
        }
    }
}

impl Knobs {
    /// The value of a knob.
    pub fn value(&self, knob: Knob) -> f32 {
        match knob {
            Knob::F0 => self.f0,
            Knob::Accent => self.accent,
            Knob::Structure => self.structure,
            Knob::Brightness => self.brightness,
            Knob::Damping => self.damping,
        }
    }
}

/// How many words a call drew from the generator, by what.
#[derive(Debug, Clone, Copy, Default, PartialEq, Eq)]
#[repr(C)]
pub struct Counts {
    /// Words of the noise burst of a struck string.
    pub burst: usize,
    /// Words of the dust of a sustained sound.
    pub dust: usize,
    /// Words of the string's dispersion.
    pub dispersion: usize,
}

/// The buffers temp, temp_2, out and aux of a render, all of one length. The sound is added to out and aux.
pub type Buffers<'a> = [&'a mut [f32]; 4];

/// Eight slots, the one generator of all, and the line memory of the strings.
#[derive(Debug, Clone)]
pub struct Bank {
    pub(crate) bytes: Vec<u8>,
    pub(crate) lines: Vec<f32>,
    pub(crate) word: u32,
}

impl Bank {
    /// A bank whose every slot is empty, with the generator at the seed.
    pub fn new(seed: u32) -> Self {
        let mut bytes = vec![0; raw::bank_bytes()];
        let number = raw::fresh(&mut bytes);
        assert_eq!(number, 0, "the bytes are as many as a bank has");
        Bank { bytes, lines: vec![0.0; raw::LINES], word: seed }
    }

    /// The generator's word.
    pub fn word(&self) -> u32 {
        self.word
    }

    /// Sets the generator's word, from which the next words are drawn.
    pub fn reseed(&mut self, word: u32) {
        self.word = word;
    }

    /// The bank as it crosses to the proved library.
    pub fn bytes(&self) -> &[u8] {
        &self.bytes
    }

    /// Line memory: 1,280 numbers a slot.
    pub fn lines(&self) -> &[f32] {
        &self.lines
    }

    /// Opens a slot with a new voice, whatever it held.
    ///
    /// ```
    /// # use bleidhvan::{Bank, Kind, Refusal};
    /// let mut bank = Bank::new(0);
    /// assert_eq!(bank.open(8, Kind::Modal, 48000.0), Err(Refusal::NoSlot { slot: 8 }));
    /// ```
    pub fn open(&mut self, slot: usize, kind: Kind, sample_rate: f32) -> Result<(), Refusal> {
        let kind = kind as u32;
        let number = raw::open(&mut self.bytes, &mut self.lines, slot, kind, sample_rate);
        refused(number, || Asked { slot, kind, rate: sample_rate, ..Asked::default() })
    }

    /// Resets a string: its lines and its phase. What is left of a burst stays.
    pub fn reset(&mut self, slot: usize) -> Result<(), Refusal> {
        let number = raw::reset(&mut self.bytes, &mut self.lines, slot);
        refused(number, || Asked { slot, ..Asked::default() })
    }

    /// Renders a block of a slot's voice: temp and temp_2 are written over, the sound is added to out and aux.
    ///
    /// ```
    /// # use bleidhvan::{Bank, Kind, Knob, Knobs, Refusal};
    /// let mut bank = Bank::new(0);
    /// bank.open(0, Kind::Modal, 48000.0)?;
    /// let [mut temp, mut temp_2, mut out, mut aux] = [[0.0; 24]; 4];
    /// let sharp = Knobs { f0: 0.7, ..Knobs::default() };
    /// let refusal = bank.render(0, &sharp, [&mut temp, &mut temp_2, &mut out, &mut aux]).unwrap_err();
    /// assert_eq!(refusal, Refusal::OutOfRange { knob: Knob::F0, value: 0.7 });
    /// assert_eq!(refusal.to_string(), "f0 is 0.7, and must be 2^-20 to 0.5 of the sample rate");
    /// # Ok::<(), Refusal>(())
    /// ```
    ///
    /// The four buffers have one length. Of those that differ from temp the first is named, before a block that is too long and before
    /// any knob.
    ///
    /// ```
    /// # use bleidhvan::{Bank, Buffer, Kind, Knobs, Refusal};
    /// # let mut bank = Bank::new(0);
    /// # bank.open(0, Kind::Modal, 48000.0)?;
    /// let [mut temp, mut temp_2, mut aux] = [[0.0; 64]; 3];
    /// let mut out = [0.0; 63];
    /// let lent = [&mut temp[..], &mut temp_2, &mut out, &mut aux];
    /// let refusal = bank.render(0, &Knobs::default(), lent).unwrap_err();
    /// assert_eq!(refusal, Refusal::Length { buffer: Buffer::Out, frames: 63, temp: 64 });
    /// # Ok::<(), Refusal>(())
    /// ```
    pub fn render(
        &mut self,
        slot: usize,
        knobs: &Knobs,
        buffers: Buffers<'_>,
    ) -> Result<Counts, Refusal> {
        let lengths = buffers.each_ref().map(|buffer| buffer.len());
        let Answer { number, counts } = raw::render(
            &mut self.bytes,
            &mut self.lines,
            &mut self.word,
            slot,
            knobs,
            buffers,
            slow_subnormals(),
        );
        refused(number, || Asked { slot, lengths, knobs: *knobs, ..Asked::default() })?;
        Ok(counts)
    }
}

/// What a call asked for, to name what was at fault.
#[derive(Default)]
pub(crate) struct Asked {
    pub(crate) slot: usize,
    pub(crate) kind: u32,
    pub(crate) rate: f32,
    pub(crate) lengths: [usize; 4],
    pub(crate) knobs: Knobs,
}

/// The refusal of that number, none where it is 0.
pub(crate) fn refused(number: u32, asked: impl FnOnce() -> Asked) -> Result<(), Refusal> {
    if number == 0 { Ok(()) } else { Err(refusal(number, asked())) }
}

/// The refusal of that number.
pub(crate) fn refusal(number: u32, asked: Asked) -> Refusal {
    let Asked { slot, kind, rate, lengths, knobs } = asked;
    match number {
        2 => Refusal::NoSlot { slot },
        3 => Refusal::Kind { kind },
        4 => Refusal::SampleRate { rate },
        5 => Refusal::Empty { slot },
        6 => Refusal::NoReset { slot },
        8 => Refusal::TooLong { frames: lengths[0] },
        9..=13 => {
            let knob = Knob::ALL[number as usize - 9];
            Refusal::OutOfRange { knob, value: knobs.value(knob) }
        }
        _ => other_length(number, lengths).unwrap_or(Refusal::Memory),
    }
}

/// The refusal of the buffer that has that number; none where no buffer has it.
fn other_length(number: u32, [temp, others @ ..]: [usize; 4]) -> Option<Refusal> {
    let mut each = Buffer::ALL.into_iter().zip(others);
    let (buffer, frames) = each.find(|(buffer, _)| buffer.number() == number)?;
    Some(Refusal::Length { buffer, frames, temp })
}
