//! The exported bank as the rows so far left it.

use crate::buffers::Buffers;
use crate::port::Port;
use bleidhvan::raw::{Answer, SLOT_BYTES};
use bleidhvan::{Counts, Knobs, layout};

/// The kinds of rows; the last two are of a bank alone.
pub const OPENING: u32 = 0;
pub const RESET: u32 = 1;
pub const RENDER: u32 = 2;
pub const LIST_BEGINS: u32 = 3;
pub const NUMBER_PUT: u32 = 4;

pub struct Bank {
    bytes: Vec<u8>,
    pub lines: Vec<f32>,
    /// The generator's word.
    pub word: u32,
    /// What the next render is told of subnormal numbers, which changes no bit: both in turn.
    slow_subnormals: bool,
}

impl Bank {
    /// A bank whose every byte is 0, and so much line memory.
    pub fn new(lines: usize) -> Self {
        let bytes = vec![0; 8 * SLOT_BYTES];
        Bank { bytes, lines: vec![0.0; lines], word: 0, slow_subnormals: false }
    }

    pub fn fresh(&mut self, port: &mut dyn Port) -> u32 {
        port.fresh(&mut self.bytes)
    }

    /// Opens a slot; a call is lent so many numbers of line memory from the first on.
    pub fn open(
        &mut self,
        port: &mut dyn Port,
        lines: usize,
        slot: usize,
        kind: u32,
        sample_rate: u32,
    ) -> u32 {
        let lines = &mut self.lines[..lines];
        port.open(&mut self.bytes, lines, slot, kind, f32::from_bits(sample_rate))
    }

    pub fn reset(&mut self, port: &mut dyn Port, lines: usize, slot: usize) -> u32 {
        port.reset(&mut self.bytes, &mut self.lines[..lines], slot)
    }

    /// Renders a block, and gives 01's number and the counts of burst, dust and dispersion.
    pub fn render(
        &mut self,
        port: &mut dyn Port,
        lines: usize,
        slot: usize,
        knobs: &Knobs,
        buffers: &mut Buffers,
    ) -> [u32; 4] {
        self.slow_subnormals = !self.slow_subnormals;
        let Bank { bytes, lines: all, word, slow_subnormals } = self;
        let (lines, buffers) = (&mut all[..lines], buffers.lent());
        let Answer { number, counts } =
            port.render(bytes, lines, word, slot, knobs, buffers, *slow_subnormals);
        let Counts { burst, dust, dispersion } = counts;
        let [burst, dust, dispersion] =
            [burst, dust, dispersion].map(|count| u32::try_from(count).unwrap_or(u32::MAX));
        [number, burst, dust, dispersion]
    }

    /// Puts a number in the place of a slot's own: 0 is its kind, 1 and 2 its write places, 3 what is left.
    pub fn put(&mut self, slot: u32, which: u32, value: u32) {
        let place = SLOT_BYTES * slot as usize + 4 * layout::NUMBERS[which as usize];
        self.bytes[place..][..4].copy_from_slice(&value.to_le_bytes());
    }

    /// The record of a slot, as docs/RECORD.md has it.
    pub fn record(&self, slot: usize) -> Vec<u32> {
        layout::record(layout::slot_bytes(&self.bytes, slot))
    }
}

/// What a row gives a render beside its buffers.
pub fn knobs(row: &[u32]) -> Knobs {
    let [accent, f0, structure, brightness, damping] =
        std::array::from_fn(|k| f32::from_bits(row[4 + k]));
    let (sustain, trigger) = (row[1] & 1 != 0, row[1] & 2 != 0);
    Knobs { sustain, trigger, accent, f0, structure, brightness, damping }
}
