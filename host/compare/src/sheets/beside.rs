//! Another side, which makes the renders of a sheet too: the Rust, or none.

use super::tally::Tally;
use bleidhvan::raw::Event;

/// An accepted event's render by itself, which another side makes too.
pub struct Single<'a> {
    pub event: &'a Event,
    /// The generator's word before the render and after it.
    pub words: [u32; 2],
    /// The parts of the buffers as the render left them, and those that the other side renders.
    pub left: [&'a [f32]; 4],
    pub parts: [&'a mut [f32]; 4],
}

/// The other side: it is told what is opened and reset, makes each accepted render, and compares a slot after the sheet.
pub trait Beside {
    fn open(&mut self, slot: usize, kind: u32, rate: f32);
    fn reset(&mut self, slot: usize);
    fn render(&mut self, single: Single<'_>, tally: &mut Tally) -> Result<(), String>;
    fn same_slot(&self, slot: usize, bytes: &[u8], lines: &[f32]) -> Result<(), String>;
    /// The slots of which nothing is known until they are opened again.
    fn stopped(&self) -> [bool; 8];
}

/// No other side: its buffers are those that the renders leave.
pub struct Nothing;

impl Beside for Nothing {
    fn open(&mut self, _: usize, _: u32, _: f32) {}

    fn reset(&mut self, _: usize) {}

    fn render(&mut self, single: Single<'_>, _: &mut Tally) -> Result<(), String> {
        let Single { left, parts, .. } = single;
        parts.into_iter().zip(left).for_each(|(part, left)| part.copy_from_slice(left));
        Ok(())
    }

    fn same_slot(&self, _: usize, _: &[u8], _: &[f32]) -> Result<(), String> {
        Ok(())
    }

    fn stopped(&self) -> [bool; 8] {
        [false; 8]
    }
}
