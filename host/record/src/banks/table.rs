//! 01's table of refusals, read for the comparison.

use super::LINES;
use super::format::{Asked, Call};
use crate::voices::format::{MOST_FRAMES, Render};
use std::ops::RangeInclusive;

/// What the table reads of a slot.
#[derive(Debug, Clone, Copy, Default, PartialEq, Eq)]
pub struct Numbers {
    pub kind: u32,
    /// The write places.
    pub string: u32,
    pub stretch: u32,
    pub left: u32,
}

impl Numbers {
    fn bad(&self) -> bool {
        self.kind > 2 || self.string >= 1024 || self.stretch >= 256 || self.left > 1048576
    }
}

/// The number of the first check that applies, and 0 where none does.
pub fn number(slots: &[Numbers; 8], call: &Call, lines: usize, frames: [usize; 4]) -> u32 {
    let kind = slots.get(call.slot as usize).map_or(0, |slot| slot.kind);
    let every = [(1, lines != LINES || slots.iter().any(Numbers::bad)), (2, call.slot > 7)];
    let own = match call.asked {
        Asked::Open { kind, sample_rate } => {
            vec![(3, kind != 1 && kind != 2), (4, outside(sample_rate, 8000.0..=192000.0))]
        }
        Asked::Reset => vec![(5, kind == 0), (6, kind == 2)],
        Asked::Render(render) => render_checks(kind, &render, frames),
    };
    let applies = |(_, applies): &(u32, bool)| *applies;
    every.into_iter().chain(own).find(applies).map_or(0, |(number, _)| number)
}

fn render_checks(kind: u32, r: &Render, frames: [usize; 4]) -> Vec<(u32, bool)> {
    vec![
        (5, kind == 0),
        (7, frames[1] != frames[0]),
        (17, frames[2] != frames[0]),
        (18, frames[3] != frames[0]),
        (8, frames[0] > MOST_FRAMES as usize),
        (9, outside(r.f0, 2f32.powi(-20)..=0.5)),
        (10, outside(r.accent, 0.0..=1.0)),
        (11, outside(r.structure, 0.0..=1.0)),
        (12, outside(r.brightness, 0.0..=1.0)),
        (13, outside(r.damping, 0.0..=1.0)),
    ]
}

/// Whether x is NaN or outside the range.
fn outside(x: f32, range: RangeInclusive<f32>) -> bool {
    !range.contains(&x)
}
