//! 01's ledger of a slot, read for the comparison: it reads the calls only.

use crate::voices::format::Render;

#[derive(Debug, Clone, Copy, Default)]
pub struct Ledger {
    pub kind: u32,
    pub left: u32,
    pub phase: f32,
}

impl Ledger {
    pub fn open(kind: u32) -> Self {
        Ledger { kind, ..Ledger::default() }
    }

    pub fn reset(&mut self) {
        self.phase = 0.0;
    }

    /// The words of burst, dust and dispersion that an accepted render of n frames adds.
    pub fn render(&mut self, r: &Render, n: u32) -> [u32; 3] {
        let dust = if r.sustain { n } else { 0 };
        if self.kind == 2 {
            return [0, dust, 0];
        }
        if r.trigger || r.sustain {
            self.left = (1.0 / r.f0) as u32;
        }
        let burst = if r.sustain { 0 } else { self.left.min(n) };
        self.left -= burst;
        let steps = self.steps(r.f0, n);
        [burst, dust, if r.structure > 0.26 { steps } else { 0 }]
    }

    /// The string's steps in n frames.
    fn steps(&mut self, f0: f32, n: u32) -> u32 {
        let mut ratio = f0 * (1.0 / f0).clamp(4.0, 1020.0);
        if ratio >= 0.9999 {
            self.phase = 1.0;
            ratio = 1.0;
        }
        let mut steps = 0;
        for _ in 0..n {
            self.phase += ratio;
            if self.phase > 1.0 {
                self.phase -= 1.0;
                steps += 1;
            }
        }
        steps
    }
}
