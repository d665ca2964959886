//! The wrapper's render, which sets aside the caller's floating-point environment, beside the exported function by itself.

use std::hint::black_box;

use bleidhvan::raw::{self, LINES};
use bleidhvan::{Knobs, slow_subnormals};

use crate::buffers::{Buffers, Setting, same, silent};
use crate::ratio::beside;
use crate::{modals, strings};

/// The slot that renders.
const SLOT: usize = 3;

/// What is lent to a call.
struct World {
    bank: Vec<u8>,
    lines: Vec<f32>,
    word: u32,
    buffers: Buffers,
}

impl World {
    fn new(frames: usize) -> Self {
        let mut bank = vec![0; raw::bank_bytes()];
        assert_eq!(raw::fresh(&mut bank), 0);
        World { bank, lines: vec![0.0; LINES], word: 33, buffers: silent(frames) }
    }

    /// Opens the slot, and renders blocks of it.
    fn blocks(&mut self, kind: u32, blocks: usize, mut render: impl FnMut(&mut World) -> u32) {
        assert_eq!(raw::open(&mut self.bank, &mut self.lines, SLOT, kind, 48000.0), 0);
        self.word = 33;
        for _ in 0..blocks {
            assert_eq!(render(self), 0);
        }
    }
}

#[inline(never)]
fn guarded(world: &mut World, knobs: &Knobs, slow: bool) -> u32 {
    let World { bank, lines, word, buffers } = world;
    let buffers = buffers.each_mut().map(|buffer| &mut buffer[..]);
    raw::render(bank, lines, word, SLOT, knobs, buffers, slow).number
}

#[inline(never)]
fn unguarded(world: &mut World, knobs: &Knobs, slow: bool) -> u32 {
    let World { bank, lines, word, buffers } = world;
    let buffers = buffers.each_mut().map(|buffer| &mut buffer[..]);
    // A process has the environment of its start here.
    unsafe { raw::unguarded::render(bank, lines, word, SLOT, knobs, buffers, slow).number }
}

fn setting(name: &str, kind: u32, setting: Setting, frames: usize) {
    let Setting(how, sustain, f0, structure) = setting;
    let knobs =
        Knobs { sustain, trigger: true, accent: 0.5, f0, structure, brightness: 0.5, damping: 0.6 };
    let (blocks, slow) = (16384 / frames, slow_subnormals());
    let [mut a, mut b] = [0; 2].map(|_| World::new(frames));
    a.blocks(kind, blocks, |world| unguarded(world, &knobs, slow));
    b.blocks(kind, blocks, |world| guarded(world, &knobs, slow));
    assert!(same(&a.buffers, &b.buffers), "the bits differ");
    beside(
        &format!("guarded {name}, {how}, blocks of {frames}"),
        "the time without the guard",
        3,
        || a.blocks(kind, blocks, |world| unguarded(world, black_box(&knobs), slow)),
        || b.blocks(kind, blocks, |world| guarded(world, black_box(&knobs), slow)),
    );
}

pub fn all() {
    for frames in [24, 512] {
        strings::SETTINGS.iter().for_each(|&one| setting("string", 1, one, frames));
        modals::SETTINGS.iter().for_each(|&one| setting("modal", 2, one, frames));
    }
}
