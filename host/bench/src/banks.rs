//! Both voices through the exported calls: a bank of eight open slots, of which one renders block after block.

use std::hint::black_box;

use bleidhvan::{Bank, Kind, Knobs};

use crate::buffers::{Buffers, Setting, same, silent};
use crate::ratio::compare;
use crate::{modals, strings};

/// The slot that renders.
const SLOT: usize = 3;

/// A bank with every slot open.
fn open_bank() -> Bank {
    let mut bank = Bank::new(33);
    for slot in 0..8 {
        let kind = if slot % 2 == 0 { Kind::String } else { Kind::Modal };
        bank.open(slot, kind, 48000.0).expect("the opening is accepted");
    }
    bank
}

#[inline(never)]
fn port(bank: &mut Bank, kind: Kind, setting: Setting, blocks: usize, buffers: &mut Buffers) {
    let Setting(_, sustain, f0, structure) = setting;
    let knobs =
        Knobs { sustain, trigger: true, accent: 0.5, f0, structure, brightness: 0.5, damping: 0.6 };
    bank.reseed(33);
    bank.open(SLOT, kind, 48000.0).expect("the opening is accepted");
    for _ in 0..blocks {
        let buffers = buffers.each_mut().map(|buffer| &mut buffer[..]);
        bank.render(SLOT, &knobs, buffers).expect("the render is accepted");
    }
}

type Voice = fn(Setting, usize, u32, &mut Buffers);

fn setting(name: &str, kind: Kind, rust: Voice, setting: Setting, frames: usize) {
    let blocks = 16384 / frames;
    let (mut a, mut b) = (silent(frames), silent(frames));
    let mut bank = open_bank();
    rust(setting, blocks, 33, &mut a);
    port(&mut bank, kind, setting, blocks, &mut b);
    assert!(same(&a, &b), "the bits differ");
    compare(
        &format!("exported {name}, {}, blocks of {frames}", setting.0),
        || rust(black_box(setting), blocks, 33, &mut a),
        || port(&mut bank, kind, black_box(setting), blocks, &mut b),
    );
}

pub fn all() {
    for frames in [24, 64, 512, 4096] {
        for one in strings::SETTINGS {
            setting("string", Kind::String, strings::rust, one, frames);
        }
        for one in modals::SETTINGS {
            setting("modal", Kind::Modal, modals::rust, one, frames);
        }
    }
}
