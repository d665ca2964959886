//! Whole notes of the modal voice through the exported call: struck and left to die away, one mode after the other, or sustained.

use std::hint::black_box;

use bleidhvan::{Bank, Kind, Knobs};
use oracle::physical_modelling::modal_voice::ModalVoice;
use oracle::utils::random;

use crate::buffers::{Buffers, same, silent};
use crate::ratio::median;

const RATE: f32 = 48000.0;

/// The slot that renders.
const SLOT: usize = 3;

/// A note, by its damping and its seconds; a sustained one is excited to its end, a struck one in its first frame alone.
#[derive(Clone, Copy)]
struct Note {
    sustain: bool,
    damping: f32,
    seconds: usize,
}

impl Note {
    /// The knobs of its first block, and of those behind it.
    fn knobs(self, first: bool) -> Knobs {
        Knobs {
            sustain: self.sustain,
            trigger: first,
            accent: 0.8,
            f0: 220.0 / RATE,
            structure: 0.4,
            brightness: 0.5,
            damping: self.damping,
        }
    }

    fn blocks(self, frames: usize) -> usize {
        (RATE as usize * self.seconds).div_ceil(frames)
    }
}

#[inline(never)]
fn rust(note: Note, buffers: &mut Buffers) {
    let [temp, temp_2, out, aux] = buffers;
    let mut voice = ModalVoice::new();
    voice.init();
    random::seed(33);
    for block in 0..note.blocks(temp.len()) {
        let Knobs { sustain, trigger, accent, f0, structure, brightness, damping } =
            note.knobs(block == 0);
        voice.render(
            sustain, trigger, accent, f0, structure, brightness, damping, temp, temp_2, out, aux,
        );
    }
}

#[inline(never)]
fn port(bank: &mut Bank, note: Note, buffers: &mut Buffers) {
    bank.reseed(33);
    bank.open(SLOT, Kind::Modal, RATE).expect("the opening is accepted");
    for block in 0..note.blocks(buffers[0].len()) {
        let buffers = buffers.each_mut().map(|buffer| &mut buffer[..]);
        bank.render(SLOT, &note.knobs(block == 0), buffers).expect("the render is accepted");
    }
}

/// The port's time over the Rust's, of five pairs and of three for notes of many seconds.
fn ratio(note: Note, frames: usize) -> f64 {
    let (mut a, mut b) = (silent(frames), silent(frames));
    let mut bank = Bank::new(33);
    rust(note, &mut a);
    port(&mut bank, note, &mut b);
    assert!(same(&a, &b), "the bits differ");
    median(
        if note.seconds > 1 { 3 } else { 5 },
        || rust(black_box(note), &mut a),
        || port(&mut bank, black_box(note), &mut b),
    )
}

pub fn all() {
    for frames in [24, 512, 4096] {
        for seconds in [1, 3, 10] {
            let struck = |damping| ratio(Note { sustain: false, damping, seconds }, frames);
            let [none, little, much] = [0.0, 0.2, 0.6].map(struck);
            println!(
                "exported modal, struck once, {seconds} s, blocks of {frames}: {none:.2} of the Rust's time at damping 0, \
                 {little:.2} at 0.2, {much:.2} at 0.6"
            );
        }
        let sustained = ratio(Note { sustain: true, damping: 0.6, seconds: 1 }, frames);
        println!(
            "exported modal, sustained, 1 s, blocks of {frames}: {sustained:.2} of the Rust's time"
        );
    }
}
