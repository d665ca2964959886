//! Struck strings over a keyboard, each ringing for a second, and strings that draw a word in every frame, through the exported calls.

use std::hint::black_box;

use bleidhvan::{Bank, Kind, Knobs};
use oracle::physical_modelling::string_voice::StringVoice;
use oracle::utils::random;

use crate::buffers::{Buffers, same, silent};
use crate::ratio::{compare, median};

const RATE: f32 = 48000.0;

/// The slot that renders.
const SLOT: usize = 3;

const BRIGHTNESSES: [f32; 4] = [0.2, 0.5, 0.8, 1.0];

const STRUCTURES: [f32; 2] = [0.1, 0.6];

/// A note of the keyboard.
#[derive(Clone, Copy)]
struct Note {
    key: u8,
    brightness: f32,
    structure: f32,
}

impl Note {
    fn knobs(self) -> Knobs {
        let f0 = 440.0 * ((f32::from(self.key) - 69.0) / 12.0).exp2() / RATE;
        let Note { brightness, structure, .. } = self;
        Knobs {
            sustain: false,
            trigger: true,
            accent: 0.8,
            f0,
            structure,
            brightness,
            damping: 0.6,
        }
    }
}

/// Every third key from A1 to C8, at each brightness and each structure.
fn notes() -> Vec<Note> {
    let mut notes = Vec::new();
    for key in (33..=108).step_by(3) {
        for brightness in BRIGHTNESSES {
            notes.extend(STRUCTURES.map(|structure| Note { key, brightness, structure }));
        }
    }
    notes
}

/// The blocks of so many frames that a second takes.
fn blocks_of(frames: usize) -> usize {
    (RATE as usize).div_ceil(frames)
}

/// Blocks of one note in the Rust, struck in the first one alone.
#[inline(never)]
fn rust(knobs: &Knobs, blocks: usize, buffers: &mut Buffers) {
    let Knobs { sustain, trigger, accent, f0, structure, brightness, damping } = *knobs;
    let [temp, temp_2, out, aux] = buffers;
    let mut voice = StringVoice::new();
    voice.init(RATE);
    random::seed(33);
    for block in 0..blocks {
        let trigger = trigger && block == 0;
        voice.render(
            sustain, trigger, accent, f0, structure, brightness, damping, temp, temp_2, out, aux,
        );
    }
}

#[inline(never)]
fn port(bank: &mut Bank, knobs: &Knobs, blocks: usize, buffers: &mut Buffers) {
    bank.reseed(33);
    bank.open(SLOT, Kind::String, RATE).expect("the opening is accepted");
    for block in 0..blocks {
        let knobs = Knobs { trigger: knobs.trigger && block == 0, ..*knobs };
        let buffers = buffers.each_mut().map(|buffer| &mut buffer[..]);
        bank.render(SLOT, &knobs, buffers).expect("the render is accepted");
    }
}

/// The port's time over the Rust's for each note, in blocks of so many frames, with the same bits.
fn ratios(frames: usize) -> Vec<(f64, Note)> {
    let (mut a, mut b) = (silent(frames), silent(frames));
    let (mut bank, blocks) = (Bank::new(33), blocks_of(frames));
    let ratio = |note: Note| {
        let knobs = note.knobs();
        for buffers in [&mut a, &mut b] {
            buffers.iter_mut().for_each(|buffer| buffer.fill(0.0));
        }
        rust(&knobs, blocks, &mut a);
        port(&mut bank, &knobs, blocks, &mut b);
        assert!(same(&a, &b), "the bits differ");
        let ratio = median(
            7,
            || rust(black_box(&knobs), blocks, &mut a),
            || port(&mut bank, black_box(&knobs), blocks, &mut b),
        );
        (ratio, note)
    };
    notes().into_iter().map(ratio).collect()
}

/// Prints the median note, how many notes are above 0.95, and the worst.
fn keyboard(frames: usize) {
    let mut ratios = ratios(frames);
    ratios.sort_by(|(a, _), (b, _)| a.total_cmp(b));
    let above = ratios.iter().filter(|(ratio, _)| *ratio > 0.95).count();
    let (middle, _) = ratios[ratios.len() / 2];
    let (worst, Note { key, brightness, structure }) = ratios[ratios.len() - 1];
    println!(
        "keyboard, blocks of {frames}: the median of {} notes {middle:.2} of the Rust's time, {above} above 0.95, \
         the worst {worst:.2} (key {key}, brightness {brightness}, structure {structure})",
        ratios.len()
    );
}

/// A string that draws a word in every frame: for as long as it is sustained, or through a burst of 32,768 frames.
fn drawing(name: &str, knobs: Knobs, frames: usize) {
    let (mut a, mut b) = (silent(frames), silent(frames));
    let (mut bank, blocks) = (Bank::new(33), 32768 / frames);
    rust(&knobs, blocks, &mut a);
    port(&mut bank, &knobs, blocks, &mut b);
    assert!(same(&a, &b), "the bits differ");
    compare(
        &format!("exported string, {name}, blocks of {frames}"),
        || rust(black_box(&knobs), blocks, &mut a),
        || port(&mut bank, black_box(&knobs), blocks, &mut b),
    );
}

pub fn all() {
    [24, 64, 512, 4096].into_iter().for_each(keyboard);
    let sustained = |structure| Knobs {
        sustain: true,
        trigger: false,
        accent: 0.8,
        f0: 0.0073,
        structure,
        brightness: 0.5,
        damping: 0.6,
    };
    let burst = Knobs { sustain: false, trigger: true, f0: 1.0 / 32768.0, ..sustained(0.1) };
    for frames in [24, 512] {
        drawing("bridge, sustained", sustained(0.1), frames);
        drawing("dispersion, sustained at 0.8", sustained(0.8), frames);
        drawing("burst of 32,768 frames", burst, frames);
    }
}
