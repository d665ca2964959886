//! The leaves that are timed: blocks of 512 frames, the same inputs and the same bits on both sides.

use std::hint::black_box;

use oracle::utils::delay_line::DelayLine;
use oracle::utils::filter::{FilterMode, FrequencyApproximation, Svf};
use oracle::utils::random;
use oracle::utils::units::semitones_to_ratio;

use crate::leaves;
use crate::ratio;

const FRAMES: usize = 512;
const REPEATS: usize = 400;

/// Both sides some hundred times in a row.
fn compare(name: &str, mut rust: impl FnMut(), mut port: impl FnMut()) {
    ratio::compare(
        name,
        || (0..REPEATS).for_each(|_| rust()),
        || (0..REPEATS).for_each(|_| port()),
    );
}

/// Floats drawn from 0 to `range`, from `least` on.
fn drawn(least: f32, range: f32) -> Vec<f32> {
    (0..FRAMES).map(|_| least + range * random::get_float()).collect()
}

#[inline(never)]
fn rust_process_buffer(f: f32, q: f32, in_: &[f32], out: &mut [f32]) -> f32 {
    let mut svf = Svf::new();
    svf.set_f_q(f, q, FrequencyApproximation::Dirty);
    svf.process_buffer(in_, out, FilterMode::LowPass);
    svf.g()
}

#[inline(never)]
fn rust_get_floats(out: &mut [f32]) {
    out.iter_mut().for_each(|sample| *sample = random::get_float());
}

#[inline(never)]
fn rust_ratios(semitones: &[f32], out: &mut [f32]) {
    semitones.iter().zip(out).for_each(|(from, to)| *to = semitones_to_ratio(*from));
}

#[inline(never)]
fn rust_hermites(line: &DelayLine<f32, 1024>, delays: &[f32], out: &mut [f32]) {
    delays.iter().zip(out).for_each(|(from, to)| *to = line.read_hermite(*from));
}

/// A line with as many samples written, as the Rust has it and as the port has it, with its place.
fn lines(samples: usize) -> (DelayLine<f32, 1024>, Vec<f32>, usize) {
    let (mut rust, mut port, mut place) = (DelayLine::new(), vec![0.0; 1024], 0);
    for _ in 0..samples {
        let sample = random::get_float();
        rust.write(sample);
        port[place] = sample;
        place = (place + 1023) % 1024;
    }
    (rust, port, place)
}

fn same(rust: &[f32], port: &[f32]) {
    assert!(rust.iter().zip(port).all(|(a, b)| a.to_bits() == b.to_bits()), "the bits differ");
}

fn process_buffer(a: &mut [f32], b: &mut [f32]) {
    let x = drawn(-1.0, 2.0);
    rust_process_buffer(0.1, 0.7, &x, a);
    leaves::process_buffer(0.1, 0.7, &x, b);
    same(a, b);
    compare(
        "process_buffer",
        || _ = black_box(rust_process_buffer(black_box(0.1), black_box(0.7), &x, black_box(a))),
        || _ = black_box(leaves::process_buffer(black_box(0.1), black_box(0.7), &x, black_box(b))),
    );
}

fn get_float(a: &mut [f32], b: &mut [f32]) {
    random::seed(33);
    rust_get_floats(a);
    let mut word = leaves::get_floats(33, b);
    same(a, b);
    compare(
        "get_float",
        || rust_get_floats(black_box(a)),
        || word = leaves::get_floats(word, black_box(b)),
    );
}

fn semitones(a: &mut [f32], b: &mut [f32]) {
    let x = drawn(-60.0, 120.0);
    rust_ratios(&x, a);
    leaves::semitones_to_ratio(&x, b);
    same(a, b);
    compare(
        "semitones_to_ratio",
        || rust_ratios(black_box(&x), black_box(a)),
        || leaves::semitones_to_ratio(black_box(&x), black_box(b)),
    );
}

fn hermite(a: &mut [f32], b: &mut [f32]) {
    let x = drawn(1.0, 1000.0);
    let (rust, port, place) = lines(700);
    rust_hermites(&rust, &x, a);
    leaves::read_hermite(&port, place, &x, b);
    same(a, b);
    compare(
        "read_hermite",
        || rust_hermites(black_box(&rust), black_box(&x), black_box(a)),
        || leaves::read_hermite(black_box(&port), black_box(place), black_box(&x), black_box(b)),
    );
}

pub fn all() {
    let (mut a, mut b) = (vec![0.0; FRAMES], vec![0.0; FRAMES]);
    process_buffer(&mut a, &mut b);
    get_float(&mut a, &mut b);
    semitones(&mut a, &mut b);
    hermite(&mut a, &mut b);
}
