//! The time of one thing over that of another, measured in turn.

use std::time::Instant;

const PAIRS: usize = 201;

fn seconds(work: &mut impl FnMut()) -> f64 {
    let start = Instant::now();
    work();
    start.elapsed().as_secs_f64()
}

/// Prints the median of the port's time over the Rust's, with its first and last tenth.
pub fn compare(name: &str, rust: impl FnMut(), port: impl FnMut()) {
    beside(name, "the Rust's time", 2, rust, port);
}

/// The times of the second one over the first one's, of so many pairs, from the least on.
fn ratios(pairs: usize, mut one: impl FnMut(), mut other: impl FnMut()) -> Vec<f64> {
    let mut ratios: Vec<f64> = (0..pairs)
        .map(|pair| {
            if pair % 2 == 0 {
                let first = seconds(&mut one);
                seconds(&mut other) / first
            } else {
                let first = seconds(&mut other);
                first / seconds(&mut one)
            }
        })
        .collect();
    ratios.sort_by(f64::total_cmp);
    ratios
}

/// The median of the second one's time over the first one's, of so many pairs.
pub fn median(pairs: usize, one: impl FnMut(), other: impl FnMut()) -> f64 {
    ratios(pairs, one, other)[pairs / 2]
}

/// Prints the median of the second one's time over the first one's, with its first and last tenth, to so many digits.
pub fn beside(name: &str, of: &str, digits: usize, one: impl FnMut(), other: impl FnMut()) {
    let ratios = ratios(PAIRS, one, other);
    let tenth = |k: usize| ratios[(PAIRS - 1) * k / 10];
    let [low, middle, high] = [1, 5, 9].map(tenth);
    println!("{name}: {middle:.digits$} of {of} ({low:.digits$} to {high:.digits$})");
}

/// The median seconds of each of so many things, which are done in turn, 51 times.
pub fn medians(things: usize, mut work: impl FnMut(usize)) -> Vec<f64> {
    const ROUNDS: usize = 51;
    let mut times = vec![Vec::with_capacity(ROUNDS); things];
    for _ in 0..ROUNDS {
        for (thing, times) in times.iter_mut().enumerate() {
            times.push(seconds(&mut || work(thing)));
        }
    }
    let median = |mut times: Vec<f64>| {
        times.sort_by(f64::total_cmp);
        times[ROUNDS / 2]
    };
    times.into_iter().map(median).collect()
}
