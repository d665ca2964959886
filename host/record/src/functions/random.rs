//! `random.rs` and `dust.rs`, from a seed.

use super::{Function, everywhere, float, outputs};
use crate::draws::{canonical, next};
use crate::format::{Inputs, Outputs};
use oracle::noise::dust::dust;
use oracle::utils::random;
use std::sync::{Mutex, PoisonError};

pub const RANDOM: Function =
    Function { number: 6, name: "random", domain: everywhere, answer: draw };

pub const DUST: Function =
    Function { number: 7, name: "dust", domain: everywhere, answer: dust_from };

/// The Rust has one generator for all threads.
static GENERATOR: Mutex<()> = Mutex::new(());

/// What is drawn from that seed.
pub fn seeded<T>(seed: u32, draw: impl FnOnce() -> T) -> T {
    let _alone = GENERATOR.lock().unwrap_or_else(PoisonError::into_inner);
    random::seed(seed);
    draw()
}

fn draw(inputs: &Inputs) -> Outputs {
    let seed = inputs[0];
    let word = seeded(seed, random::get_word);
    let u = seeded(seed, random::get_float);
    let noise = seeded(seed, || 2.0 * random::get_float() - 1.0);
    outputs([word, canonical(u), canonical(noise)])
}

fn dust_from(inputs: &Inputs) -> Outputs {
    let (frequency, seed) = (float(inputs[0]), inputs[1]);
    let (sample, following) = seeded(seed, || (dust(frequency), random::get_word()));
    let word = next(seed);
    assert_eq!(following, next(word), "dust draws one word");
    outputs([canonical(sample), word])
}
