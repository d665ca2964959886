//! Whether subnormal numbers are slow on this processor.

use crate::raw::in_default_environment;
use std::hint::black_box;
use std::sync::OnceLock;
use std::time::{Duration, Instant};

/// The multiplications of a timed chain.
const STEPS: u32 = 256;

/// How often each chain is timed; its shortest time counts.
const TRIES: u32 = 5;

/// Subnormal products are slow where their chain takes more than so many times as long.
const SLOW: u32 = 8;

/// The summands of a chain that stays among normal numbers, and of one that stays among subnormal ones.
const SUMMANDS: [f32; 2] = [0.3, 3e-40];

/// Whether a multiplication of subnormal numbers takes this processor long.
///
/// It is timed once per process, at the first call, in some tens of microseconds, in the environment in which a render runs.
/// [`Bank::render`] and [`Bank::play`] hand the answer on to the library: it changes no bit of any result, only the time.
///
/// [`Bank::render`]: crate::Bank::render
/// [`Bank::play`]: crate::Bank::play
pub fn slow_subnormals() -> bool {
    static FOUND: OnceLock<bool> = OnceLock::new();
    *FOUND.get_or_init(found)
}

#[inline(never)]
fn found() -> bool {
    let [normal, subnormal] = in_default_environment(times);
    subnormal > SLOW * normal
}

/// The shortest times of the chains of both summands, which are timed in turn.
fn times() -> [Duration; 2] {
    (0..TRIES).fold([Duration::MAX; 2], |[normal, subnormal], _| {
        let [a, b] = SUMMANDS.map(time);
        [normal.min(a), subnormal.min(b)]
    })
}

/// The time of one chain.
fn time(summand: f32) -> Duration {
    let start = Instant::now();
    black_box(chain(black_box(summand), black_box(0.7)));
    start.elapsed()
}

/// Multiplications and additions, each on what the one before gave.
#[inline(never)]
fn chain(summand: f32, factor: f32) -> f32 {
    let mut x = summand;
    let mut step = 0;
    while step < STEPS {
        x = x * factor + summand;
        step += 1;
    }
    x
}

#[cfg(test)]
mod tests {
    use super::*;

    #[test]
    fn the_answer_is_the_same_twice() {
        assert_eq!(slow_subnormals(), slow_subnormals());
    }

    #[test]
    fn one_chain_is_normal_and_one_subnormal() {
        let [normal, subnormal] = SUMMANDS.map(|summand| [summand, chain(summand, 0.7)]);
        assert!(normal.iter().all(|x| x.is_normal()), "{normal:?}");
        assert!(subnormal.iter().all(|x| x.is_subnormal()), "{subnormal:?}");
    }
}
