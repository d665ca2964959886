//! The spectrogram of a note: its bands over time, in steps of half a decibel.

use crate::fourier::{BANDS, Fourier, SIDES, STRETCH};
use std::sync::LazyLock;

/// The columns of a spectrogram, which are some times as many as are reckoned at once, and its rows, from the lowest band.
pub const COLUMNS: usize = 15 * SIDES;
pub const ROWS: usize = 60;

const HALF: u64 = STRETCH as u64 / 2;

/// The octaves below half the sample rate.
const OCTAVES: f32 = 9.0;

/// The level of a sine of full scale, and the levels of a decibel.
const FULL: f32 = 230.0;
const STEPS: f32 = 2.0;

static FOURIER: LazyLock<Fourier> = LazyLock::new(Fourier::new);

/// Each row's first band and the one behind its last, as places among the bands.
static EDGES: LazyLock<Vec<f32>> = LazyLock::new(|| {
    let edge = |row: usize| BANDS as f32 * 2_f32.powf(OCTAVES * (row as f32 / ROWS as f32 - 1.0));
    (0..=ROWS).map(edge).collect()
});

/// A spectrogram in the making.
pub struct Spectrum {
    /// The levels, column by column; 0 is silence.
    pub levels: Vec<u8>,
    frames: u64,
    done: u64,
    /// The last samples, as many as a stretch needs.
    recent: Vec<f32>,
    /// The columns whose stretch has been heard, and those stretches that wait for others.
    heard: usize,
    stretches: Vec<f32>,
}

impl Spectrum {
    /// The spectrogram of so many frames, of which none is heard yet.
    pub fn new(frames: u64) -> Self {
        let [recent, stretches] = [vec![], vec![]];
        Spectrum { levels: vec![], frames, done: 0, recent, heard: 0, stretches }
    }

    /// Adds the next samples.
    pub fn add(&mut self, samples: &[f32]) {
        self.recent.extend(samples);
        self.done += samples.len() as u64;
        while self.heard < COLUMNS && self.end() <= self.done {
            self.hear();
        }
        let needless = self.recent.len().saturating_sub(STRETCH);
        self.recent.drain(..needless);
        if self.done >= self.frames {
            [self.recent, self.stretches] = [vec![], vec![]];
        }
    }

    /// The middle of the next column.
    fn middle(&self) -> u64 {
        (2 * self.heard as u64 + 1) * self.frames / (2 * COLUMNS as u64)
    }

    /// The frame behind what is heard of the next column's stretch.
    fn end(&self) -> u64 {
        (self.middle() + HALF).min(self.frames)
    }

    /// Takes the stretch of the next column, with silence before the note and behind it.
    fn hear(&mut self) {
        let middle = self.middle();
        let place = |frame: u64| self.recent.len() - (self.done - frame) as usize;
        let heard = place(middle.saturating_sub(HALF))..place(self.end());
        let begun = self.stretches.len();
        self.stretches.resize(begun + HALF.saturating_sub(middle) as usize, 0.0);
        self.stretches.extend(&self.recent[heard]);
        self.stretches.resize(begun + STRETCH, 0.0);
        self.heard += 1;
        if self.stretches.len() == SIDES * STRETCH {
            self.levels.extend(columns(&self.stretches));
            self.stretches.clear();
        }
    }
}

/// The levels of stretches, each from its lowest row.
fn columns(stretches: &[f32]) -> Vec<u8> {
    let powers = FOURIER.powers(stretches);
    let mut levels = vec![0; SIDES * ROWS];
    for row in 0..ROWS {
        let [low, high] = [EDGES[row], EDGES[row + 1]];
        let bands = &powers[low as usize..(high.ceil() as usize).min(BANDS)];
        for side in 0..SIDES {
            let power = bands.iter().fold(0.0, |most: f32, power| most.max(power[side]));
            levels[side * ROWS + row] =
                (FULL + STEPS * 10.0 * power.log10()).clamp(0.0, 255.0) as u8;
        }
    }
    levels
}

/// The picture of a spectrogram, its highest row first, in so many shades from silence to its own highest level.
pub fn shaded(levels: &[u8], shades: u8) -> Vec<u8> {
    const SHADE: u8 = 11;
    let highest = levels.iter().copied().max().unwrap_or(0);
    let shade = |level: u8| match level {
        0 => 0,
        _ => (shades - 1).saturating_sub((highest - level) / SHADE),
    };
    let row = |row: usize| levels.iter().skip(row).step_by(ROWS).map(move |level| shade(*level));
    (0..ROWS).rev().flat_map(row).collect()
}

#[cfg(test)]
mod tests {
    use super::{COLUMNS, ROWS, Spectrum, shaded};
    use std::f32::consts::TAU;

    fn heard(samples: &[f32], many: usize) -> Vec<u8> {
        let mut spectrum = Spectrum::new(samples.len() as u64);
        samples.chunks(many).for_each(|samples| spectrum.add(samples));
        spectrum.levels
    }

    #[test]
    fn a_sine_is_a_line_however_it_comes() {
        // A sixteenth of half the sample rate is four octaves below the top.
        let sine: Vec<f32> = (0..30_000).map(|k| (TAU * (k % 32) as f32 / 32.0).sin()).collect();
        let levels = heard(&sine, 24);
        assert_eq!(levels.len(), COLUMNS * ROWS);
        for column in levels.chunks(ROWS).skip(5).take(110) {
            let highest = column.iter().enumerate().max_by_key(|(_, level)| **level);
            assert!(highest.is_some_and(|(row, level)| row.abs_diff(33) < 2 && *level > 228));
        }
        assert!(levels == heard(&sine, 8192) && levels == heard(&sine, 30_000));
        assert_eq!(shaded(&levels, 16).iter().max(), Some(&15));
    }

    #[test]
    fn short_and_silent_notes_have_one_too() {
        for frames in [1, 7, 480, 2049] {
            let levels = heard(&vec![0.0; frames], 24);
            assert!(levels.len() == COLUMNS * ROWS && levels.iter().all(|level| *level == 0));
            assert!(shaded(&levels, 16).iter().all(|shade| *shade == 0));
        }
        assert_eq!(heard(&[], 1).len(), 0);
    }
}
