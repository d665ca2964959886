//! What becomes of a voice's own samples: a gain, a faded end, and whole steps.

use crate::format::Format;

/// A gain and the fade of a note's end. Without both, samples stay as they are in every bit.
pub struct Shape {
    gain: f32,
    frames: u64,
    faded: u64,
    done: u64,
}

impl Shape {
    pub fn new(decibels: f64, frames: u64, faded: u64) -> Self {
        let gain = if decibels == 0.0 { 1.0 } else { 10_f64.powf(decibels / 20.0) as f32 };
        Shape { gain, frames, faded, done: 0 }
    }

    /// Adds the next samples of channels to a sound, in which they stand side by side.
    pub fn add(&mut self, channels: &[&[f32]], sound: &mut Vec<f32>) {
        let n = channels.first().map_or(0, |channel| channel.len());
        let first = sound.len();
        sound.resize(first + n * channels.len(), 0.0);
        for (place, channel) in channels.iter().enumerate() {
            let frames = sound[first..].chunks_exact_mut(channels.len());
            for (frame, sample) in frames.zip(*channel) {
                frame[place] = if self.gain == 1.0 { *sample } else { *sample * self.gain };
            }
        }
        let begin = self.frames - self.faded;
        if self.done + n as u64 > begin {
            let whole = begin.saturating_sub(self.done) as usize;
            let frames = sound[first..].chunks_exact_mut(channels.len()).enumerate();
            for (place, frame) in frames.skip(whole) {
                let left = self.frames - 1 - self.done - place as u64;
                let part = left as f32 / self.faded as f32;
                let fade = part * part * (3.0 - 2.0 * part);
                frame.iter_mut().for_each(|sample| *sample *= fade);
            }
        }
        self.done += n as u64;
    }
}

/// Triangular dither of a step either way, from a seed of the note's own.
pub struct Dither {
    word: u64,
    steps: f64,
    shift: u32,
}

impl Dither {
    /// None for floats.
    pub fn new(format: Format, seed: u32) -> Option<Self> {
        let bits = format.bits()?;
        Some(Dither { word: seed.into(), steps: format.steps().into(), shift: 32 - bits })
    }

    /// 0 to 1.
    fn part(&mut self) -> f64 {
        self.word = self.word.wrapping_mul(6364136223846793005).wrapping_add(1442695040888963407);
        (self.word >> 32) as f64 / 4294967296.0
    }

    /// A sample in the highest of 32 bits, held to -1 to 1; silence and NaN are 0, without dither.
    pub fn whole(&mut self, sample: f32) -> i32 {
        if sample == 0.0 || sample.is_nan() {
            return 0;
        }
        let dither = self.part() - self.part();
        let step = (f64::from(sample) * self.steps + dither).round();
        (step.clamp(-self.steps, self.steps) as i32) << self.shift
    }

    /// A whole sample as it is heard.
    pub fn heard(&self, whole: i32) -> f32 {
        (whole >> self.shift) as f32 / self.steps as f32
    }
}

#[cfg(test)]
mod tests {
    use super::{Dither, Shape};
    use crate::format::Format;

    #[test]
    fn without_gain_and_fade_every_bit_stays() {
        let samples = [0.5, -1e-42, f32::from_bits(0x7fc0_1234), -0.0];
        let mut sound = Vec::new();
        let mut shape = Shape::new(0.0, 4, 0);
        shape.add(&[&samples[..3], &samples[1..]], &mut sound);
        let bits: Vec<u32> = sound.iter().map(|sample| sample.to_bits()).collect();
        let expected = [0, 1, 1, 2, 2, 3].map(|k| samples[k].to_bits());
        assert_eq!(bits, expected);
    }

    #[test]
    fn a_faded_end_falls_to_nothing_and_the_rest_stays() {
        let mut sound = Vec::new();
        let mut shape = Shape::new(-20.0, 100, 10);
        for block in [[1.0; 24]; 4].iter().map(|block| &block[..]).chain([&[1.0; 4][..]]) {
            shape.add(&[block], &mut sound);
        }
        assert!(sound[..90].iter().all(|sample| *sample == 0.1));
        assert!(sound[90..].windows(2).all(|pair| pair[1] < pair[0]));
        assert!(sound[90] > 0.09 && sound[99] == 0.0);
    }

    #[test]
    fn dither_is_a_step_either_way_around_the_sample_and_silence_stays() {
        for (format, steps) in [(Format::Int16, 32767.0), (Format::Flac24, 8388607.0)] {
            let mut dither = Dither::new(format, 7).expect("whole samples");
            for silent in [0.0, -0.0, f32::NAN] {
                assert_eq!(dither.whole(silent), 0);
            }
            let errors = (0..20_000).map(|k| {
                let sample = (k as f32 / 20_000.0 - 0.5) * 0.9 + 1e-6;
                let whole = dither.whole(sample);
                (f64::from(whole >> dither.shift) - f64::from(sample) * steps, whole)
            });
            let errors: Vec<f64> = errors.map(|(error, _)| error).collect();
            let mean = errors.iter().sum::<f64>() / 20_000.0;
            let square = errors.iter().map(|error| error * error).sum::<f64>() / 20_000.0;
            assert!(errors.iter().all(|error| error.abs() <= 1.5) && mean.abs() < 0.02, "{mean}");
            // A triangle of a step either way has 1/6, and the rounding 1/12.
            assert!((square - 0.25).abs() < 0.02, "{square}");
            for (sample, heard) in [(2.0, 1.0), (-9.0, -1.0), (f32::INFINITY, 1.0)] {
                let whole = dither.whole(sample);
                assert_eq!(dither.heard(whole), heard);
            }
        }
        assert!(Dither::new(Format::Float32, 7).is_none());
    }
}
