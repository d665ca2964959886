//! The waveform of a note as it is drawn, with its spectrogram.

use crate::spectrum::Spectrum;

/// The columns of a drawn waveform.
pub const COLUMNS: usize = 240;

/// The lowest and the highest sample of each column.
pub struct Wave {
    pub columns: Vec<[f32; 2]>,
    pub spectrum: Spectrum,
    frames: u64,
    done: u64,
}

impl Wave {
    /// The waveform of so many frames, of which none is heard yet.
    pub fn new(frames: u64) -> Self {
        let (columns, spectrum) = (vec![[0.0; 2]; COLUMNS], Spectrum::new(frames));
        Wave { columns, spectrum, frames, done: 0 }
    }

    /// Adds the next samples.
    pub fn add(&mut self, samples: &[f32]) {
        self.spectrum.add(samples);
        let columns = COLUMNS as u64;
        let mut rest = samples;
        while !rest.is_empty() {
            let column = self.done * columns / self.frames;
            // The first frame of the next column.
            let next = ((column + 1) * self.frames).div_ceil(columns);
            let n = (rest.len() as u64).min(next - self.done);
            let (samples, later) = rest.split_at(n as usize);
            let range = &mut self.columns[column as usize];
            *range = widened(*range, samples);
            self.done += n;
            rest = later;
        }
    }
}

/// The lowest and the highest of a range and of samples, a NaN left out.
fn widened([low, high]: [f32; 2], samples: &[f32]) -> [f32; 2] {
    let (lanes, rest) = samples.as_chunks::<8>();
    let (mut lows, mut highs) = ([low; 8], [high; 8]);
    for samples in lanes {
        for (k, sample) in samples.iter().enumerate() {
            lows[k] = lows[k].min(*sample);
            highs[k] = highs[k].max(*sample);
        }
    }
    let low = lows.iter().chain(rest).fold(low, |low, sample| low.min(*sample));
    let high = highs.iter().chain(rest).fold(high, |high, sample| high.max(*sample));
    [low, high]
}
