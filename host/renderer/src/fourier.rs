//! The spectra of stretches of sound, some side by side.

use std::f32::consts::TAU;

/// The samples of a stretch, and the bands of its spectrum.
pub const STRETCH: usize = 2048;
pub const BANDS: usize = STRETCH / 2;

/// The stretches side by side, so that the processor reckons them at once.
pub const SIDES: usize = 8;

/// A number of each stretch.
pub type Each = [f32; SIDES];

#[inline(always)]
fn each(number: impl Fn(usize) -> f32) -> Each {
    let mut numbers = [0.0; SIDES];
    for (side, place) in numbers.iter_mut().enumerate() {
        *place = number(side);
    }
    numbers
}

/// What every spectrum is made with: the window, and the roots of one.
pub struct Fourier {
    window: Vec<f32>,
    roots: Vec<[f32; 2]>,
}

/// Complex numbers of each stretch.
struct Complex {
    re: Vec<Each>,
    im: Vec<Each>,
}

impl Fourier {
    pub fn new() -> Self {
        let turn = |k: usize| k as f32 * (TAU / STRETCH as f32);
        Fourier {
            window: (0..STRETCH).map(|k| 0.5 - 0.5 * turn(k).cos()).collect(),
            roots: (0..BANDS).map(|k| [turn(k).cos(), -turn(k).sin()]).collect(),
        }
    }

    /// The power of each band of stretches that follow each other, 1 for a sine of full scale.
    pub fn powers(&self, samples: &[f32]) -> Vec<Each> {
        let heard = |k: usize| {
            each(|side| {
                let sample = samples[side * STRETCH + k] * self.window[k];
                if sample.is_finite() { sample } else { 0.0 }
            })
        };
        let bits = BANDS.trailing_zeros();
        // Even samples are the real parts and odd ones the imaginary parts.
        let pair = |k: usize| 2 * (k.reverse_bits() >> (usize::BITS - bits));
        let (re, im) = (0..BANDS).map(|k| (heard(pair(k)), heard(pair(k) + 1))).unzip();
        let mut spectrum = Complex { re, im };
        self.transform(&mut spectrum);
        (0..BANDS).map(|band| self.power(&spectrum, band)).collect()
    }

    /// The transform in place, of values in the order of their bits turned around.
    fn transform(&self, values: &mut Complex) {
        let mut half = 1;
        while half < BANDS {
            let parts = values.re.chunks_exact_mut(2 * half);
            for (re, im) in parts.zip(values.im.chunks_exact_mut(2 * half)) {
                let roots = self.roots.iter().step_by(BANDS / half);
                step(re.split_at_mut(half), im.split_at_mut(half), roots);
            }
            half *= 2;
        }
    }

    /// The power of a band, from the transform of the pairs.
    fn power(&self, Complex { re, im }: &Complex, band: usize) -> Each {
        let there = (BANDS - band) % BANDS;
        let [cos, sin] = self.roots[band];
        let scale = (2.0 / STRETCH as f32).powi(2);
        each(|side| {
            let [a, b, c, d] = [re[band][side], im[band][side], re[there][side], im[there][side]];
            let [x, y] = [b + d, c - a];
            let [x, y] = [a + c + x * cos - y * sin, b - d + x * sin + y * cos];
            (x * x + y * y) * scale
        })
    }
}

/// A step of the transform: each high value is turned, a low one becomes its sum with it, and a high one the difference.
fn step<'a>(
    (re, re_high): (&mut [Each], &mut [Each]),
    (im, im_high): (&mut [Each], &mut [Each]),
    roots: impl Iterator<Item = &'a [f32; 2]>,
) {
    let highs = re_high.iter_mut().zip(im_high);
    for (((re, im), (re_high, im_high)), [cos, sin]) in re.iter_mut().zip(im).zip(highs).zip(roots)
    {
        let a = each(|side| re_high[side] * cos - im_high[side] * sin);
        let b = each(|side| re_high[side] * sin + im_high[side] * cos);
        *re_high = each(|side| re[side] - a[side]);
        *im_high = each(|side| im[side] - b[side]);
        *re = each(|side| re[side] + a[side]);
        *im = each(|side| im[side] + b[side]);
    }
}

#[cfg(test)]
mod tests {
    use super::{BANDS, Fourier, SIDES, STRETCH};
    use std::f32::consts::TAU;

    #[test]
    fn a_sine_is_its_band() {
        let sines = [3, 100, 511, 800, 1020, 4, 64, 1000];
        let sample = |band: usize, k: usize| {
            0.5 * (TAU * ((k * band) % STRETCH) as f32 / STRETCH as f32).sin()
        };
        let samples: Vec<f32> =
            sines.iter().flat_map(|band| (0..STRETCH).map(|k| sample(*band, k))).collect();
        let powers = Fourier::new().powers(&samples);
        assert_eq!(powers.len(), BANDS);
        for (k, power) in powers.iter().enumerate() {
            for side in 0..SIDES {
                let expected = match k.abs_diff(sines[side]) {
                    0 => 0.25,
                    1 => 0.0625,
                    _ => 0.0,
                };
                assert!((power[side] - expected).abs() < 1e-4, "{side}: {k}: {power:?}");
            }
        }
    }
}
