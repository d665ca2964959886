//! The choice of the raw cases: limits, branch points with their neighbours, and a few random ones.

use crate::SEED;
use crate::draws::shape::*;
use crate::draws::{case, next, previous, shapes, unit};
use crate::format::Record;
use crate::functions::Function;
use crate::functions::cosine_oscillator::{AMPLITUDES, COSINE_OSCILLATOR};
use crate::functions::delay_line::{ALLPASS, READS, RESET};
use crate::functions::filter::{DC_BLOCKER, SVF_PROCESS, SVF_PROCESS_BUFFER, TAN};
use crate::functions::floats::{ABS, CLAMP, FRACTION, MIN, WHOLE_PART};
use crate::functions::random::{DUST, RANDOM};
use crate::functions::tables::{LENGTHS, SEMITONES_TO_RATIO, TABLES};
use crate::functions::utils::{CROSSFADE, INTERPOLATE, ONE_POLE, PARAMETER_INTERPOLATOR};

/// The limits of the format, each also with its sign turned.
const LIMITS: [u32; 9] = [
    0x0000_0000, // 0
    0x0000_0001, // the smallest denormal
    0x007f_ffff, // the largest denormal
    0x0080_0000, // the smallest normal
    0x3f80_0000, // 1
    0x7f7f_ffff, // the largest finite
    0x7f80_0000, // infinity
    0x7fc0_0000, // a NaN
    0x7f80_0001, // a signalling NaN
];

pub fn records() -> Vec<Record> {
    let mut raw = Raw { records: Vec::new(), word: SEED };
    raw.whole_parts();
    raw.min_and_abs();
    raw.clamp();
    raw.random();
    raw.dust();
    raw.interpolate();
    raw.one_pole_and_crossfade();
    raw.parameter_interpolator();
    raw.tan();
    raw.dc_blocker();
    raw.svf_process();
    raw.svf_process_buffer();
    raw.reads();
    raw.allpass();
    raw.reset();
    raw.cosine_oscillator();
    raw.semitones_to_ratio();
    raw.tables();
    raw.records
}

fn limits() -> Vec<u32> {
    LIMITS.iter().flat_map(|bits| [*bits, bits ^ 0x8000_0000]).collect()
}

/// The bits of x.
fn bits(x: f32) -> u32 {
    x.to_bits()
}

/// The bits of each number with those of the float below and of the float above.
fn around(numbers: &[f32]) -> Vec<u32> {
    numbers.iter().flat_map(|x| [x.next_down(), *x, x.next_up()].map(bits)).collect()
}

/// The bits of the delays at which a line of n samples is read.
fn delays(n: f32) -> Vec<u32> {
    let whole = [1.0, 2.0, n - 1.0, n, n + 1.0, 4.0 * n, 8388608.0];
    let between = [0.5, 1.5, 2.25, n - 1.5, n + 0.75, -0.5, -2.5, -1e30];
    let far = [4294967296.0, 18446744073709551616f32.next_down()];
    let all = around(&whole).into_iter().chain(between.map(bits)).chain(far.map(bits));
    all.collect()
}

struct Raw {
    records: Vec<Record>,
    word: u32,
}

impl Raw {
    /// Adds a case that must lie in the domain.
    fn add<const N: usize>(&mut self, function: &Function, first: [u32; N]) {
        let added = self.add_if_answered(function, first);
        assert!(added, "{} is not asked at {first:x?}", function.name);
    }

    /// Adds a case where it lies in the domain.
    fn add_if_answered<const N: usize>(&mut self, function: &Function, first: [u32; N]) -> bool {
        let mut inputs = [0; 8];
        inputs[..N].copy_from_slice(&first);
        let record = function.raw(inputs);
        self.records.extend(record);
        record.is_some()
    }

    /// Adds cases drawn in these shapes, with one word left out after each so that low bits change too.
    fn add_drawn(&mut self, function: &Function, of_inputs: &[u32], count: usize) {
        for _ in 0..count {
            let (inputs, after) = case(shapes(of_inputs), self.word);
            self.word = next(after);
            self.add(function, inputs);
        }
    }

    fn whole_parts(&mut self) {
        let powers = [0, 1, 2, 22, 23, 24, 31, 32, 62, 63].map(|e| 2f32.powi(e));
        let last = [18446744073709551616f32.next_down()].map(bits);
        let values = [0.5, 1.5, 3.75, -2.5, -0.5, 8388607.5, 1023.999].map(bits);
        for function in [WHOLE_PART, FRACTION] {
            for x in limits() {
                self.add_if_answered(&function, [x]);
            }
            for x in around(&powers).into_iter().chain(last).chain(values) {
                self.add(&function, [x]);
            }
            self.add_drawn(&function, &[BELOW_2_64], 12);
            self.add_drawn(&function, &[DELAY], 12);
        }
    }

    fn min_and_abs(&mut self) {
        let near = around(&[0.499, 84.0]);
        for x in limits().into_iter().chain(near) {
            for y in limits().into_iter().chain([bits(0.499), bits(84.0)]) {
                self.add_if_answered(&MIN, [x, y]);
            }
            self.add(&ABS, [x]);
        }
        self.add_drawn(&MIN, &[SIGNED_UNIT; 2], 8);
        self.add_drawn(&MIN, &[ANY; 2], 8);
        self.add_drawn(&ABS, &[ANY], 8);
    }

    fn clamp(&mut self) {
        let ends = [(0.0, 1.0), (4.0, 1020.0), (0.0, 255.0), (1.0, 2.1), (-20.0, 20.0)];
        for (lo, hi) in ends {
            for x in limits().into_iter().chain(around(&[lo, hi])) {
                self.add(&CLAMP, [x, bits(lo), bits(hi), 1]);
            }
        }
        let zeros = [0.0, -0.0].map(bits);
        for lo in zeros {
            for hi in zeros {
                for x in [0.0, -0.0, 1.0, -1.0].map(bits) {
                    self.add(&CLAMP, [x, lo, hi, 1]);
                }
            }
        }
        for a in [0.0, 2.5, f32::INFINITY, f32::NAN].map(bits) {
            for x in limits() {
                self.add(&CLAMP, [x, a, bits(-0.75), 0]);
                self.add(&CLAMP, [x, bits(0.75), a, 0]);
            }
        }
        self.add_drawn(&CLAMP, &[ANY; 3], 12);
        self.add_drawn(&CLAMP, &[SIGNED_UNIT; 3], 12);
    }

    fn random(&mut self) {
        let named = [0, 1, 0x0100_0001, 0x0100_0003, 0xffff_ff7f, 0xffff_ff80, 0xffff_ffff];
        let powers = (1..32).flat_map(|e| [-1, 0, 1].map(|d| (1u32 << e).wrapping_add_signed(d)));
        // Half a unit in the last place, and one and a half, above each power that is rounded.
        let ties = (24..32).flat_map(|e| {
            let half = 1u32 << (e - 24);
            [half - 1, half, half + 1, 3 * half - 1, 3 * half, 3 * half + 1]
                .map(|above| (1u32 << e) + above)
        });
        for word in named.into_iter().chain(powers).chain(ties) {
            self.add(&RANDOM, [previous(word)]);
        }
        for seed in [33, 0, 1, 0xffff_ffff] {
            self.add(&RANDOM, [seed]);
        }
        self.add_drawn(&RANDOM, &[ANY], 8);
    }

    fn dust(&mut self) {
        for word in [0, 1, 0x8000_0000, 0xffff_ff7f, 0xffff_ff80, 0xffff_ffff, next(33)] {
            let own = around(&[unit(word)]);
            let used = [0.00005, 0.5, 2.0].map(bits);
            for frequency in limits().into_iter().chain(own).chain(used) {
                self.add(&DUST, [frequency, previous(word)]);
            }
        }
        self.add_drawn(&DUST, &[UNIT, ANY], 12);
    }

    fn interpolate(&mut self) {
        let entries: Vec<f32> = (0..64).map(|k| k as f32 / 64.0).collect();
        for structure in around(&entries) {
            self.add(&INTERPOLATE, [structure]);
        }
        let near = [0.24, 0.26, 0.3, 0.999, 1f32.next_down(), -0.1].map(bits);
        for structure in limits().into_iter().chain(near) {
            self.add_if_answered(&INTERPOLATE, [structure]);
        }
        self.add_drawn(&INTERPOLATE, &[UNIT], 12);
    }

    fn one_pole_and_crossfade(&mut self) {
        let values = [0.0, -0.0, 1.0, -1.5, f32::MAX, f32::INFINITY, f32::NAN].map(bits);
        let factors = [0.0, 1.0, -0.5, 0.06, 1e-45, f32::INFINITY, f32::NAN].map(bits);
        for function in [ONE_POLE, CROSSFADE] {
            for a in values {
                for b in values {
                    for factor in factors {
                        self.add(&function, [a, b, factor]);
                    }
                }
            }
            self.add_drawn(&function, &[SIGNED_UNIT, SIGNED_UNIT, UNIT], 12);
            self.add_drawn(&function, &[ANY; 3], 12);
        }
    }

    fn parameter_interpolator(&mut self) {
        let values = [0.0, -0.0, 100.0, 1e-45, f32::MAX, f32::NEG_INFINITY, f32::NAN].map(bits);
        for state in values {
            for new_value in values {
                for (size, k) in [(0, 0), (0, 1), (1, 1), (24, 24)] {
                    self.add(&PARAMETER_INTERPOLATOR, [state, new_value, size, k]);
                }
            }
        }
        for (state, new_value) in [(100.0, 4.0), (100.0, 1020.0), (4.1, 1019.9)] {
            for (size, k) in [(0, 3), (1, 0), (1, 2), (3, 3), (12, 12), (4095, 64), (4096, 63)] {
                let inputs = [bits(state), bits(new_value), size, k];
                self.add(&PARAMETER_INTERPOLATOR, inputs);
            }
        }
        let shapes = [DELAY, DELAY, BELOW_4097, BELOW_64];
        self.add_drawn(&PARAMETER_INTERPOLATOR, &shapes, 12);
    }

    fn tan(&mut self) {
        let ends = [0.499, 0.4999, 0.5, 0.497, 0.01, 0.25, 2f32.powi(-20)];
        for approximation in [0, 1] {
            for f in limits().into_iter().chain(around(&ends)) {
                self.add(&TAN, [f, approximation]);
            }
        }
        self.add_drawn(&TAN, &[HALF_UNIT, BELOW_4097], 16);
    }

    fn dc_blocker(&mut self) {
        let poles = [0.0, 1.0, -1.0, 1.0 - 20.0 / 48000.0, 1e-45, f32::INFINITY, f32::NAN];
        for pole in poles.map(bits) {
            for (seed, n) in [(33, 0), (33, 1), (34, 24), (7, 256), (6, 2), (8, 257), (!0, 9)] {
                self.add(&DC_BLOCKER, [pole, seed, n]);
            }
        }
        self.add_drawn(&DC_BLOCKER, &[UNIT, ANY, BELOW_4097], 12);
    }

    fn svf_process(&mut self) {
        let frequencies = [0.0, 0.01, 0.25, 0.499, 0.5, -0.1, 1e-45, f32::INFINITY, f32::NAN];
        for f in frequencies.map(bits) {
            for resonance in [0.5, 100.0, 0.0, f32::INFINITY].map(bits) {
                for approximation in [0, 1] {
                    self.add(&SVF_PROCESS, [f, resonance, approximation, 33, 64]);
                }
            }
        }
        let (f, resonance) = (bits(0.1), bits(0.5));
        for (init, left_out) in [(0, 0), (0, 1), (1, 0), (1, 1), (2, 3)] {
            for (seed, n) in [(33, 0), (33, 1), (34, 256), (35, 257), (7, 2), (15, 256)] {
                self.add(&SVF_PROCESS, [f, resonance, 0, seed, n, init, left_out]);
            }
        }
        let shapes = [HALF_UNIT, RESONANCE, BELOW_4097, ANY, BELOW_4097];
        self.add_drawn(&SVF_PROCESS, &shapes, 12);
    }

    fn svf_process_buffer(&mut self) {
        let lengths =
            [(0, 0), (0, 5), (5, 0), (1, 1), (24, 24), (256, 100), (100, 256), (257, 3), (3, 258)];
        for (n_in, n_out) in lengths {
            for (seed, seed_out) in [(33, 34), (7, 33), (6, 33), (33, 7), (!0, !0)] {
                for (f, approximation) in [(bits(0.01), 1), (bits(0.499), 0)] {
                    let resonance = bits(0.5);
                    let inputs = [f, resonance, approximation, seed, n_in, n_out, seed_out];
                    self.add(&SVF_PROCESS_BUFFER, inputs);
                }
            }
        }
        let shapes = [HALF_UNIT, RESONANCE, BELOW_4097, ANY, BELOW_4097, BELOW_4097, ANY];
        self.add_drawn(&SVF_PROCESS_BUFFER, &shapes, 12);
    }

    fn reads(&mut self) {
        for (size, n) in [(0, 1024), (1, 256)] {
            for (seed, writes) in [(33, 1), (34, n + 7), (7, 300)] {
                for delay in delays(n as f32) {
                    self.add(&READS, [size, seed, writes, delay]);
                }
                for delay in limits() {
                    self.add_if_answered(&READS, [size, seed, writes, delay]);
                }
            }
            for writes in [0, 1, 2, n - 1, n, n + 1, 1499, 1500] {
                self.add(&READS, [size, 35, writes, bits(1.5)]);
            }
        }
        self.add_drawn(&READS, &[BELOW_4097, ANY, BELOW_1500, DELAY], 12);
    }

    fn allpass(&mut self) {
        for (size, n) in [(0, 1024), (1, 256)] {
            for delay in [0, 1, 4, n - 1, n, n + 1, 4 * n + 3, !0] {
                for (seed, writes, k) in [(33, 0, 0), (34, 5, 1), (35, n + 2, 63), (7, 300, 64)] {
                    for coefficient in [0.5, -0.618].map(bits) {
                        let sample = bits(1.0);
                        let inputs = [size, seed, writes, delay, coefficient, sample, k];
                        self.add(&ALLPASS, inputs);
                    }
                }
            }
            for sample in limits() {
                self.add(&ALLPASS, [size, 33, 3, 1, bits(0.5), sample, 2]);
                self.add(&ALLPASS, [size, 33, 3, 1, sample, bits(0.5), 2]);
            }
        }
        let shapes = [BELOW_4097, ANY, BELOW_1500, ANY, SIGNED_UNIT, SIGNED_UNIT, BELOW_64];
        self.add_drawn(&ALLPASS, &shapes, 12);
    }

    fn reset(&mut self) {
        for size in [0, 1] {
            for writes in [0, 1, 255, 256, 257, 1023, 1024, 1025, 1499, 1500] {
                self.add(&RESET, [size, 33, writes]);
                self.add(&RESET, [size, 7, writes]);
            }
        }
    }

    fn cosine_oscillator(&mut self) {
        let places = [0.25, 0.5, 0.75, 0.015, 1.0];
        for frequency in limits().into_iter().chain(around(&places)) {
            for k in [0, 1, 24, 63] {
                self.add(&COSINE_OSCILLATOR, [frequency, k]);
            }
        }
        self.add_drawn(&COSINE_OSCILLATOR, &[UNIT, BELOW_4097], 12);
        for i in (0..24).chain([24, 47, !0]) {
            self.add(&AMPLITUDES, [i]);
        }
    }

    fn semitones_to_ratio(&mut self) {
        let whole: Vec<f32> = (-130..128).step_by(6).map(|n| n as f32).collect();
        let named = [0.0, 12.0, -128.0, -129.0, 1.0 / 256.0, 0.5, 79.7, 84.0, -36.0, 108.0];
        for semitones in around(&whole).into_iter().chain(around(&named)) {
            self.add(&SEMITONES_TO_RATIO, [semitones]);
        }
        let last = [127.99, 127.996, 128f32.next_down().next_down()].map(bits);
        for semitones in limits().into_iter().chain(last) {
            self.add_if_answered(&SEMITONES_TO_RATIO, [semitones]);
        }
        self.add_drawn(&SEMITONES_TO_RATIO, &[SEMITONES], 12);
    }

    fn tables(&mut self) {
        for (which, length) in (0..).zip(LENGTHS) {
            for i in 0..length {
                self.add(&TABLES, [which, i]);
            }
        }
    }
}
