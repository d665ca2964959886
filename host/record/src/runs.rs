//! The choice of the runs.
//!
//! The low bits of the generator repeat soon: over the cases of a run an input keeps its word modulo 8.
//! So a run of `BIT`, or of a sign by `BELOW_2_64`, is made for seeds of both parities, and a run of buffers for eight
//! seeds in a row, of which one gives buffers of any floats; `BELOW_4097` mixes the bits within a run.

use crate::SEED;
use crate::draws::shape::*;
use crate::draws::shapes;
use crate::format::{Record, Run};
use crate::functions::Function;
use crate::functions::cosine_oscillator::{AMPLITUDES, COSINE_OSCILLATOR};
use crate::functions::delay_line::{ALLPASS, READS, RESET};
use crate::functions::filter::{DC_BLOCKER, SVF_PROCESS, SVF_PROCESS_BUFFER, TAN};
use crate::functions::floats::{ABS, CLAMP, FRACTION, MIN, WHOLE_PART};
use crate::functions::random::{DUST, RANDOM};
use crate::functions::tables::{SEMITONES_TO_RATIO, TABLES};
use crate::functions::utils::{CROSSFADE, INTERPOLATE, ONE_POLE, PARAMETER_INTERPOLATOR};

/// Cases of a run of numbers alone.
const NUMBERS: u32 = 5000;

/// Cases of a run with short loops.
const LOOPS: u32 = 1000;

/// Cases of a run over buffers or lines.
const BUFFERS: u32 = 200;

pub fn records() -> Vec<Record> {
    let mut runs = Runs(Vec::new());
    runs.floats();
    runs.random();
    runs.utils();
    runs.filters();
    runs.delay_lines();
    runs.oscillators_and_tables();
    runs.0
}

struct Runs(Vec<Record>);

impl Runs {
    /// Runs of these shapes for so many seeds in a row.
    fn add(&mut self, function: &Function, of_inputs: &[u32], seeds: u32, count: u32) {
        for seed in SEED..SEED + seeds {
            let run = Run { seed, count, shapes: shapes(of_inputs) };
            let Some(record) = function.digest(run) else {
                panic!("{} is not asked in all of {run:?}", function.name)
            };
            self.0.push(record);
        }
    }

    fn floats(&mut self) {
        for function in [WHOLE_PART, FRACTION] {
            for (shape, seeds) in [(BELOW_2_64, 2), (DELAY, 1), (SEMITONES, 1), (RESONANCE, 1)] {
                self.add(&function, &[shape], seeds, NUMBERS);
            }
        }
        for (shape, seeds) in [(ANY, 2), (BELOW_2_64, 2), (SIGNED_UNIT, 1)] {
            self.add(&MIN, &[shape; 2], seeds, NUMBERS);
            self.add(&CLAMP, &[shape; 3], seeds, NUMBERS);
            self.add(&ABS, &[shape], seeds, NUMBERS);
        }
        self.add(&CLAMP, &[SEMITONES, RESONANCE, RESONANCE], 1, NUMBERS);
    }

    fn random(&mut self) {
        self.add(&RANDOM, &[ANY], 2, NUMBERS);
        for (frequency, seeds) in [(UNIT, 2), (ANY, 2), (HALF_UNIT, 1), (BELOW_2_64, 2)] {
            self.add(&DUST, &[frequency, ANY], seeds, NUMBERS);
        }
    }

    fn utils(&mut self) {
        for structure in [UNIT, SIGNED_UNIT, HALF_UNIT] {
            self.add(&INTERPOLATE, &[structure], 2, NUMBERS);
        }
        for function in [ONE_POLE, CROSSFADE] {
            self.add(&function, &[SIGNED_UNIT, SIGNED_UNIT, UNIT], 2, NUMBERS);
            self.add(&function, &[ANY; 3], 2, NUMBERS);
            self.add(&function, &[BELOW_2_64; 3], 2, NUMBERS);
        }
        let function = PARAMETER_INTERPOLATOR;
        self.add(&function, &[DELAY, DELAY, BELOW_4097, BELOW_64], 8, LOOPS);
        self.add(&function, &[ANY, ANY, BELOW_4097, BELOW_64], 2, LOOPS);
        let near = [BELOW_2_64, BELOW_2_64, BELOW_64, BELOW_64];
        self.add(&function, &near, 2, LOOPS);
    }

    fn filters(&mut self) {
        for (f, seeds) in [(HALF_UNIT, 2), (SIGNED_UNIT, 1), (ANY, 2), (BELOW_2_64, 2)] {
            self.add(&TAN, &[f, BELOW_4097], seeds, NUMBERS);
        }
        self.add(&TAN, &[HALF_UNIT, BIT], 2, NUMBERS);

        self.add(&DC_BLOCKER, &[UNIT, ANY, BELOW_4097], 8, BUFFERS);
        for pole in [UNIT, SIGNED_UNIT, ANY] {
            self.add(&DC_BLOCKER, &[pole, BELOW_4097, BELOW_4097], 1, BUFFERS);
        }

        // The filter of f and resonance, then buffers, lengths and flags.
        let tuned = [HALF_UNIT, RESONANCE, BELOW_4097, ANY, BELOW_4097];
        self.add(&SVF_PROCESS, &tuned, 8, BUFFERS);
        let flagged = [HALF_UNIT, RESONANCE, BELOW_4097, BELOW_4097, BELOW_4097];
        let flags = [BELOW_4097, BELOW_4097];
        self.add(&SVF_PROCESS, &[&flagged[..], &flags].concat(), 4, BUFFERS);
        let fast_or_dirty = [UNIT, UNIT, BIT, BELOW_4097, BELOW_4097];
        self.add(&SVF_PROCESS, &fast_or_dirty, 2, BUFFERS);
        let wild = [ANY, ANY, BELOW_4097, BELOW_4097, BELOW_64];
        self.add(&SVF_PROCESS, &wild, 2, BUFFERS);

        let function = SVF_PROCESS_BUFFER;
        let any_seed = [BELOW_4097, ANY];
        self.add(&function, &[&tuned[..], &any_seed].concat(), 8, BUFFERS);
        self.add(&function, &[&flagged[..], &flags].concat(), 2, BUFFERS);
        self.add(&function, &[&wild[..], &flags].concat(), 2, BUFFERS);
    }

    fn delay_lines(&mut self) {
        self.add(&READS, &[BELOW_4097, ANY, BELOW_1500, DELAY], 8, BUFFERS);
        for (delay, seeds) in [(DELAY, 1), (BELOW_2_64, 2), (RESONANCE, 1), (SIGNED_UNIT, 1)] {
            let shapes = [BELOW_4097, BELOW_4097, BELOW_4097, delay];
            self.add(&READS, &shapes, seeds, BUFFERS);
        }

        let tuned = [BELOW_1500, SIGNED_UNIT, SIGNED_UNIT, BELOW_64];
        let line = [BELOW_4097, ANY, BELOW_1500];
        self.add(&ALLPASS, &[&line[..], &tuned].concat(), 8, BUFFERS);
        let line = [BELOW_4097, BELOW_4097, BELOW_4097];
        let far = [ANY, SIGNED_UNIT, ANY, BELOW_4097];
        self.add(&ALLPASS, &[&line[..], &far].concat(), 2, BUFFERS);
        let wild = [BELOW_64, ANY, ANY, BELOW_4097];
        self.add(&ALLPASS, &[&line[..], &wild].concat(), 1, BUFFERS);

        self.add(&RESET, &[BELOW_4097, ANY, BELOW_1500], 8, BUFFERS / 2);
        self.add(&RESET, &[BELOW_4097; 3], 1, BUFFERS / 2);
    }

    fn oscillators_and_tables(&mut self) {
        self.add(&COSINE_OSCILLATOR, &[UNIT, BELOW_64], 8, LOOPS);
        for (frequency, seeds) in [(SIGNED_UNIT, 1), (ANY, 2), (BELOW_2_64, 2)] {
            self.add(&COSINE_OSCILLATOR, &[frequency, BELOW_4097], seeds, LOOPS);
        }
        self.add(&AMPLITUDES, &[ANY], 2, LOOPS);
        for (semitones, seeds) in [(SEMITONES, 2), (RESONANCE, 1), (SIGNED_UNIT, 1)] {
            self.add(&SEMITONES_TO_RATIO, &[semitones], seeds, NUMBERS);
        }
        self.add(&TABLES, &[BIT, BELOW_64], 2, LOOPS);
    }
}
