//! `strings.bin` and `modals.bin`: every call of a voice is made again in a slot of the exported bank.

use crate::bank::{Bank, OPENING, RENDER, RESET, knobs};
use crate::buffers::{Buffers, LONGEST};
use crate::draws::{digest, digest_of_buffer, next};
use crate::fields::{self, ANY, Names, bounded, name};
use crate::file::File;
use crate::port::Port;
use crate::report::Report;
use bleidhvan::raw::LINES;

/// What a voice's file has of its own.
pub struct Voice {
    file: File,
    /// The kind with which a slot is opened.
    kind: u32,
    names: Names,
    /// The words 12 to 34, from the slot's record.
    kept: fn(&[u32]) -> Vec<u32>,
    /// The words 39 and 40.
    digests: fn(&Bank) -> [u32; 2],
}

pub const STRINGS: Voice = Voice {
    file: File::Strings,
    kind: 1,
    names: fields::STRINGS,
    kept: |record| record[1..24].to_vec(),
    digests: |bank| [0..1024, 1024..1280].map(|line| digest_of_buffer(&bank.lines[line])),
};

pub const MODALS: Voice = Voice {
    file: File::Modals,
    kind: 2,
    names: fields::MODALS,
    kept: kept_of_modal,
    digests: |bank| {
        let record = bank.record(SLOT);
        let modes = |first| {
            let batches = record[BATCHES..].chunks(8);
            batches.flat_map(move |batch| batch[first..first + 4].to_vec())
        };
        [0, 4].map(|first| digest(modes(first)))
    },
};

/// The slot in which every voice is opened.
const SLOT: usize = 0;

/// The places in a slot's record of the modal voice: its strike, the amplitudes, the excitation filter, and the batches of eight words.
const HELD: usize = 24;
const AMPLITUDES: usize = 25;
const EXCITATION: usize = 49;
const BATCHES: usize = 51;

fn kept_of_modal(record: &[u32]) -> Vec<u32> {
    let amplitudes = record[AMPLITUDES..EXCITATION].iter().copied();
    let mut words = vec![record[HELD], digest(amplitudes), 0];
    words.extend(&record[EXCITATION..BATCHES]);
    words.extend(&record[BATCHES..BATCHES + 8]);
    words.extend(&record[BATCHES + 40..BATCHES + 48]);
    words.extend([0, 0]);
    words
}

/// The most that each given word of a row of that kind may be; none where no row is of it.
fn most(kind: u32) -> Option<[u32; 11]> {
    match kind {
        OPENING => Some([OPENING, 0, 0, ANY, 0, 0, 0, 0, 0, 0, 0]),
        RESET => Some([RESET, 0, 0, 0, 0, 0, 0, 0, 0, 0, 0]),
        RENDER => Some([RENDER, 3, LONGEST, 0, ANY, ANY, ANY, ANY, ANY, ANY, ANY]),
        _ => None,
    }
}

/// What the calls so far add up to.
#[derive(Default)]
struct Sums {
    sequences: u32,
    blocks: u32,
    samples: u64,
}

impl Sums {
    fn add(&mut self, call: &[u32]) {
        self.sequences += u32::from(call[0] == OPENING);
        if call[0] == RENDER {
            self.blocks += 1;
            self.samples += u64::from(call[2]);
        }
    }
}

/// Makes every call again.
pub fn replay(voice: &Voice, calls: &[Vec<u32>], port: &mut dyn Port) -> Report {
    let mut report = Report::new(voice.file);
    let mut bank = Bank::new(LINES);
    let mut sums = Sums::default();
    for (number, call) in calls.iter().enumerate() {
        let Some(most) = most(call[0]) else {
            report.asks_nothing(number, 0, call[0], name(voice.names, 0));
            continue;
        };
        let again = voice.again(&mut bank, bounded(call, &most), port);
        sums.add(&again);
        // The bank accepts every recorded call, and its counts say how far the word moves.
        let recorded = [&call[..], &[0, call[11]]].concat();
        report.compare(number, &recorded, &again, |word| name(voice.names, word));
    }
    let Sums { sequences, blocks, samples } = sums;
    let (calls, differ) = (calls.len(), report.differ);
    report.compared.push(format!(
        "{sequences} sequences of {calls} calls, {blocks} blocks of {samples} samples, {differ} differ"
    ));
    report
}

impl Voice {
    /// The call of these given words, with all that it leaves.
    fn again(&self, bank: &mut Bank, mut call: Vec<u32>, port: &mut dyn Port) -> Vec<u32> {
        let mut buffers = Buffers::default();
        let (number, word, by_counts) = match call[0] {
            OPENING => (self.open(bank, call[3], port), 0, 0),
            RESET => (bank.reset(port, LINES, SLOT), 0, 0),
            _ => {
                buffers = Buffers::filled(call[10], [call[2]; 4]);
                bank.word = call[9];
                let answer = bank.render(port, LINES, SLOT, &knobs(&call), &mut buffers);
                let [number, counts @ ..] = answer;
                (number, bank.word, moved(call[9], counts))
            }
        };
        call.push(word);
        call.extend((self.kept)(&bank.record(SLOT)));
        call.extend(buffers.digests());
        call.extend((self.digests)(bank));
        call.extend(buffers.first_of_out());
        call.extend([0; 7]);
        call.extend([number, by_counts]);
        call
    }

    /// A sequence begins in a fresh bank.
    fn open(&self, bank: &mut Bank, sample_rate: u32, port: &mut dyn Port) -> u32 {
        match bank.fresh(port) {
            0 => bank.open(port, LINES, SLOT, self.kind, sample_rate),
            number => number,
        }
    }
}

/// The word after as many draws as the counts say; a render draws at most a word of each for a frame.
fn moved(word: u32, counts: [u32; 3]) -> u32 {
    let draws: u32 = counts.iter().map(|count| *count.min(&LONGEST)).sum();
    (0..draws).fold(word, |word, _| next(word))
}
