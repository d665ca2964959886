//! `leaves.bin`: every recorded question to a single function is asked again.

mod delay_line;
mod filter;
mod floats;
mod functions;
mod oscillator;
mod random;
mod shaping;

use crate::draws::{LAST_SHAPE, case, digest};
use crate::file::File;
use crate::port::Port;
use crate::report::Report;
use functions::{FUNCTIONS, Function};

/// The most cases that a digest stands for.
const MOST_CASES: u32 = 65536;

/// The kinds of records.
#[derive(Clone, Copy, PartialEq, Eq)]
enum Kind {
    Raw,
    Digest,
}

/// The function that a record asks, and in which way; none where its first word is no such question.
fn asked(record: &[u32]) -> Option<(usize, Kind)> {
    let place = (record[0] % 65536).checked_sub(1)? as usize;
    let kind = match record[0] / 65536 {
        0 => Kind::Raw,
        1 => Kind::Digest,
        _ => return None,
    };
    (place < FUNCTIONS.len()).then_some((place, kind))
}

/// What was compared of a function.
#[derive(Clone, Copy, Default)]
struct Count {
    raw: u64,
    digests: u64,
    cases: u64,
    differ: u64,
}

impl Count {
    fn add(&mut self, kind: Kind, record: &[u32], differs: bool) {
        match kind {
            Kind::Raw => self.raw += 1,
            Kind::Digest => {
                self.digests += 1;
                self.cases += u64::from(record[2]);
            }
        }
        self.differ += u64::from(differs);
    }
}

/// Asks every record again.
pub fn replay(records: &[Vec<u32>], port: &mut dyn Port) -> Report {
    let mut report = Report::new(File::Leaves);
    let mut counts = [Count::default(); FUNCTIONS.len()];
    for (number, record) in records.iter().enumerate() {
        let Some((place, kind)) = asked(record) else {
            report.asks_nothing(number, 0, record[0], "function number".into());
            continue;
        };
        let function = &FUNCTIONS[place];
        let again = match kind {
            Kind::Raw => raw_again(function, record, port),
            Kind::Digest => digest_again(function, record, port),
        };
        let differs = report.compare(number, record, &again, |word| name(function, kind, word));
        counts[place].add(kind, &again, differs);
    }
    report.compared.extend(FUNCTIONS.iter().zip(counts).map(|(function, count)| {
        let Count { raw, cases, differ, .. } = count;
        format!("{}: {raw} raw, {cases} by digest, {differ} differ", function.name)
    }));
    let sum = |of: fn(&Count) -> u64| counts.iter().map(of).sum::<u64>();
    let (raw, digests, cases) = (sum(|c| c.raw), sum(|c| c.digests), sum(|c| c.cases));
    let differ = report.differ;
    report
        .compared
        .push(format!("{raw} raw records, {digests} digests of {cases} cases, {differ} differ"));
    report
}

/// The raw record of the inputs, with what is answered to them.
fn raw_again(function: &Function, record: &[u32], port: &mut dyn Port) -> Vec<u32> {
    let inputs = function.bounded(std::array::from_fn(|k| record[1 + k]));
    let outputs = (function.answer)(port, &inputs);
    [&record[..1], &inputs, &outputs].concat()
}

/// The digest record of the run, with the digest of what is answered.
fn digest_again(function: &Function, record: &[u32], port: &mut dyn Port) -> Vec<u32> {
    let (seed, count) = (record[1], record[2].min(MOST_CASES));
    let shapes = known_shapes(record[4], function.inputs.len());
    let mut s = seed;
    let answers = (0..count).flat_map(|_| {
        let inputs = function.bounded(case(shapes, &mut s));
        (function.answer)(port, &inputs)
    });
    let mut again = vec![record[0], seed, count, digest(answers), shapes];
    again.resize(File::Leaves.words(), 0);
    again
}

/// The shapes of the inputs in use, each 0 where there is no such shape.
fn known_shapes(shapes: u32, used: usize) -> u32 {
    let nibble = |k: usize| shapes >> (4 * k) & 15;
    let known = (0..used).filter(|k| nibble(*k) <= LAST_SHAPE);
    known.map(|k| nibble(k) << (4 * k)).sum()
}

/// The name of a word of a record.
fn name(function: &Function, kind: Kind, word: usize) -> String {
    let of = function.name;
    match (kind, word) {
        (_, 0) => "function number".into(),
        (Kind::Raw, 1..9) => function.input(word - 1),
        (Kind::Raw, _) => function.output(word - 9),
        (Kind::Digest, 1) => format!("seed of {of}"),
        (Kind::Digest, 2) => format!("count of {of}"),
        (Kind::Digest, 3) => format!("digest of {of}"),
        (Kind::Digest, 4) => format!("shapes of {of}"),
        (Kind::Digest, _) => format!("unused word of a digest of {of}"),
    }
}
