//! The file: a header line of 128 bytes, then records of 16 little-endian words.

use crate::draws::shape::LAST as LAST_SHAPE;

/// The words that a function is asked with; those it does not use are 0.
pub type Inputs = [u32; 8];

/// The words that a function answers; those it does not use are 0.
pub type Outputs = [u32; 7];

pub const HEADER_BYTES: usize = 128;
pub const RECORD_WORDS: usize = 16;
pub const RECORD_BYTES: usize = 4 * RECORD_WORDS;

/// Cases that are drawn from a seed, eight words a case, each brought into a shape.
#[derive(Debug, Clone, Copy, PartialEq, Eq)]
pub struct Run {
    pub seed: u32,
    pub count: u32,
    /// Nibble k, from the lowest, is the shape of input k.
    pub shapes: u32,
}

#[derive(Debug, Clone, Copy, PartialEq, Eq)]
pub enum Kind {
    Raw { inputs: Inputs, outputs: Outputs },
    Digest { run: Run, digest: u32 },
}

#[derive(Debug, Clone, Copy, PartialEq, Eq)]
pub struct Record {
    pub function: u32,
    pub kind: Kind,
}

impl Record {
    pub fn words(&self) -> [u32; RECORD_WORDS] {
        let mut words = [0; RECORD_WORDS];
        match self.kind {
            Kind::Raw { inputs, outputs } => {
                words[0] = self.function;
                words[1..9].copy_from_slice(&inputs);
                words[9..].copy_from_slice(&outputs);
            }
            Kind::Digest { run, digest } => {
                words[0] = self.function + 65536;
                words[1..5].copy_from_slice(&[run.seed, run.count, digest, run.shapes]);
            }
        }
        words
    }

    pub fn from_words(words: [u32; RECORD_WORDS]) -> Result<Self, String> {
        let function = words[0] % 65536;
        let known = |shapes: u32| (0..8).all(|k| shapes >> (4 * k) & 15 <= LAST_SHAPE);
        let kind = match words[0] / 65536 {
            0 => Kind::Raw {
                inputs: std::array::from_fn(|k| words[1 + k]),
                outputs: std::array::from_fn(|k| words[9 + k]),
            },
            1 if words[5..] == [0; 11] && known(words[4]) => Kind::Digest {
                run: Run { seed: words[1], count: words[2], shapes: words[4] },
                digest: words[3],
            },
            1 => return Err("a digest record has an unknown shape or more than its words".into()),
            kind => return Err(format!("no kind has the number {kind}")),
        };
        Ok(Record { function, kind })
    }
}

/// The header of a file of that name, whose parts are counted.
pub fn header(name: &str, parts: &str, count: usize) -> String {
    let source = "mi-plaits-dsp-rs effe9864bb";
    let line = format!("bleidhvan {name} 1; {source}; seed {}; {parts} {count}", crate::SEED);
    format!("{line:<width$}\n", width = HEADER_BYTES - 1)
}

/// Says where a recorded file is not the one that was made, if anywhere.
pub fn same(made: &[u8], recorded: &[u8]) -> Result<(), String> {
    let place = made.iter().zip(recorded).take_while(|(a, b)| a == b).count();
    let anew = "host/cargo run --release -p record makes the file anew";
    (made == recorded).then_some(()).ok_or(format!("the files part at byte {place}; {anew}"))
}

fn leaves_header(records: usize) -> String {
    header("leaves", "records", records)
}

/// The bytes of a file of these records.
pub fn to_bytes(records: &[Record]) -> Vec<u8> {
    let mut bytes = leaves_header(records.len()).into_bytes();
    let words = records.iter().flat_map(Record::words);
    bytes.extend(words.flat_map(u32::to_le_bytes));
    bytes
}

/// The records of a file, or what is wrong with it.
pub fn from_bytes(bytes: &[u8]) -> Result<Vec<Record>, String> {
    let (head, body) =
        bytes.split_at_checked(HEADER_BYTES).ok_or("the file is shorter than its header")?;
    let (records, rest) = body.as_chunks::<RECORD_BYTES>();
    if !rest.is_empty() {
        return Err("the file ends within a record".into());
    }
    if head != leaves_header(records.len()).as_bytes() {
        return Err("the header is not that of so many records".into());
    }
    let words = |record: &[u8; RECORD_BYTES]| {
        let (words, _) = record.as_chunks();
        std::array::from_fn(|k| u32::from_le_bytes(words[k]))
    };
    records.iter().map(|record| Record::from_words(words(record))).collect()
}
