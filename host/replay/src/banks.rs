//! `banks.bin`: every row of the lists is made again in the exported bank.

use crate::bank::{Bank, LIST_BEGINS, NUMBER_PUT, OPENING, RENDER, RESET, knobs};
use crate::buffers::{Buffers, LONGEST};
use crate::draws::{buffer, digest, digest_of_buffer};
use crate::fields::{ANY, BANKS, bounded, name};
use crate::file::File;
use crate::port::Port;
use crate::report::Report;

/// The words of a row that are given.
const GIVEN: usize = 17;

/// The numbers of line memory, of which a call is lent a part from the first on.
const MEMORY: u32 = 10241;

/// The numbers of the table, from 0 to 18.
const NUMBERS: usize = 19;

/// The most that each given word of a row of that kind may be; none where no row is of it.
fn most(kind: u32) -> Option<[u32; GIVEN]> {
    let mut most = [0; GIVEN];
    most[0] = kind;
    let used: &[(usize, u32)] = match kind {
        OPENING => &[(3, ANY), (11, ANY), (12, ANY), (16, MEMORY)],
        RESET => &[(11, ANY), (16, MEMORY)],
        RENDER => {
            most[4..9].fill(ANY);
            most[13..16].fill(LONGEST);
            &[(1, 3), (2, LONGEST), (10, ANY), (11, ANY), (16, MEMORY)]
        }
        LIST_BEGINS => &[(9, ANY), (10, ANY)],
        NUMBER_PUT => &[(11, 7), (12, 3), (13, ANY)],
        _ => return None,
    };
    for (word, may_be) in used {
        most[*word] = *may_be;
    }
    Some(most)
}

/// What the rows so far add up to.
#[derive(Default)]
struct Sums {
    lists: u32,
    blocks: u32,
    samples: u64,
    /// How many calls got each number of the table.
    numbers: [u32; NUMBERS],
}

impl Sums {
    fn add(&mut self, row: &[u32]) {
        let (kind, number) = (row[0], row[GIVEN]);
        self.lists += u32::from(kind == LIST_BEGINS);
        if let Some(calls) = self.numbers.get_mut(number as usize).filter(|_| kind <= RENDER) {
            *calls += 1;
        }
        if kind == RENDER && number == 0 {
            self.blocks += 1;
            self.samples += u64::from(row[2]);
        }
    }
}

/// Makes every row again.
pub fn replay(rows: &[Vec<u32>], port: &mut dyn Port) -> Report {
    let mut report = Report::new(File::Banks);
    let mut bank = Bank::new(MEMORY as usize);
    let mut sums = Sums::default();
    for (number, row) in rows.iter().enumerate() {
        let Some(most) = most(row[0]) else {
            report.asks_nothing(number, 0, row[0], name(BANKS, 0));
            continue;
        };
        let again = again(&mut bank, bounded(row, &most), port);
        sums.add(&again);
        report.compare(number, row, &again, |word| name(BANKS, word));
    }
    let Sums { lists, blocks, samples, numbers } = sums;
    let (rows, differ) = (rows.len(), report.differ);
    let numbers = numbers.map(|count| count.to_string()).join(" ");
    report.compared.push(format!("calls by number {numbers}"));
    report.compared.push(format!(
        "{lists} lists of {rows} rows, {blocks} blocks of {samples} samples, {differ} differ"
    ));
    report
}

/// The row of these given words, with all that it leaves.
fn again(bank: &mut Bank, mut row: Vec<u32>, port: &mut dyn Port) -> Vec<u32> {
    let (slot, lines) = (row[11] as usize, row[16] as usize);
    let mut buffers = Buffers::default();
    let mut answer = [0; 4];
    match row[0] {
        OPENING => answer[0] = bank.open(port, lines, slot, row[12], row[3]),
        RESET => answer[0] = bank.reset(port, lines, slot),
        RENDER => {
            buffers = Buffers::filled(row[10], [row[2], row[13], row[14], row[15]]);
            answer = bank.render(port, lines, slot, &knobs(&row), &mut buffers);
        }
        LIST_BEGINS => {
            answer[0] = bank.fresh(port);
            bank.word = row[9];
            bank.lines = buffer(MEMORY as usize, row[10]);
        }
        _ => bank.put(row[11], row[12], row[13]),
    }
    row.extend(answer);
    row.push(bank.word);
    row.extend(buffers.digests());
    row.push(digest_of_buffer(&bank.lines));
    row.extend((0..8).map(|slot| digest(bank.record(slot))));
    row.extend(buffers.first_of_out());
    row.extend([0; 13]);
    row
}
