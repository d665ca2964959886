//! Lists of calls of a bank as a file; docs/RECORD.md is its description.

#[cfg(not(no_plaits))]
pub mod bank;
#[cfg(not(no_plaits))]
mod choice;
pub mod format;
pub mod ledger;
pub mod table;

#[cfg(not(no_plaits))]
pub use beside_the_rust::{Recorded, record};
#[cfg(not(no_plaits))]
pub use choice::lists;

/// The word of the header, and the file's name.
pub const NAME: &str = "banks";

/// The numbers of line memory that a bank accepts.
pub const LINES: usize = 10240;

#[cfg(not(no_plaits))]
mod beside_the_rust {
    use super::bank::Bank;
    use super::format::{Given, Lent, MEMORY, row};
    use crate::draws::buffer;
    use crate::rows::Row;
    use crate::voices::player::Halt;

    /// The rows of all lists, and how many lists ended before a delay of 2^64 or more.
    #[derive(Default)]
    pub struct Recorded {
        pub rows: Vec<Row>,
        pub long_delays: usize,
    }

    impl Recorded {
        /// The numbers of lists, accepted renders and frames, and of calls by the number that they were given.
        pub fn summary(&self) -> String {
            let lists = self.rows.iter().filter(|row| row[0] == 3).count();
            let frames: Vec<u32> = self
                .rows
                .iter()
                .filter(|row| row[0] == 2 && row[17] == 0)
                .map(|row| row[2])
                .collect();
            let calls = |number| {
                let own = |row: &&Row| row[0] < 3 && row[17] == number;
                self.rows.iter().filter(own).count()
            };
            format!(
                "{lists} lists, {} of them up to a delay of 2^64; {} accepted renders, {} frames; calls by number {:?}",
                self.long_delays,
                frames.len(),
                frames.iter().sum::<u32>(),
                (0..19).map(calls).collect::<Vec<_>>(),
            )
        }
    }

    /// Plays the lists, or says in which call the Rust halted otherwise than by departure 1.
    pub fn record(lists: &[Vec<Given>]) -> Result<Recorded, String> {
        let mut recorded = Recorded::default();
        for (number, list) in lists.iter().enumerate() {
            let mut bank = Bank::fresh(0, Vec::new());
            for (call, given) in list.iter().enumerate() {
                match left(&mut bank, given) {
                    Ok(row) => recorded.rows.push(row),
                    Err(Halt::LongDelay) => {
                        recorded.long_delays += 1;
                        break;
                    }
                    Err(Halt::Other(message)) => {
                        return Err(format!("list {number}, call {call}: {message}"));
                    }
                }
            }
        }
        Ok(recorded)
    }

    /// The row of what is given, with what it leaves.
    fn left(bank: &mut Bank, given: &Given) -> Result<Row, Halt> {
        let mut answer = [0; 4];
        let mut buffers = Default::default();
        match given {
            Given::Begin { seed, fill } => *bank = Bank::fresh(*seed, buffer(MEMORY, *fill)),
            Given::Put { slot, number, value } => bank.put(*slot, *number, *value),
            Given::Call { call, lent: Lent { frames, fill, lines } } => {
                let filled = |k| buffer(frames[k as usize] as usize, fill.wrapping_add(k));
                buffers = [0, 1, 2, 3].map(filled);
                answer = bank.call(call, *lines as usize, &mut buffers)?;
            }
        }
        Ok(row(given, answer, bank.word, &buffers, &bank.memory, bank.records()))
    }
}
