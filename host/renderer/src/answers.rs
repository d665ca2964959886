//! The report of a piece: one line for every row of its score, with what became of it, and one for each of its files.

use crate::checksum::Checksum;
use crate::lines::Lines;
use crate::note::Fault;
use crate::output::Heard;
use crate::player::Words;
use crate::sheet::{Row, cell, split};

pub const HEADER: &str = "line,status,frame,burst,dust,dispersion,number,column,value,range,reason,\
    time,slot,kind,note,play,accent,structure,brightness,damping,\
    file,frames,peak_dbfs,loudness_lufs,warning,made,sha256";

/// The columns, and the first of those that files have.
const COLUMNS: usize = 27;
const FILE: usize = 20;

/// The most bytes of a line that says what became of a row which is not refused, beside its cells, and of a file's line beside its
/// name and what made it.
pub const MORE: usize = 1200;

/// What became of a row.
pub enum Outcome {
    Played {
        frame: u64,
        words: Words,
    },
    Refused(Fault),
    /// The machine could not do it.
    Failed(String),
    /// The run was stopped.
    NotPlayed,
}

/// Whether a file that begins so is a report.
pub fn is_ours(beginning: &[u8]) -> bool {
    beginning.starts_with(b"line,status,frame,burst,dust,dispersion,number,column,")
}

/// A row's line.
pub fn line(row: &Row, outcome: &Outcome) -> String {
    let became = match outcome {
        Outcome::Played { frame, words: [burst, dust, dispersion] } => {
            format!("played,{frame},{burst},{dust},{dispersion},,,,,")
        }
        Outcome::Refused(Fault { number, column, value, range, reason }) => {
            let number = number.map_or(String::new(), |number| number.to_string());
            let [value, range, reason] = [value, range, reason].map(|text| cell(text));
            format!("refused,,,,,{number},{column},{value},{range},{reason}")
        }
        Outcome::Failed(reason) => format!("failed,,,,,,,,,{}", cell(reason)),
        Outcome::NotPlayed => "not played,,,,,,,,,".into(),
    };
    let cells = row.cells.each_ref().map(|text| cell(text.trim())).join(",");
    format!("{},{became},{cells},,,,,,,", row.line)
}

/// A file's line.
pub fn file_line(name: &str, frames: u64, heard: &Heard, made: &str) -> String {
    let Heard { told, checksum, .. } = heard;
    let [name, warning, made] = [name, &told.warning, made].map(cell);
    let rest = ",".repeat(FILE - 1);
    let (peak, loudness) = (&told.peak, &told.loudness);
    format!(",written{rest}{name},{frames},{peak},{loudness},{warning},{made},{checksum}")
}

/// A file that an earlier report lists.
pub struct Listed {
    pub name: String,
    pub checksum: Checksum,
    cells: Vec<String>,
}

/// The files that a report lists.
pub fn listed(report: &[u8]) -> Vec<Listed> {
    let lines = Lines::new(report).filter_map(|(_, line)| {
        let (cells, fault) = split(str::from_utf8(line).ok()?, ',');
        let is_file = fault.is_none() && cells.len() == COLUMNS && cells[0].is_empty();
        let name = cells.get(FILE).filter(|_| is_file)?.clone();
        Some(Listed { name, checksum: Checksum::read(cells.last()?)?, cells })
    });
    lines.collect()
}

impl Listed {
    /// The line of a file that is left as it was.
    pub fn line(&self) -> String {
        let mut cells = self.cells.clone();
        cells[1] = "kept".into();
        cells.iter().map(|text| cell(text)).collect::<Vec<_>>().join(",")
    }
}

#[cfg(test)]
mod tests {
    use super::{COLUMNS, FILE, HEADER, MORE, Outcome, file_line, is_ours, line, listed};
    use crate::checksum::Summing;
    use crate::levels::Told;
    use crate::note::Fault;
    use crate::output::Heard;
    use crate::part::Whole;
    use crate::score;
    use crate::sheet::{Row, split};
    use crate::tests::Scratch;
    use crate::wave::Wave;

    /// The first of a row's cells.
    const FIRST_CELL: usize = FILE - 9;

    #[test]
    fn every_line_has_every_column() {
        let names: Vec<&str> = HEADER.split(',').collect();
        assert_eq!(names.len(), COLUMNS);
        assert_eq!(names[FIRST_CELL..FILE], score::COLUMNS);
        assert!(is_ours(HEADER.as_bytes()) && !is_ours(b"name,status,file"));
        let cells = ["1,5", "0", "", "A3", " trigger ", "\"", "0", "0", "0"].map(String::from);
        let row = Row { line: 7, cells, fault: None };
        let fault = Fault::cell("time", "1,5", "a number, as 1.5");
        let played = Outcome::Played { frame: 3, words: [1, 2, 3] };
        for outcome in [
            played,
            Outcome::Refused(fault),
            Outcome::Failed("full, and so".into()),
            Outcome::NotPlayed,
        ] {
            let (cells, fault) = split(&line(&row, &outcome), ',');
            assert_eq!((cells.len(), fault), (COLUMNS, None));
            assert_eq!(
                (&cells[0][..], &cells[FIRST_CELL][..], &cells[15][..]),
                ("7", "1,5", "trigger")
            );
        }
    }

    #[test]
    fn a_listed_file_is_known_again() {
        let sum = "ba7816bf8f01cfea414140de5dae2223b00361a396177a9cb410ff61f20015ad";
        let rest = ",".repeat(FILE - 1);
        let text = format!(
            "{HEADER}\n2,played{}\n,written{rest}\"a, b.wav\",96,-1.00,,,made,{sum}\n,written{rest}c.wav,96,,,,made,no sum\n\n",
            ",".repeat(COLUMNS - 2)
        );
        let files = listed(text.as_bytes());
        assert_eq!(files.len(), 1);
        assert_eq!((&files[0].name[..], files[0].checksum.to_string()), ("a, b.wav", sum.into()));
        assert_eq!(files[0].line(), format!(",kept{rest}\"a, b.wav\",96,-1.00,,,made,{sum}"));
    }

    #[test]
    fn no_line_takes_more_than_its_room() {
        let cells = ["\"", "1", ",", "A3", "", "0", "0", "0", "0"].map(String::from);
        let row = Row { line: usize::MAX, cells, fault: None };
        let room = line(&row, &Outcome::NotPlayed).len() + MORE;
        let most = u64::MAX;
        let name = "\"".repeat(255);
        let failed = format!("{name} cannot be written: {}", "\u{fffd}".repeat(81));
        for outcome in [Outcome::Played { frame: most, words: [most; 3] }, Outcome::Failed(failed)]
        {
            assert!(line(&row, &outcome).len() <= room);
        }
        let scratch = Scratch::new("answers");
        let (_, whole) = Whole::create(&scratch.0.join("part")).expect("it is made");
        let heard = Heard {
            whole,
            checksum: Summing::default().end(),
            told: Told {
                peak: "-899.99".into(),
                loudness: "-70.0".into(),
                silent: "86399.999".into(),
                warning: "w".repeat(160),
            },
            wave: Wave::new(1),
        };
        let made = "\"".repeat(400);
        let line = file_line(&name, most, &heard, &made);
        assert!(line.len() <= 2 * name.len() + made.len() + 2 * MORE, "{}", line.len());
    }
}
