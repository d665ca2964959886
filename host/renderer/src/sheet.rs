//! A sheet of rows: CSV in UTF-8 with a header, one line a note or an event.

use crate::lines::Lines;

/// The columns that a sheet has, in any order.
pub type Columns = [&'static str; 9];

/// The columns of a sheet of notes.
pub const COLUMNS: Columns =
    ["name", "kind", "note", "seconds", "play", "accent", "structure", "brightness", "damping"];

/// The longest line that is read.
const LONGEST: usize = 1 << 20;

/// The cells of a row, in the order of the columns, and its line; where the line cannot be read as a row, what is wrong.
#[derive(Debug, Clone, PartialEq)]
pub struct Row {
    pub line: usize,
    pub cells: [String; 9],
    pub fault: Option<String>,
}

/// The rows of a sheet behind its header.
#[derive(Clone)]
pub struct Sheet<'a> {
    lines: Lines<'a>,
    separator: char,
    /// Where each column stands.
    places: [usize; 9],
    width: usize,
    /// The lines of the whole sheet before this part of it, but for the header.
    before: usize,
}

impl<'a> Sheet<'a> {
    /// Reads the header of a sheet of notes, or says what is wrong with it.
    pub fn new(text: &'a [u8]) -> Result<Self, String> {
        Sheet::of(text, COLUMNS)
    }

    /// Reads the header of a sheet with these columns, or says what is wrong with it.
    pub fn of(text: &'a [u8], columns: Columns) -> Result<Self, String> {
        if let Some(what) = no_csv(text) {
            return Err(format!("{what}: save as CSV (UTF-8), and name that"));
        }
        let mut lines = Lines::new(text);
        let (number, line) = lines.next().ok_or_else(|| {
            format!("the sheet is empty: its first line must be {}", columns.join(","))
        })?;
        let separator = separator_of(line);
        let cells = cells(line, separator)
            .map_err(|(_, fault)| format!("line {number}, the header: {fault}"))?;
        let names: Vec<String> = cells.iter().map(|name| name.trim().to_lowercase()).collect();
        let unknown = quoted(names.iter().filter(|name| !columns.contains(&&name[..])));
        if !unknown.is_empty() {
            let columns = columns.join(", ");
            return Err(format!("unknown in the header: {unknown}; the columns are {columns}"));
        }
        let missing = quoted(columns.iter().filter(|name| !names.iter().any(|n| n == *name)));
        if !missing.is_empty() {
            return Err(format!("missing in the header: {missing}"));
        }
        if names.len() > columns.len() {
            return Err("a column stands twice in the header".into());
        }
        let place = |column: &str| names.iter().position(|name| name == column).unwrap_or(0);
        Ok(Sheet { lines, separator, places: columns.map(place), width: names.len(), before: 0 })
    }

    /// The sheet as a part of a whole one, in which its line 2 is that line.
    pub fn part_from(self, first: usize) -> Self {
        Sheet { before: first - 2, ..self }
    }
}

impl Iterator for Sheet<'_> {
    type Item = Row;

    fn next(&mut self) -> Option<Row> {
        let (line, text) = self.lines.next()?;
        let width = self.width;
        let (found, fault) = match cells(text, self.separator) {
            Ok(found) if found.len() == width => (found, None),
            Ok(found) => {
                let n = found.len();
                let cells = if n == 1 { "cell" } else { "cells" };
                (found, Some(format!("the row has {n} {cells}, where the header has {width}")))
            }
            Err((found, fault)) => (found, Some(fault)),
        };
        let cells = self.places.map(|k| found.get(k).cloned().unwrap_or_default());
        Some(Row { line: self.before + line, cells, fault })
    }
}

/// What a file is that holds no CSV.
fn no_csv(text: &[u8]) -> Option<&'static str> {
    let begins = |with: &[u8]| text.starts_with(with);
    if begins(b"PK\x03\x04") || begins(b"\xd0\xcf\x11\xe0") {
        return Some("this is a spreadsheet's own file");
    }
    if begins(b"\xff\xfe") || begins(b"\xfe\xff") || text.iter().take(1000).any(|b| *b == 0) {
        return Some("this is UTF-16, or no text at all");
    }
    let page = text.trim_ascii_start();
    page.starts_with(b"<").then_some("this is a page or XML")
}

/// The header's separator: a comma, or else a semicolon or a tab.
fn separator_of(header: &[u8]) -> char {
    let found = [b',', b';', b'\t'].into_iter().find(|separator| header.contains(separator));
    found.unwrap_or(b',').into()
}

fn quoted(names: impl Iterator<Item = impl std::fmt::Display>) -> String {
    names.map(|name| format!("'{name}'")).collect::<Vec<_>>().join(", ")
}

/// The cells of a line, or those that were made out and what is wrong.
fn cells(line: &[u8], separator: char) -> Result<Vec<String>, (Vec<String>, String)> {
    if line.len() > LONGEST {
        return Err((vec![], format!("the line is longer than {LONGEST} bytes")));
    }
    match str::from_utf8(line) {
        Ok(text) => {
            let (cells, fault) = split(text, separator);
            fault.map_or(Ok(cells.clone()), |fault| Err((cells, fault.into())))
        }
        Err(_) => {
            let (cells, _) = split(&String::from_utf8_lossy(line), separator);
            Err((cells, "the line is not UTF-8: save the sheet as CSV UTF-8".into()))
        }
    }
}

const OPEN: &str =
    "a quote does not end on its line: take it out, or write \"\" for a quote within a quoted cell";
const BEHIND: &str =
    "text follows a quoted cell: take the quotes out, or write \"\" for a quote within it";

/// The cells of a text, and what is wrong with its quotes.
pub fn split(text: &str, separator: char) -> (Vec<String>, Option<&'static str>) {
    let mut cells = Vec::new();
    let mut cell = String::new();
    let mut fault = None;
    // Whether a quoted cell is open, and whether it has ended.
    let (mut is_open, mut is_ended) = (false, false);
    let mut rest = text.chars().peekable();
    while let Some(c) = rest.next() {
        match c {
            '"' if is_open && rest.peek() == Some(&'"') => {
                rest.next();
                cell.push('"');
            }
            '"' if is_open => (is_open, is_ended) = (false, true),
            '"' if !is_ended && cell.trim().is_empty() => {
                cell.clear();
                is_open = true;
            }
            _ if is_open => cell.push(c),
            _ if c == separator => {
                cells.push(std::mem::take(&mut cell));
                is_ended = false;
            }
            _ if is_ended && !c.is_whitespace() => fault = Some(BEHIND),
            _ => cell.push(c),
        }
    }
    cells.push(cell);
    (cells, if is_open { Some(OPEN) } else { fault })
}

/// A cell as it is written in CSV.
pub fn cell(text: &str) -> String {
    match text.contains([',', '"', '\n', '\r', ';']) {
        true => format!("\"{}\"", text.replace('"', "\"\"")),
        false => text.into(),
    }
}

#[cfg(test)]
mod tests {
    use super::{BEHIND, COLUMNS, OPEN, Row, Sheet, cell};

    fn rows(text: &str) -> Result<Vec<Row>, String> {
        Ok(Sheet::new(text.as_bytes())?.collect())
    }

    fn header() -> String {
        COLUMNS.join(",")
    }

    #[test]
    fn a_spreadsheet_s_csv_is_read() {
        let text = format!(
            "\u{feff}{}\r\n\r\n\"a \"\"b\"\", c\", \"string\" ,A3,1,trigger,0,0,0,0\r\n,,,,,,,,\r\n",
            header()
        );
        let rows = rows(&text).unwrap();
        assert_eq!(rows.len(), 1);
        assert_eq!((&rows[0].cells[0][..], rows[0].cells[1].trim()), ("a \"b\", c", "string"));
        assert_eq!((rows[0].line, &rows[0].fault), (3, &None));
    }

    #[test]
    fn columns_stand_in_any_order_and_semicolons_and_tabs_serve() {
        let text = "damping;brightness;structure;accent;play;seconds;note;kind;name\n.1;.2;.3;.4;trigger;2;57;modal;x\n";
        for text in [text, &text.replace(';', "\t"), &text.replace('\n', "\r")] {
            let cells = rows(text).unwrap()[0].cells.clone();
            assert_eq!(cells, ["x", "modal", "57", "2", "trigger", ".4", ".3", ".2", ".1"]);
        }
    }

    #[test]
    fn a_wrong_sheet_is_a_clear_error() {
        let error = |text: &str| rows(text).unwrap_err();
        assert!(error("").contains("the sheet is empty"));
        assert!(error("\n\n").contains("the sheet is empty"));
        let missing = header().replace(",damping", "");
        assert_eq!(error(&missing), "missing in the header: 'damping'");
        assert!(error(&format!("{},pan,volume\n", header())).contains("'pan', 'volume'"));
        assert!(error(&format!("{},name\n", header())).contains("twice"));
        let open = error(&header().replace("name", "\"name"));
        assert!(open.starts_with("line 1, the header: a quote does not end"), "{open}");
    }

    #[test]
    fn a_file_that_is_no_csv_is_a_clear_error() {
        let utf_16: Vec<u8> = header().encode_utf16().flat_map(u16::to_le_bytes).collect();
        let marked = [&b"\xff\xfe"[..], &utf_16].concat();
        let page = b"\n<html><table>";
        let files: [&[u8]; 5] =
            [b"PK\x03\x04\x14\0", b"\xd0\xcf\x11\xe0\xa1", &utf_16, &marked, page];
        for file in files {
            let error = Sheet::new(file).err().unwrap();
            assert!(error.contains("save as CSV"), "{error}");
        }
    }

    #[test]
    fn a_wrong_row_says_so_and_the_next_is_read() {
        let faults = |bytes: &[u8]| -> Vec<Option<String>> {
            let text =
                [header().as_bytes(), b"\n", bytes, b"\nb,modal,57,1,sustain,0,0,0,0"].concat();
            Sheet::new(&text).unwrap().map(|row| row.fault).collect()
        };
        let long = vec![b'x'; 1 << 21];
        let cases: [(&[u8], &str); 6] = [
            (b"a,string,A3", "the row has 3 cells, where the header has 9"),
            (b"a", "the row has 1 cell, where the header has 9"),
            (b"caf\xe9,string,1,1,1,1,1,1,1", "the line is not UTF-8: save the sheet as CSV UTF-8"),
            (b"\"a,string", OPEN),
            (b"\"a\"b,string,1,1,1,1,1,1,1", BEHIND),
            (&long, "the line is longer than 1048576 bytes"),
        ];
        for (line, fault) in cases {
            assert_eq!(faults(line), [Some(fault.into()), None]);
        }
    }

    #[test]
    fn a_written_cell_reads_back() {
        for text in ["plain", "a,b", "say \"x\"", ""] {
            let line = format!("{},string", cell(text));
            assert_eq!(super::split(&line, ',').0[0], text);
        }
    }
}
