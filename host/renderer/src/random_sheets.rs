//! Random sheets, most of them damaged: one line is one note, whatever stands in it.

use crate::chance::Chance;
use crate::lines::counted;
use crate::order::Orders;

use crate::sheet::{COLUMNS, Sheet};
use crate::tests::SETTINGS;

/// A line as it was written: its number, its text, and whether it was left whole.
struct Written {
    number: usize,
    text: Vec<u8>,
    is_whole: bool,
}

struct Made {
    text: Vec<u8>,
    lines: Vec<Written>,
    separator: u8,
}

/// A good row.
fn row(chance: &mut Chance, name: usize, separator: u8) -> Vec<u8> {
    let quoted = match chance.below(4) {
        0 => format!("\"a \"\"b\"\", {name};\""),
        1 => format!("\"note {name}\""),
        _ => format!("note {name}"),
    };
    let kind = chance.of(&["string", "modal"]);
    let play = chance.of(&["trigger", "sustain"]);
    let note = chance.of(&["A3", "57", "220hz", "C#5"]);
    let cells = [&quoted, kind, note, "0.5", play, "0.5", "\"0.4\"", "1", "0"];
    cells.join(&char::from(separator).to_string()).into_bytes()
}

/// Damages a line somewhere, by a quote above all, and leaves something of it.
fn damage(chance: &mut Chance, line: &mut Vec<u8>) {
    for _ in 0..1 + chance.below(3) {
        let place = chance.below(line.len() as u64 + 1) as usize;
        match chance.below(8) {
            0 => line.insert(place, chance.of(b",;\t")),
            1 => line.insert(place, 0xe9),
            2 => line.truncate(place.max(1)),
            _ => line.insert(place, b'"'),
        }
    }
    line.push(b'x');
}

fn made(chance: &mut Chance) -> Made {
    let separator = chance.of(b",,;\t");
    let ending = chance.of(&["\n", "\r\n", "\r"]);
    let mark = chance.of(&["", "\u{feff}"]);
    let header = COLUMNS.join(&char::from(separator).to_string());
    let mut text = [mark, &header, ending].concat().into_bytes();
    let mut lines = Vec::new();
    let rows = chance.below(12) as usize;
    let mut number = 1;
    for name in 0..rows {
        for _ in 0..chance.below(3) {
            text.extend(chance.of(&["", " ", ",,,,,,,,", ";;", "\t \t"]).bytes());
            text.extend(ending.bytes());
            number += 1;
        }
        number += 1;
        let mut line = row(chance, name, separator);
        let is_whole = chance.below(3) > 0;
        if !is_whole {
            damage(chance, &mut line);
        }
        text.extend(&line);
        if name + 1 < rows || chance.below(2) == 0 {
            text.extend(ending.bytes());
        }
        lines.push(Written { number, text: line, is_whole });
    }
    Made { text, lines, separator }
}

/// The cells of a whole line, which has no separator in a quoted cell but in its name.
fn name(line: &[u8], separator: u8) -> String {
    let text = str::from_utf8(line).expect("a whole line is UTF-8");
    let kinds = ["string", "modal"].map(|kind| format!("{}{kind}", char::from(separator)));
    let end = kinds.iter().find_map(|kind| text.find(kind)).expect("a kind");
    text[..end].trim_matches('"').replace("\"\"", "\"")
}

#[test]
fn one_line_is_one_note_in_twenty_thousand_sheets() {
    let mut chance = Chance(18);
    let mut damaged = 0;
    for _ in 0..20_000 {
        let Made { text, lines, separator } = made(&mut chance);
        let sheet = Sheet::new(&text).expect("the header is whole");
        let rows: Vec<_> = sheet.collect();
        let said = || String::from_utf8_lossy(&text).into_owned();
        assert_eq!([rows.len(), counted(&text)], [lines.len(); 2], "{}", said());
        for (row, line) in rows.iter().zip(&lines) {
            assert_eq!(row.line, line.number, "{}", said());
            if line.is_whole {
                assert_eq!(row.fault, None, "{}", said());
                assert_eq!(row.cells[0], name(&line.text, separator), "{}", said());
                assert_eq!(row.cells[8], "0", "{}", said());
            }
        }
        damaged += lines.iter().filter(|line| !line.is_whole).count();
    }
    assert!(damaged > 30_000, "{damaged}");
}

/// Quotes by themselves, and nothing else, make every row either a note or a refusal; a name with a quote is refused.
#[test]
fn every_order_is_a_note_or_a_refusal() {
    let mut chance = Chance(19);
    let [mut notes, mut refused] = [0; 2];
    for _ in 0..1_000 {
        let Made { text, lines, .. } = made(&mut chance);
        let sheet = Sheet::new(&text).expect("the header is whole");
        let orders: Vec<_> = Orders::new(sheet, &SETTINGS).collect();
        assert_eq!(orders.len(), lines.len());
        for (order, line) in orders.iter().zip(&lines) {
            let is_plain = line.text.starts_with(b"note") || line.text.starts_with(b"\"note");
            assert!(!line.is_whole || !is_plain || order.note.is_ok());
            match &order.note {
                Ok(_) => notes += 1,
                Err(fault) => {
                    assert!(!fault.reason.is_empty() && fault.reason.len() < 400);
                    refused += 1;
                }
            }
        }
    }
    assert!(notes > 1000 && refused > 1000, "{notes} and {refused}");
}

#[test]
fn any_bytes_are_a_clear_error_or_rows_as_many_as_lines() {
    let mut chance = Chance(20);
    for k in 0..20_000 {
        let header = if k % 2 == 0 { COLUMNS.join(",") + "\n" } else { String::new() };
        let mut text = header.into_bytes();
        for _ in 0..chance.below(200) {
            let any = chance.below(256) as u8;
            text.push(chance.of(&[b'"', b'"', b',', b'\n', b'\r', b'a', any]));
        }
        match Sheet::new(&text) {
            Ok(sheet) => assert_eq!(sheet.count(), counted(&text), "{text:?}"),
            Err(error) => assert!(k % 2 == 1 || text.contains(&0), "{error}"),
        }
    }
}
