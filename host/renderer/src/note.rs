//! An ordered note: what a row of the sheet asks for, or why it cannot be rendered.

use crate::pitch::{self, FORMS, hertz};
use crate::sheet::Row;
use bleidhvan::{Bank, Kind, Knob, Knobs, Refusal};

/// The most seconds of a note, and of one that rings until it has died away.
pub const MOST_SECONDS: f64 = 3600.0;
pub const RING_SECONDS: f64 = 60.0;

#[derive(Debug, Clone, Copy)]
pub struct Note {
    pub kind: Kind,
    /// None where it rings until it has died away.
    pub seconds: Option<f64>,
    pub hertz: f64,
    /// The knobs of the first block; a strike is in that block alone.
    pub knobs: Knobs,
}

/// Why a note was refused: the table's number, if the bank refused it, the column at fault, its value, and the accepted range.
#[derive(Debug, Clone, Default, PartialEq)]
pub struct Fault {
    pub number: Option<u32>,
    pub column: &'static str,
    pub value: String,
    pub range: String,
    pub reason: String,
}

impl Fault {
    /// A cell that cannot be used.
    pub fn cell(column: &'static str, value: &str, range: &str) -> Self {
        let value = clipped(value.trim());
        let reason = format!("{column} is '{value}', and must be {range}");
        Fault { column, value, range: range.into(), reason, ..Fault::default() }
    }

    /// What stands against a whole row.
    pub fn row(reason: String) -> Self {
        Fault { reason, ..Fault::default() }
    }

    /// A refusal of the bank, in the words of the row.
    pub fn refusal(refusal: Refusal, row: &Row, rate: u32) -> Self {
        let number = Some(refusal.number());
        let Refusal::OutOfRange { knob, .. } = refusal else {
            return Fault { number, reason: refusal.to_string(), ..Fault::default() };
        };
        let fault = match knob {
            Knob::F0 => Fault::cell("note", &row.cells[2], &pitch::range(rate)),
            _ => Fault::cell(knob.name(), &row.cells[4 + knob as usize], knob.range_text()),
        };
        Fault { number, ..fault }
    }
}

/// The beginning of a text, so that no reason is long.
pub fn clipped(text: &str) -> String {
    const MOST: usize = 80;
    match text.char_indices().nth(MOST) {
        Some((end, _)) => format!("{}…", &text[..end]),
        None => text.into(),
    }
}

/// The note of a row at a sample rate, or why there is none.
pub fn note_of(row: &Row, rate: u32) -> Result<Note, Fault> {
    let [_, kind, note, seconds, play, accent, structure, brightness, damping] = &row.cells;
    let kind = match &kind.trim().to_lowercase()[..] {
        "string" => Kind::String,
        "modal" => Kind::Modal,
        _ => return Err(Fault::cell("kind", kind, "string or modal")),
    };
    let hertz = hertz(note).ok_or_else(|| Fault::cell("note", note, FORMS))?;
    let (trigger, sustain) = match &play.trim().to_lowercase()[..] {
        "trigger" => (true, false),
        "sustain" => (false, true),
        _ => return Err(Fault::cell("play", play, "trigger or sustain")),
    };
    let knobs = Knobs {
        sustain,
        trigger,
        f0: pitch::f0(hertz, rate),
        accent: number("accent", accent)?,
        structure: number("structure", structure)?,
        brightness: number("brightness", brightness)?,
        damping: number("damping", damping)?,
    };
    Ok(Note { kind, seconds: seconds_of(seconds, sustain)?, hertz, knobs })
}

fn seconds_of(cell: &str, sustain: bool) -> Result<Option<f64>, Fault> {
    if cell.trim().eq_ignore_ascii_case("ring") {
        let range = "a number from 0 to 3600: a note that is excited all along rings on";
        return if sustain { Err(Fault::cell("seconds", cell, range)) } else { Ok(None) };
    }
    let seconds = cell.trim().parse().ok().filter(|s| (0.0..=MOST_SECONDS).contains(s));
    let range = "a number from 0 to 3600, or ring for a struck note";
    seconds.map(Some).ok_or_else(|| Fault::cell("seconds", cell, range))
}

/// A number of any size: the bank says which are accepted.
fn number(column: &'static str, cell: &str) -> Result<f32, Fault> {
    cell.trim().parse().map_err(|_| Fault::cell(column, cell, "a number such as 0.5"))
}

/// Whether a bank accepts a note: its opening, and a render of no frames.
pub fn ask(bank: &mut Bank, note: &Note, rate: u32) -> Result<(), Refusal> {
    bank.open(0, note.kind, rate as f32)?;
    let mut none: [[f32; 0]; 4] = Default::default();
    let none = none.each_mut().map(|buffer| &mut buffer[..]);
    bank.render(0, &note.knobs, none).map(|_| ())
}
