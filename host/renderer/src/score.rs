//! A score: which of its rows are played, at which frames, and which are refused is settled before any is played.

use crate::note::Fault;
use crate::pitch::{self, FORMS, hertz};
use crate::sheet::{Columns, Row, Sheet};
use crate::time::{self, Meter};
use bleidhvan::{Bank, Kind, Knob, Knobs, Refusal};

/// The columns of a score.
pub const COLUMNS: Columns =
    ["time", "slot", "kind", "note", "play", "accent", "structure", "brightness", "damping"];

/// The slots of a bank.
pub const SLOTS: usize = 8;

/// The most events of a block, and so of a frame.
pub const MOST_EVENTS: usize = 64;

/// What a row asks for.
#[derive(Debug, Clone, Copy, PartialEq)]
pub struct Cue {
    /// The row's place among the rows of the score, from 0.
    pub row: usize,
    pub frame: u64,
    pub slot: usize,
    pub knobs: Knobs,
}

/// A row that was read: its line, and why it is refused, if it is.
pub struct Answered {
    pub line: usize,
    pub fault: Option<Box<Fault>>,
}

/// What the rows of a score come to.
pub struct Score {
    pub rows: Vec<Answered>,
    /// What is played, in the order of time; what falls on one frame in the order of the slots.
    pub cues: Vec<Cue>,
    /// What each slot is opened with.
    pub kinds: [Option<Kind>; SLOTS],
}

/// What a score is read with.
#[derive(Clone, Copy)]
pub struct Reading {
    pub rate: u32,
    pub meter: Meter,
    /// The frames at which a row may be: those behind are beyond what the file can hold.
    pub frames: u64,
}

impl Score {
    /// Reads all rows.
    pub fn new(sheet: Sheet, reading: &Reading) -> Self {
        let (mut rows, mut asked) = (Vec::new(), Vec::new());
        for (place, row) in sheet.clone().enumerate() {
            let cue = cue(&row, place, reading);
            let fault = cue.as_ref().err().map(|fault| Box::new(fault.clone()));
            rows.push(Answered { line: row.line, fault });
            asked.extend(cue);
        }
        // A stable sort: rows of one slot and one time stay in the order of the sheet, and how others are mixed with them changes nothing.
        asked.sort_by_key(|(cue, _)| (cue.frame, cue.slot));
        let mut slots = Slots::new(reading.rate);
        let mut cues = Vec::new();
        for (cue, kind) in asked {
            match slots.take(&cue, kind) {
                Ok(()) => cues.push(cue),
                Err(wrong) => rows[cue.row].fault = Some(Box::new(wrong.fault(&cue))),
            }
        }
        let mut score = Score { rows, cues, kinds: slots.kinds };
        score.word(sheet, reading.rate);
        score
    }

    /// Says in the words of their rows what the bank refused.
    fn word(&mut self, sheet: Sheet, rate: u32) {
        for (row, answered) in sheet.zip(&mut self.rows) {
            if let Some(fault) = &mut answered.fault
                && fault.column.is_empty()
                && let Some(number) = fault.number
            {
                **fault = worded(number, fault, &row, rate);
            }
        }
    }
}

/// What a row asks for, and the kind that it names, or why it cannot be read.
fn cue(row: &Row, place: usize, reading: &Reading) -> Result<(Cue, Option<Kind>), Fault> {
    if let Some(fault) = &row.fault {
        return Err(Fault::row(fault.clone()));
    }
    let [time, slot, kind, note, play, accent, structure, brightness, damping] = &row.cells;
    let frame = time::frame(time, &reading.meter, reading.rate)?;
    if frame >= reading.frames {
        let reason = "the piece would be longer than a file of its format holds: write an earlier time, fewer --bits, or play to a .flac";
        return Err(Fault::row(reason.into()));
    }
    let slot = slot.trim().parse().ok().filter(|slot| *slot < SLOTS);
    let slot = slot.ok_or_else(|| Fault::cell("slot", &row.cells[1], "a number from 0 to 7"))?;
    let kind = match &kind.trim().to_lowercase()[..] {
        "string" => Some(Kind::String),
        "modal" => Some(Kind::Modal),
        "" => None,
        _ => {
            return Err(Fault::cell(
                "kind",
                kind,
                "string or modal, or empty once the slot is open",
            ));
        }
    };
    let hertz = hertz(note).ok_or_else(|| Fault::cell("note", note, FORMS))?;
    let (trigger, sustain) = match &play.trim().to_lowercase()[..] {
        "trigger" => (true, false),
        "sustain" => (false, true),
        "" => (false, false),
        _ => {
            let range = "trigger, sustain, or empty to move the knobs on";
            return Err(Fault::cell("play", play, range));
        }
    };
    let knobs = Knobs {
        sustain,
        trigger,
        f0: pitch::f0(hertz, reading.rate),
        accent: number("accent", accent)?,
        structure: number("structure", structure)?,
        brightness: number("brightness", brightness)?,
        damping: number("damping", damping)?,
    };
    Ok((Cue { row: place, frame, slot, knobs }, kind))
}

/// A number of any size: the bank says which are accepted.
fn number(column: &'static str, cell: &str) -> Result<f32, Fault> {
    cell.trim().parse().map_err(|_| Fault::cell(column, cell, "a number such as 0.5"))
}

/// Why a row that was read is not played.
enum Wrong {
    /// The slot is open with a voice of the other kind.
    Other(Kind),
    /// No row before opened the slot.
    Unopened,
    /// Too many events fall on the frame.
    Crowded,
    Refused(Refusal),
}

impl Wrong {
    fn fault(&self, cue: &Cue) -> Fault {
        let slot = cue.slot;
        match self {
            Wrong::Other(Kind::String) => Fault::row(format!(
                "slot {slot} is a string from its first row in time on: write string or nothing in kind, or another slot"
            )),
            Wrong::Other(Kind::Modal) => Fault::row(format!(
                "slot {slot} is modal from its first row in time on: write modal or nothing in kind, or another slot"
            )),
            Wrong::Unopened => Fault::row(format!(
                "no row before it in time opens slot {slot}: write string or modal in kind"
            )),
            Wrong::Crowded => Fault {
                number: Some(14),
                reason: format!(
                    "its frame {} has {MOST_EVENTS} events without it, those of slots that sound on among them, and more are not played at once: write another time",
                    cue.frame
                ),
                ..Fault::default()
            },
            Wrong::Refused(refusal) => Fault {
                number: Some(refusal.number()),
                reason: refusal.to_string(),
                ..Fault::default()
            },
        }
    }
}

/// A refusal of the bank in the words of the row; what is no knob's stays.
fn worded(number: u32, fault: &Fault, row: &Row, rate: u32) -> Fault {
    let Some(knob) = number.checked_sub(9).and_then(|k| Knob::ALL.get(k as usize)) else {
        return fault.clone();
    };
    let worded = match knob {
        Knob::F0 => Fault::cell("note", &row.cells[3], &pitch::range(rate)),
        _ => Fault::cell(knob.name(), &row.cells[4 + *knob as usize], knob.range_text()),
    };
    Fault { number: Some(number), ..worded }
}

/// The slots as rows come to them in the order of time.
struct Slots {
    bank: Bank,
    rate: u32,
    kinds: [Option<Kind>; SLOTS],
    /// The slots that sound before the frame.
    sounding: [bool; SLOTS],
    frame: u64,
    /// The rows of the frame that are played, by their slots.
    on_frame: [usize; SLOTS],
}

impl Slots {
    fn new(rate: u32) -> Self {
        let (bank, kinds, sounding) = (Bank::new(0), [None; SLOTS], [false; SLOTS]);
        Slots { bank, rate, kinds, sounding, frame: 0, on_frame: [0; SLOTS] }
    }

    /// Takes a row, or says why it is refused; then it opens no slot.
    fn take(&mut self, cue: &Cue, kind: Option<Kind>) -> Result<(), Wrong> {
        if cue.frame != self.frame {
            for (sounding, rows) in self.sounding.iter_mut().zip(self.on_frame) {
                *sounding |= rows > 0;
            }
            (self.frame, self.on_frame) = (cue.frame, [0; SLOTS]);
        }
        let kind = match (self.kinds[cue.slot], kind) {
            (Some(open), Some(other)) if open != other => return Err(Wrong::Other(open)),
            (Some(open), _) => open,
            (None, kind) => kind.ok_or(Wrong::Unopened)?,
        };
        self.ask(cue, kind).map_err(Wrong::Refused)?;
        if self.events_with(cue.slot) > MOST_EVENTS {
            return Err(Wrong::Crowded);
        }
        self.kinds[cue.slot] = Some(kind);
        self.on_frame[cue.slot] += 1;
        Ok(())
    }

    /// Whether the bank accepts a row: the slot's opening, and a render of no frames.
    fn ask(&mut self, cue: &Cue, kind: Kind) -> Result<(), Refusal> {
        self.bank.open(cue.slot, kind, self.rate as f32)?;
        let mut none: [[f32; 0]; 4] = Default::default();
        let none = none.each_mut().map(|buffer| &mut buffer[..]);
        self.bank.render(cue.slot, &cue.knobs, none).map(|_| ())
    }

    /// The events of the frame with one more of a slot: its rows, and the slots that sound on without one.
    fn events_with(&self, slot: usize) -> usize {
        let events = self.on_frame.iter().zip(self.sounding).enumerate();
        let of_slot = |(place, (rows, sounding)): (usize, (&usize, bool))| {
            let rows = rows + usize::from(place == slot);
            rows.max(sounding.into())
        };
        events.map(of_slot).sum()
    }
}

#[cfg(test)]
mod tests {
    use super::{COLUMNS, Reading, Score};
    use crate::note::Fault;
    use crate::sheet::Sheet;
    use crate::time::Meter;
    use bleidhvan::Kind;

    fn score(rows: &str) -> Score {
        let text = format!("{}\n{rows}", COLUMNS.join(","));
        let meter = Meter { tempo: None, beats: 4 };
        let reading = Reading { rate: 48000, meter, frames: 480_000 };
        Score::new(Sheet::of(text.as_bytes(), COLUMNS).expect("a header"), &reading)
    }

    fn reasons(score: &Score) -> Vec<String> {
        let reason = |fault: &Option<Box<Fault>>| match fault {
            Some(fault) => fault.reason.clone(),
            None => String::new(),
        };
        score.rows.iter().map(|row| reason(&row.fault)).collect()
    }

    #[test]
    fn the_first_row_in_time_opens_a_slot_and_a_refused_one_opens_none() {
        let rows = "2,0,,A3,trigger,0,0,0,0\n1,0,modal,A3,trigger,0,0,0,0\n\
            0,0,string,A3,trigger,2,0,0,0\n3,0,string,A3,,0,0,0,0\n4,1,,A3,,0,0,0,0\n";
        let score = score(rows);
        assert_eq!(score.kinds[..2], [Some(Kind::Modal), None]);
        let order: Vec<usize> = score.cues.iter().map(|cue| cue.row).collect();
        assert_eq!(order, [1, 0]);
        let begins = [
            "",
            "",
            "accent is '2', and must be 0 to 1",
            "slot 0 is modal from its first row in time on: write modal or nothing",
            "no row before it in time opens slot 1: write string or modal in kind",
        ];
        for (reason, begin) in reasons(&score).iter().zip(begins) {
            assert!(reason.starts_with(begin) && reason.is_empty() == begin.is_empty(), "{reason}");
        }
    }

    #[test]
    fn rows_of_one_slot_and_time_stay_in_their_order() {
        let row =
            |accent: usize| format!("1,{},modal,A3,trigger,0.{accent},0,0,0\n", 7 - accent % 2);
        let rows: String = (1..9).map(row).collect();
        let order: Vec<usize> = score(&rows).cues.iter().map(|cue| cue.row).collect();
        assert_eq!(order, [0, 2, 4, 6, 1, 3, 5, 7]);
    }

    #[test]
    fn a_row_behind_what_the_file_holds_is_refused() {
        let score = score("9.9999,0,modal,A3,,0,0,0,0\n10,0,modal,A3,,0,0,0,0\n");
        assert_eq!(score.cues.len(), 1);
        assert!(reasons(&score)[1].starts_with("the piece would be longer than a file"));
    }
}
