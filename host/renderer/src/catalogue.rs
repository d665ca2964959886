//! The catalogue: one line for every ordered note, with what became of it and what made it.

use crate::blocks::{LONG, SHORT};
use crate::checksum::{Checksum, Summing};
use crate::format::{FORMATS, Format};
use crate::levels::Told;
use crate::note::Fault;
use crate::order::Order;
use crate::outcome::{Outcome, Rendered};
use crate::settings::{Level, Settings};
use crate::sheet::{Row, cell, split};
use crate::sndfile;
use crate::wave::Wave;

/// The catalogue's file.
pub const FILE: &str = "catalogue.csv";

pub const HEADER: &str = "name,status,file,frames,peak,burst,dust,dispersion,number,knob,value,range,reason,line,\
    peak_dbfs,loudness_lufs,silent_seconds,warning,\
    kind,note,seconds,play,accent,structure,brightness,damping,\
    seed,rate,block,format,channels,level,fade,version,sha256";

/// The columns, and the first of those that say what made a note, which go to the last but one.
const COLUMNS: usize = 35;
const FIRST_MADE: usize = 18;

/// The bytes that a note's line may have beyond one that was not rendered: its file, its numbers and a checksum, or a reason.
pub const MORE: usize = 1000;

/// The name of a note's file.
pub fn file_of(name: &str, format: Format) -> String {
    format!("{name}.{}", format.ending())
}

/// Whether a file that begins so is a catalogue, of this version or the one before.
pub fn is_ours(beginning: &[u8]) -> bool {
    beginning.starts_with(b"name,status,file,frames,peak,burst,dust,dispersion,number,knob,value,")
}

/// An order's line.
pub fn line(order: &Order, outcome: &Outcome, settings: &Settings) -> String {
    let name = cell(order.name());
    let (became, levels, checksum) = became(order, outcome, settings);
    let cells: Vec<String> = order.row.cells[1..].iter().map(|text| cell(text.trim())).collect();
    let (line, cells, set) = (order.row.line, cells.join(","), set(settings).join(","));
    format!("{name},{became},{line},{levels},{cells},{set},{checksum}")
}

/// What makes an order's file, as one sum: its cells, the settings and the version.
pub fn made(order: &Order, settings: &Settings) -> Checksum {
    let cells = order.row.cells.iter().map(|text| text.trim().to_string());
    made_by(cells.chain(set(settings)))
}

fn made_by(texts: impl Iterator<Item = impl AsRef<str>>) -> Checksum {
    let mut sum = Summing::default();
    for text in texts {
        sum.add(text.as_ref().as_bytes());
        sum.add(&[0]);
    }
    sum.end()
}

/// What a line lists of a file that was rendered.
#[derive(Debug, Clone)]
pub struct Listed {
    pub checksum: Checksum,
    pub made: Checksum,
    pub frames: u64,
    peak: f32,
    burst: u64,
    dust: u64,
    dispersion: u64,
    told: Told,
}

/// The cells of a line that lists a file.
pub fn file_line(line: &[u8]) -> Option<Vec<String>> {
    let (cells, fault) = split(str::from_utf8(line).ok()?, ',');
    let [name, status, file, ..] = &cells[..] else { return None };
    let is_file = FORMATS.iter().any(|format| *file == file_of(name, *format));
    (fault.is_none() && status == "rendered" && is_file).then_some(cells)
}

/// The file of a line, and what is listed of it, which is nothing in a catalogue of the version before.
pub fn listed(line: &[u8]) -> Option<(String, Option<Listed>)> {
    let cells = file_line(line)?;
    Some((cells[2].clone(), listed_in(&cells)))
}

fn listed_in(cells: &[String]) -> Option<Listed> {
    let cells: &[String; COLUMNS] = cells.try_into().ok()?;
    let [name, _, _, frames, peak, burst, dust, dispersion, ..] = cells;
    let [.., checksum] = cells;
    let [peak_dbfs, loudness, silent, warning] = [14, 15, 16, 17].map(|k| cells[k].clone());
    let made = [name].into_iter().chain(&cells[FIRST_MADE..COLUMNS - 1]);
    Some(Listed {
        checksum: Checksum::read(checksum)?,
        made: made_by(made),
        frames: frames.parse().ok()?,
        peak: peak.parse().ok()?,
        burst: burst.parse().ok()?,
        dust: dust.parse().ok()?,
        dispersion: dispersion.parse().ok()?,
        told: Told { peak: peak_dbfs, loudness, silent, warning },
    })
}

impl Listed {
    /// The note that an earlier run rendered.
    pub fn rendered(&self, wave: Option<Wave>) -> Rendered {
        let Listed { checksum, frames, peak, burst, dust, dispersion, .. } = *self;
        let told = self.told.clone();
        Rendered { frames, peak, burst, dust, dispersion, told, wave, checksum, file: None }
    }
}

/// What became of an order, in the columns from status to reason, the levels, and the checksum of its file.
fn became(order: &Order, outcome: &Outcome, settings: &Settings) -> (String, String, String) {
    let without_file = |status: &str, fault: &Fault| {
        let Fault { number, column, value, range, reason } = fault;
        let number = number.map_or(String::new(), |number| number.to_string());
        let [value, range, reason] = [value, range, reason].map(|text| cell(text));
        let became = format!("{status},,,,,,,{number},{column},{value},{range},{reason}");
        (became, ",,,".into(), String::new())
    };
    match outcome {
        Outcome::Rendered(rendered) | Outcome::Kept(rendered) => {
            let Rendered { frames, peak, burst, dust, dispersion, told, checksum, .. } =
                &**rendered;
            let file = cell(&file_of(order.name(), settings.format));
            let numbers = format!("{frames},{peak},{burst},{dust},{dispersion}");
            let Told { peak, loudness, silent, warning } = told;
            let levels = format!("{peak},{loudness},{silent},{}", cell(warning));
            (format!("rendered,{file},{numbers},,,,,"), levels, checksum.to_string())
        }
        Outcome::Refused(fault) => without_file("refused", fault),
        Outcome::Failed(reason) => without_file("failed", &Fault::row(reason.clone())),
        Outcome::NotRendered => {
            without_file("not rendered", &Fault::row("the run was stopped before".into()))
        }
    }
}

/// The settings, and the versions of the tool and of what writes its files.
fn set(settings: &Settings) -> [String; 8] {
    let Settings { seed, rate, format, level, fade, .. } = settings;
    [
        seed.to_string(),
        rate.to_string(),
        SHORT.to_string(),
        format.to_string(),
        settings.channels().to_string(),
        level.to_string(),
        fade.to_string(),
        version(),
    ]
}

/// The version of the tool, and of the library that writes its files.
pub fn version() -> String {
    format!("{} {}", env!("CARGO_PKG_VERSION"), sndfile::version())
}

/// The row and the settings of a line that lists a file, to render it again.
pub fn again(cells: &[String]) -> Option<(Row, Settings)> {
    let cells: &[String; COLUMNS] = cells.try_into().ok()?;
    let [.., seed, rate, _, format, channels, level, fade, _, _] = cells;
    let level = match level.strip_prefix("gain=") {
        Some(gain) => Level::Gain(gain.parse().ok()?),
        None => Level::read(level)?,
    };
    let settings = Settings {
        seed: seed.parse().ok()?,
        rate: rate.parse().ok()?,
        format: Format::read(format)?,
        aux: channels == "2",
        level,
        fade: fade.parse().ok()?,
        longest: LONG,
    };
    let texts = [&cells[..1], &cells[FIRST_MADE..FIRST_MADE + 8]].concat();
    let row = Row { line: cells[13].parse().ok()?, cells: texts.try_into().ok()?, fault: None };
    Some((row, settings))
}
