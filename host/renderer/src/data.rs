//! The notes as the page's script reads them: script files, since a page opened from a folder may read no others.

use crate::levels::Told;
use crate::order::Order;
use crate::outcome::{Outcome, Rendered};
use crate::pitch;
use crate::png::{Palette, SHADES, letters, most, png};
use crate::settings::Settings;
use crate::spectrum::{self, shaded};
use crate::wave::{COLUMNS, Wave};
use std::fmt::Write;

/// What every data file of every version begins with.
pub const MARK: &str = "// Notes of a catalogue, for its page.\n";

/// The most bytes of a data file beside its rows.
pub const FRAME: usize = MARK.len() + 300;

/// The bytes that a note's row in the list may have beyond one that was not rendered.
pub const MORE: usize = 700;

/// The most bytes of a note's waveform and of its spectrogram.
pub const WAVE: usize = 3 * COLUMNS + 5;
pub const SPECTRUM: usize = most(spectrum::COLUMNS, spectrum::ROWS).div_ceil(3) * 4 + 5;

/// From black by blue and red to white.
const PALETTE: Palette = [
    [10, 10, 16],
    [16, 18, 42],
    [26, 26, 74],
    [42, 30, 104],
    [64, 34, 124],
    [90, 38, 132],
    [118, 42, 132],
    [146, 48, 126],
    [174, 54, 114],
    [200, 64, 98],
    [222, 80, 80],
    [238, 104, 64],
    [248, 134, 56],
    [252, 168, 70],
    [252, 206, 108],
    [252, 244, 190],
];

/// The call that a list of rows is the argument of.
pub fn begin(name: &str, number: usize) -> String {
    format!("{MARK}catalogue.{name}({number}, [\n")
}

pub const END: &str = "]);\n";

/// The call that begins the list, with what the page knows of all notes.
pub fn begin_list(rows: usize, settings: &Settings) -> String {
    let (rate, ending) = (settings.rate, settings.format.ending());
    format!("{MARK}catalogue.list({{rows: {rows}, rate: {rate}, ending: \"{ending}\"}}, [\n")
}

/// A note's row in the list: name, state, line, kind, note, seconds, play, the four other knobs, pitch in hundredths, peak, loudness,
/// a warning or a reason, and the reason's number.
pub fn row(order: &Order, outcome: &Outcome) -> String {
    let mut row = format!("[{}", quoted(order.name()));
    let state = match outcome {
        Outcome::Rendered(_) | Outcome::Kept(_) => 0,
        Outcome::Refused(_) => 1,
        Outcome::Failed(_) => 2,
        Outcome::NotRendered => 3,
    };
    row += &format!(",{state},{}", order.row.line);
    for cell in &order.row.cells[1..] {
        row += &format!(",{}", quoted(cell.trim()));
    }
    let pitch = order.note.as_ref().map_or(String::new(), |note| {
        let (key, above) = pitch::key(note.hertz);
        (u32::from(key) * 100 + u32::from(above)).to_string()
    });
    let (mut levels, mut words, mut number) = ([""; 2], "", None);
    match outcome {
        Outcome::Rendered(rendered) | Outcome::Kept(rendered) => {
            let Told { peak, loudness, warning, .. } = &rendered.told;
            (levels, words) = ([&peak[..], loudness], warning);
        }
        Outcome::Refused(fault) => (words, number) = (&fault.reason, fault.number),
        Outcome::Failed(reason) => words = reason,
        Outcome::NotRendered => (),
    }
    let number = number.map_or(String::new(), |number| number.to_string());
    let [peak, loudness] = levels;
    let [pitch, peak, loudness, number] = [&pitch, peak, loudness, &number[..]]
        .map(|number| if number.is_empty() { "null" } else { number });
    row + &format!(",{pitch},{peak},{loudness},{},{number}],\n", quoted(words))
}

/// A note's waveform on the scale of full scale, which is 384 steps: three letters a column, the digits of a number that has both
/// its ends.
pub fn wave(outcome: &Outcome) -> String {
    let step =
        |sample: &f32| (433.0 + sample.clamp(-2.0, 2.0) * 384.0).round().clamp(0.0, 867.0) as u32;
    // Of the letters between the space and the last, there is no quotation mark and no backslash.
    let letter = |digit: u32| (35 + digit + u32::from(digit >= 57)) as u8 as char;
    let columns = heard(outcome).map_or(&[][..], |wave| &wave.columns);
    let digits = columns.iter().flat_map(|[low, high]| {
        let number = 868 * step(low) + step(high);
        [number / 8281, number / 91 % 91, number % 91]
    });
    format!("\"{}\",\n", digits.map(letter).collect::<String>())
}

/// A note's spectrogram: the letters of a picture.
pub fn spectrum(outcome: &Outcome) -> String {
    let levels = heard(outcome).map_or(&[][..], |wave| &wave.spectrum.levels);
    if levels.is_empty() {
        return "\"\",\n".into();
    }
    let picture = png(spectrum::COLUMNS, &shaded(levels, SHADES), &PALETTE);
    format!("\"{}\",\n", letters(&picture))
}

fn heard(outcome: &Outcome) -> Option<&Wave> {
    match outcome {
        Outcome::Rendered(rendered) | Outcome::Kept(rendered) => {
            let Rendered { frames, wave, .. } = &**rendered;
            wave.as_ref().filter(|_| *frames > 0)
        }
        _ => None,
    }
}

/// A text of a script.
fn quoted(text: &str) -> String {
    let mut out = String::from("\"");
    for c in text.chars() {
        match c {
            '"' | '\\' => out.extend(['\\', c]),
            c if c.is_control() || matches!(c, '\u{2028}' | '\u{2029}') => {
                write!(out, "\\u{:04x}", u32::from(c)).expect("a string takes all");
            }
            _ => out.push(c),
        }
    }
    out + "\""
}

#[cfg(test)]
mod tests {
    use super::quoted;

    #[test]
    fn texts_are_quoted() {
        assert_eq!(quoted("a\"b\\c\u{7}é\u{2028}"), "\"a\\\"b\\\\c\\u0007é\\u2028\"");
    }
}
