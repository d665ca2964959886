//! The catalogue as pages: without a script a table of some notes, with it one of all.

use crate::catalogue::file_of;
use crate::levels::Told;
use crate::order::Order;
use crate::outcome::{Outcome, Rendered, Sum};
use crate::settings::Settings;
use crate::sheet::COLUMNS as NAMES;
use crate::wave::COLUMNS;

/// What every page of every version begins with.
const MARK: &str = "<!DOCTYPE html>
<html lang=\"en\">
<meta charset=\"utf-8\">
<meta name=\"viewport\" content=\"width=device-width\">
<title>Catalogue</title>";

/// Whether a file that begins so is a page of this tool.
pub fn is_ours(beginning: &[u8]) -> bool {
    beginning.starts_with(MARK.as_bytes())
}

const HEAD: &str = concat!(
    "<!DOCTYPE html>
<html lang=\"en\">
<meta charset=\"utf-8\">
<meta name=\"viewport\" content=\"width=device-width\">
<title>Catalogue</title>
<style>
",
    include_str!("../page/style.css"),
    "</style>
<script>
",
    include_str!("../page/notes.js"),
    include_str!("../page/chunks.js"),
    include_str!("../page/draw.js"),
    include_str!("../page/table.js"),
    include_str!("../page/player.js"),
    include_str!("../page/keys.js"),
    include_str!("../page/begin.js"),
    "</script>
",
    include_str!("../page/live.html"),
    "<main id=\"still\">
<h1>Catalogue</h1>
"
);

/// The first page's file.
const FILE: &str = "index.html";

/// The notes of a page.
pub const ROWS: usize = 250;

/// The bytes of the line that sums up the notes, and where it stands.
const SUM: usize = 160;
pub const SUM_AT: u64 = HEAD.len() as u64;

/// The most bytes of a page without its rows.
pub const FRAME: usize = HEAD.len() + SUM + 1500 + PIECE;

/// The most bytes of the player of a piece, whose name a file system holds to 255 bytes.
const PIECE: usize = 200 + 255 * (6 + 6 + 3);

/// The bytes that a note's row may have beyond one that was not rendered: its waveform and its player, or a reason.
pub const MORE: usize = DRAWN * 10 + 1600;

/// The columns of a waveform as a page draws it, and its height.
const DRAWN: usize = COLUMNS / 2;
const HEIGHT: f32 = 48.0;

/// The file of a page.
pub fn file(number: usize) -> String {
    if number == 1 { FILE.into() } else { format!("index-{number}.html") }
}

/// The line that sums up the notes, padded so that it can be written over.
pub fn summed(sum: &Sum) -> String {
    let line = format!("<p>{}.</p>", sum.of_all_runs().text());
    format!("{line:<SUM$}\n")
}

/// The beginning of a page, which has the piece; the first has the sum.
pub fn begin(number: usize, pages: usize, ordered: usize, piece: Option<&str>) -> String {
    let (first, last) = ((number - 1) * ROWS + 1, (number * ROWS).min(ordered));
    let sum = if number == 1 { summed(&Sum::default()) } else { String::new() };
    let part = match pages {
        1 => String::new(),
        _ => format!("<p>Notes {first} to {last} of {ordered}.</p>\n{}", links(number, pages)),
    };
    format!(
        "{HEAD}{sum}{}{part}<table>\n<thead><tr><th>Name<th>Sound<th>Waveform<th>Knobs</thead>\n<tbody>\n",
        piece.map_or(String::new(), player)
    )
}

/// The player of a piece, with its title, which is its file's name.
fn player(piece: &str) -> String {
    let title = piece.rsplit_once('.').map_or(piece, |(title, _)| title);
    let (title, file) = (escaped(title), escaped(&url(piece)));
    format!(
        "<section id=\"piece\" aria-label=\"Piece: {title}\"><b>{title}</b><audio controls preload=\"none\" src=\"{file}\"></audio></section>\n"
    )
}

/// The end of a page.
pub fn end(number: usize, pages: usize) -> String {
    let links = if pages == 1 { String::new() } else { links(number, pages) };
    format!("</table>\n{links}</main>\n")
}

/// The way to the pages around one.
fn links(number: usize, pages: usize) -> String {
    let link = |to: usize, text: &str| match to {
        to if to == number || to == 0 || to > pages => format!("<span>{text}</span>"),
        _ => format!("<a href=\"{}\">{text}</a>", file(to)),
    };
    let links = [
        link(1, "first"),
        link(number - 1, "before"),
        link(number + 1, "next"),
        link(pages, "last"),
    ];
    format!("<nav>Page {number} of {pages}: {}</nav>\n", links.join(" "))
}

/// The lines of a note.
pub fn row(order: &Order, outcome: &Outcome, settings: &Settings) -> String {
    let (row, name) = (&order.row, escaped(order.name()));
    let [_, kind, note, seconds, play, ..] = row.cells.each_ref().map(|text| escaped(text.trim()));
    let knobs: Vec<String> = NAMES.iter().zip(&row.cells).skip(5).map(knob).collect();
    let knobs = format!("{kind}, {note}, {seconds} s, {play}<br>{}", knobs.join(", "));
    let without_sound = |what: &str, number: Option<u32>, reason: &str| {
        let number = number.map_or(String::new(), |number| format!(" (number {number})"));
        let (reason, line) = (escaped(reason), row.line);
        format!(
            "<tr class=\"refused\"><th>{name}<td colspan=\"2\">Line {line} {what}{number}{reason}.<td class=\"knobs\">{knobs}\n"
        )
    };
    match outcome {
        Outcome::Rendered(rendered) | Outcome::Kept(rendered) => {
            let file = escaped(&url(&file_of(order.name(), settings.format)));
            let (wave, levels) = (waveform(rendered, &name), levels(&rendered.told));
            format!(
                "<tr><th>{name}<td><audio controls preload=\"none\" src=\"{file}\"></audio><td>{wave}<td class=\"knobs\">{knobs}{levels}\n"
            )
        }
        Outcome::Refused(fault) => {
            without_sound("refused", fault.number, &format!(": {}", fault.reason))
        }
        Outcome::Failed(reason) => without_sound("failed", None, &format!(": {reason}")),
        Outcome::NotRendered => without_sound("not rendered", None, ""),
    }
}

/// The levels of a note, and what they warn of.
fn levels(told: &Told) -> String {
    let Told { peak, loudness, warning, .. } = told;
    let unit = |number: &str, unit: &str| match number {
        "" => String::new(),
        _ => format!(", {number} {unit}"),
    };
    let levels = [unit(peak, "dBFS"), unit(loudness, "LUFS")].concat();
    let levels = match levels.strip_prefix(", ") {
        Some(levels) => format!("<br>{levels}"),
        None => String::new(),
    };
    match &warning[..] {
        "" => levels,
        _ => format!("{levels}<br><b>Warning: {}.</b>", escaped(warning)),
    }
}

fn knob((name, value): (&&str, &String)) -> String {
    format!("{name} {}", escaped(value.trim()))
}

/// The waveform as a picture on the scale of full scale, from its lowest to its highest samples.
fn waveform(rendered: &Rendered, name: &str) -> String {
    let Some(wave) = &rendered.wave else { return String::new() };
    let place =
        |sample: f32| ((1.0 - sample.clamp(-1.0, 1.0)) * (HEIGHT / 2.0 - 1.0)).round() as i32;
    let (mut path, mut last) = (String::from("M-.5 0"), 0);
    for pair in wave.columns.chunks(2) {
        let high = place(pair.iter().fold(0.0, |high, [_, next]| next.max(high)));
        let low = place(pair.iter().fold(0.0, |low, [next, _]| next.min(low)));
        path += &format!("m1 {}v{}", high - last, low - high + 1);
        last = low + 1;
    }
    let path = path.replace(" -", "-");
    let hot = if rendered.told.peak.parse().is_ok_and(|peak: f64| peak > 0.0) {
        " class=\"hot\""
    } else {
        ""
    };
    format!(
        "<svg{hot} viewBox=\"0 0 {DRAWN} {HEIGHT}\" preserveAspectRatio=\"none\" role=\"img\" \
         aria-label=\"Waveform of {name}\"><path d=\"{path}\"/></svg>"
    )
}

fn escaped(text: &str) -> String {
    let mut out = String::new();
    for c in text.chars() {
        match c {
            '&' => out += "&amp;",
            '<' => out += "&lt;",
            '>' => out += "&gt;",
            '"' => out += "&quot;",
            _ => out.push(c),
        }
    }
    out
}

/// A file's name as a relative address.
fn url(name: &str) -> String {
    let mut out = String::new();
    for byte in name.bytes() {
        match byte {
            b'a'..=b'z' | b'A'..=b'Z' | b'0'..=b'9' | b'-' | b'_' | b'.' | b'~' => {
                out.push(byte.into());
            }
            _ => out += &format!("%{byte:02X}"),
        }
    }
    out
}

#[cfg(test)]
mod tests {
    use super::{HEAD, escaped, is_ours, url};

    #[test]
    fn a_page_is_known_as_one() {
        assert!(is_ours(HEAD.as_bytes()) && !is_ours(b"<!DOCTYPE html>\n<title>Mine</title>"));
    }

    #[test]
    fn names_are_escaped() {
        assert_eq!(escaped("a<b>&\"c\""), "a&lt;b&gt;&amp;&quot;c&quot;");
        assert_eq!(url("a b#é.wav"), "a%20b%23%C3%A9.wav");
    }
}
