//! What is said on the terminal.

use crate::command::Asked;
use crate::known::Stale;
use crate::outcome::{Sum, TOLD};
use std::io::{self, Write};

/// Writes a line to standard output; one that nobody reads is no error.
pub fn say(text: &str) {
    drop(writeln!(io::stdout(), "{text}"));
}

/// Writes an error to standard error.
pub fn complain(message: &str) {
    drop(writeln!(io::stderr(), "bleidhvan: {message}"));
}

/// Says what became of the notes, which must be as many as the lines that order them, and of the files of earlier runs.
pub fn told(asked: &Asked, lines: usize, sum: &Sum, stale: &Stale) -> Result<(), String> {
    if !sum.is_whole(lines) {
        let text = sum.text();
        return Err(format!(
            "{lines} lines order notes, and of these were accounted for: {text}; this is a fault of bleidhvan"
        ));
    }
    if !asked.is_quiet {
        let [without, warned] = &sum.told;
        let more = sum.refused + sum.failed - without.len();
        list(without, more, "which catalogue.csv names");
        list(warned, sum.warned - warned.len(), "whose warnings catalogue.csv has");
        let left = |name: &String| {
            format!("left: {name}: this sheet does not render it, and it is not as it was rendered")
        };
        let lefts: Vec<String> = stale.left.iter().take(TOLD).map(left).collect();
        list(&lefts, stale.left.len() - lefts.len(), "of no note of this sheet");
        say(&sum.text());
        if stale.removed > 0 {
            let files = if stale.removed == 1 { "file" } else { "files" };
            let removed = stale.removed;
            say(&format!(
                "{removed} {files} of earlier runs removed, which this sheet does not render"
            ));
        }
        say(&format!("{} has the notes, catalogue.csv and index.html", asked.folder.display()));
    }
    Ok(())
}

/// Lists lines on standard error, with nothing in them that moves a terminal.
pub fn list(lines: &[String], more: usize, what: &str) {
    for line in lines {
        let line = line.replace(char::is_control, "\u{fffd}");
        drop(writeln!(io::stderr(), "{line}"));
    }
    if more > 0 {
        drop(writeln!(io::stderr(), "{more} more, {what}"));
    }
}
