//! The names of notes: which can be those of files, and which are one name to a file system.

use crate::note::Fault;
use crate::sheet::Row;
use std::collections::HashMap;
use unicode_normalization::UnicodeNormalization;

/// The name of a row, or what to write instead.
pub fn name_of(row: &Row) -> Result<&str, Fault> {
    let name = row.cells[0].trim();
    let range = "up to 100 bytes, no dot in front and none of / \\ : * ? \" < > |";
    let forbidden = |c: char| c.is_control() || "/\\:*?\"<>|".contains(c);
    if name.is_empty() || name.len() > 100 || name.starts_with('.') || name.contains(forbidden) {
        return Err(Fault::cell("name", name, range));
    }
    if let Some(c) = name.chars().find(|c| is_invisible(*c)) {
        let code = u32::from(c);
        let range = format!("without the character U+{code:04X}, which is not seen: write it anew");
        return Err(Fault::cell("name", name, &range));
    }
    if is_device(name) {
        return Err(Fault::cell("name", name, "another: Windows keeps this one for a device"));
    }
    Ok(name)
}

/// Whether a character leaves nothing to be seen, so that two names with and without it look the same.
fn is_invisible(c: char) -> bool {
    matches!(c,
        '\u{ad}' | '\u{34f}' | '\u{61c}' | '\u{115f}'..='\u{1160}' | '\u{17b4}'..='\u{17b5}'
        | '\u{180b}'..='\u{180f}' | '\u{200b}'..='\u{200f}' | '\u{2028}'..='\u{202e}'
        | '\u{2060}'..='\u{206f}' | '\u{3164}' | '\u{fe00}'..='\u{fe0f}' | '\u{feff}' | '\u{ffa0}'
        | '\u{fff0}'..='\u{fffb}' | '\u{1bca0}'..='\u{1bca3}' | '\u{1d173}'..='\u{1d17a}'
        | '\u{e0000}'..='\u{e0fff}')
}

/// Whether Windows keeps a name for a device, with whatever stands behind a dot.
fn is_device(name: &str) -> bool {
    let stem = name.split('.').next().unwrap_or_default().trim_end().to_ascii_uppercase();
    if ["CON", "PRN", "AUX", "NUL", "CONIN$", "CONOUT$"].contains(&&stem[..]) {
        return true;
    }
    let port = stem.strip_prefix("COM").or_else(|| stem.strip_prefix("LPT"));
    let mut behind = port.unwrap_or_default().chars();
    let is_number = |c: char| c.is_ascii_digit() || matches!(c, '¹' | '²' | '³');
    behind.next().is_some_and(is_number) && behind.next().is_none()
}

/// What a name is to file systems that take small and capital letters, and the composed and decomposed forms of a letter, for one.
pub fn key(name: &str) -> String {
    let letters: String = name.nfd().collect();
    letters.to_uppercase().to_lowercase().nfc().collect()
}

/// The names that were taken, each with its line.
#[derive(Default)]
pub struct Names {
    lines: HashMap<String, usize>,
}

impl Names {
    /// Takes a name, or says which line has it.
    pub fn take(&mut self, name: &str, line: usize) -> Result<(), Fault> {
        let taken = *self.lines.entry(key(name)).or_insert(line);
        if taken == line {
            return Ok(());
        }
        let range = format!("another: it is that of line {taken}, as file systems compare names");
        Err(Fault::cell("name", name, &range))
    }
}

#[cfg(test)]
mod tests {
    use super::{Names, name_of};
    use crate::sheet::Row;

    fn usable(name: &str) -> Result<(), String> {
        let mut cells: [String; 9] = Default::default();
        cells[0] = name.into();
        let row = Row { line: 2, cells, fault: None };
        name_of(&row).map(|_| ()).map_err(|fault| fault.reason)
    }

    #[test]
    fn names_that_no_file_can_have_are_refused_with_the_reason() {
        for name in ["low pluck", "é", "Ⅳ", "con brio", "com", "COM10", "lpt", "a.con", "nullify"]
        {
            assert_eq!(usable(name), Ok(()), "{name}");
        }
        let long = "é".repeat(51);
        for name in ["", ".hidden", "a/b", "a\tb", "say \"x\"", "what?", &long] {
            assert!(usable(name).unwrap_err().contains("must be up to 100 bytes"), "{name}");
        }
        for name in ["con", "Aux", "nul.take 2", "com1", "LPT¹", "PRN .b", "conin$"] {
            assert!(usable(name).unwrap_err().contains("Windows keeps"), "{name}");
        }
        for (name, code) in
            [("a\u{200b}b", "U+200B"), ("\u{feff}a", "U+FEFF"), ("a\u{ad}", "U+00AD")]
        {
            assert!(usable(name).unwrap_err().contains(code), "{code}");
        }
    }

    #[test]
    fn names_that_are_one_to_a_file_system_are_told_apart() {
        let twins =
            [("Ab", "aB"), ("\u{e9}", "e\u{301}"), ("\u{c5}", "\u{212b}"), ("K", "\u{212a}")];
        for (one, other) in twins {
            let mut names = Names::default();
            assert_eq!(names.take(one, 2), Ok(()));
            let reason = names.take(other, 3).unwrap_err().reason;
            assert!(reason.contains("line 2"), "{reason}");
        }
        let mut names = Names::default();
        for (k, name) in ["a", "e", "\u{e9}", "\u{e8}", "a b", "a  b", "0"].iter().enumerate() {
            assert_eq!(names.take(name, k), Ok(()), "{name}");
        }
    }
}
