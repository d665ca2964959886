//! The lines of a sheet, and its notes counted by lines alone.

/// Whether a byte orders nothing by itself: a space or a separator.
fn is_blank(byte: u8) -> bool {
    matches!(byte, b' ' | b'\t' | b',' | b';')
}

/// The lines that are not blank, each with its number. A line ends in LF, CR or both.
#[derive(Clone)]
pub struct Lines<'a> {
    rest: &'a [u8],
    number: usize,
}

impl<'a> Lines<'a> {
    /// The lines of a text, a byte order mark left out.
    pub fn new(text: &'a [u8]) -> Self {
        Lines { rest: text.strip_prefix(b"\xef\xbb\xbf").unwrap_or(text), number: 0 }
    }
}

impl<'a> Iterator for Lines<'a> {
    type Item = (usize, &'a [u8]);

    fn next(&mut self) -> Option<Self::Item> {
        while !self.rest.is_empty() {
            self.number += 1;
            let end = self.rest.iter().position(|byte| matches!(byte, b'\n' | b'\r'));
            let (line, behind) = self.rest.split_at(end.unwrap_or(self.rest.len()));
            let ending = if behind.starts_with(b"\r\n") { 2 } else { behind.len().min(1) };
            self.rest = &behind[ending..];
            if !line.iter().all(|byte| is_blank(*byte)) {
                return Some((self.number, line));
            }
        }
        None
    }
}

/// How many notes a sheet orders: its lines that are not blank, but for the header. Nothing here knows of cells, so that the reader
/// of these can be held to it.
pub fn counted(text: &[u8]) -> usize {
    let text = text.strip_prefix(b"\xef\xbb\xbf").unwrap_or(text);
    let mut lines = 0;
    let mut is_begun = false;
    for byte in text {
        if matches!(byte, b'\n' | b'\r') {
            is_begun = false;
        } else if !is_begun && !is_blank(*byte) {
            is_begun = true;
            lines += 1;
        }
    }
    usize::saturating_sub(lines, 1)
}

#[cfg(test)]
mod tests {
    use super::{Lines, counted};

    #[test]
    fn a_line_ends_in_lf_cr_or_both() {
        let text = b"\xef\xbb\xbfa\nb\r\nc\rd\r\r\n\n ,;\t\ne";
        let lines: Vec<(usize, &[u8])> = Lines::new(text).collect();
        assert_eq!(lines, [(1, &b"a"[..]), (2, b"b"), (3, b"c"), (4, b"d"), (8, b"e")]);
        assert_eq!(counted(text), 4);
        assert_eq!(counted(b""), 0);
    }
}
