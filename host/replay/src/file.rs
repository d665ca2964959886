//! A file: a header line of 128 bytes, then rows of little-endian words.

const HEADER_BYTES: usize = 128;

/// The recorded files.
#[derive(Debug, Clone, Copy, PartialEq, Eq)]
pub enum File {
    Leaves,
    Strings,
    Modals,
    Banks,
}

impl File {
    /// In the order in which they are replayed.
    pub const ALL: [File; 4] = [File::Leaves, File::Strings, File::Modals, File::Banks];

    /// The file's name.
    pub fn name(self) -> &'static str {
        match self {
            File::Leaves => "leaves.bin",
            File::Strings => "strings.bin",
            File::Modals => "modals.bin",
            File::Banks => "banks.bin",
        }
    }

    /// What one row is.
    pub fn row(self) -> &'static str {
        match self {
            File::Leaves => "record",
            File::Strings | File::Modals => "call",
            File::Banks => "row",
        }
    }

    /// The words of a row.
    pub fn words(self) -> usize {
        match self {
            File::Leaves => 16,
            File::Strings | File::Modals | File::Banks => 64,
        }
    }

    /// The text of the header of a file of so many rows.
    fn header(self, rows: usize) -> String {
        let kind = self.name().trim_end_matches(".bin");
        let parts = if self == File::Leaves { "records" } else { "calls" };
        format!("bleidhvan {kind} 1; mi-plaits-dsp-rs effe9864bb; seed 33; {parts} {rows}")
    }

    /// The rows of a file of these bytes, or what is wrong with it.
    pub(crate) fn rows(self, bytes: &[u8]) -> Result<Vec<Vec<u32>>, String> {
        let (head, body) =
            bytes.split_at_checked(HEADER_BYTES).ok_or("it is shorter than its header")?;
        let size = 4 * self.words();
        let (count, rest) = (body.len() / size, body.len() % size);
        if rest > 0 {
            return Err(format!("it ends {rest} bytes behind its last whole {}", self.row()));
        }
        if count == 0 {
            return Err(format!("it has no {}", self.row()));
        }
        let header = self.header(count);
        if head != format!("{header:<width$}\n", width = HEADER_BYTES - 1).as_bytes() {
            let head = String::from_utf8_lossy(head);
            return Err(format!("its header is {head:?}, where its bytes ask for '{header}'"));
        }
        Ok(body.chunks(size).map(words).collect())
    }
}

fn words(row: &[u8]) -> Vec<u32> {
    let (words, _) = row.as_chunks();
    words.iter().map(|word| u32::from_le_bytes(*word)).collect()
}
