//! A bank as a file: a magic word, the version of the layout, the bank, its generator and line memory, and a checksum.

use crate::bank::Bank;
use crate::raw;
use std::fmt;
use std::fs;
use std::io;
use std::path::Path;

const MAGIC: [u8; 8] = *b"bleidhvn";

/// The version of the bank's layout in docs/ABI.md.
const VERSION: u32 = 1;

/// Why a file is not a bank that can be loaded.
#[derive(Debug)]
pub enum LoadError {
    /// The file cannot be read.
    Unreadable(io::Error),
    /// The file does not begin as a saved bank does.
    NotABank,
    /// The bank was saved with another layout.
    Version(u32),
    /// The file has another length than a saved bank.
    Length(usize),
    /// The bytes are not those that were saved.
    Checksum,
}

impl fmt::Display for LoadError {
    fn fmt(&self, f: &mut fmt::Formatter<'_>) -> fmt::Result {
        match self {
            LoadError::Unreadable(error) => write!(f, "the file cannot be read: {error}"),
            LoadError::NotABank => write!(f, "the file is not a saved bank"),
            LoadError::Version(version) => {
                write!(f, "the bank has layout {version}, and this is for layout {VERSION}")
            }
            LoadError::Length(length) => {
                write!(f, "the file has {length} bytes, where a saved bank has {}", saved_bytes())
            }
            LoadError::Checksum => write!(f, "the file was changed since it was saved"),
        }
    }
}

impl std::error::Error for LoadError {}

/// The bytes before the bank: magic, version and the generator's word.
const HEAD: usize = 16;

/// The bytes of the checksum, which come last.
const SUM: usize = 8;

fn saved_bytes() -> usize {
    HEAD + raw::bank_bytes() + 4 * raw::LINES + SUM
}

/// FNV-1a over 64 bits.
fn checksum(bytes: &[u8]) -> u64 {
    let step = |sum: u64, byte: &u8| (sum ^ u64::from(*byte)).wrapping_mul(0x100_0000_01b3);
    bytes.iter().fold(0xcbf2_9ce4_8422_2325, step)
}

impl Bank {
    /// The bytes of a file that [`Bank::from_saved`] reads.
    pub fn to_saved(&self) -> Vec<u8> {
        let mut bytes = MAGIC.to_vec();
        bytes.extend(VERSION.to_le_bytes());
        bytes.extend(self.word.to_le_bytes());
        bytes.extend(&self.bytes);
        bytes.extend(self.lines.iter().flat_map(|number| number.to_le_bytes()));
        bytes.extend(checksum(&bytes).to_le_bytes());
        bytes
    }

    /// The bank of such bytes, or what is wrong with them.
    ///
    /// ```
    /// # use bleidhvan::{Bank, LoadError};
    /// let mut saved = Bank::new(33).to_saved();
    /// assert_eq!(Bank::from_saved(&saved)?.word(), 33);
    /// saved[20] ^= 1;
    /// assert!(matches!(Bank::from_saved(&saved), Err(LoadError::Checksum)));
    /// # Ok::<(), LoadError>(())
    /// ```
    pub fn from_saved(bytes: &[u8]) -> Result<Self, LoadError> {
        let Some(rest) = bytes.strip_prefix(&MAGIC) else { return Err(LoadError::NotABank) };
        let word_at = |k: usize| -> Option<u32> {
            let word = rest.get(4 * k..4 * k + 4)?;
            Some(u32::from_le_bytes(word.try_into().ok()?))
        };
        match word_at(0) {
            Some(VERSION) => (),
            Some(version) => return Err(LoadError::Version(version)),
            None => return Err(LoadError::NotABank),
        }
        if bytes.len() != saved_bytes() {
            return Err(LoadError::Length(bytes.len()));
        }
        let (body, sum) = bytes.split_at(bytes.len() - SUM);
        if checksum(body).to_le_bytes() != sum {
            return Err(LoadError::Checksum);
        }
        let (bank, lines) = body[HEAD..].split_at(raw::bank_bytes());
        let (lines, _) = lines.as_chunks();
        Ok(Bank {
            bytes: bank.to_vec(),
            lines: lines.iter().map(|number| f32::from_le_bytes(*number)).collect(),
            word: word_at(1).ok_or(LoadError::NotABank)?,
        })
    }

    /// Writes the bank to a file, whole or not at all.
    pub fn save(&self, path: impl AsRef<Path>) -> io::Result<()> {
        let path = path.as_ref();
        let mut name = path.file_name().ok_or(io::ErrorKind::InvalidInput)?.to_os_string();
        name.push(".part");
        let part = path.with_file_name(name);
        fs::write(&part, self.to_saved())
            .and_then(|()| fs::rename(&part, path))
            .inspect_err(|_| drop(fs::remove_file(&part)))
    }

    /// Reads a bank from a file, or says what is wrong with it.
    pub fn load(path: impl AsRef<Path>) -> Result<Self, LoadError> {
        Bank::from_saved(&fs::read(path).map_err(LoadError::Unreadable)?)
    }
}
