//! SHA-256, of files and of what made them.

use sha2::{Digest, Sha256};
use std::fmt;
use std::fs::File;
use std::io::{self, Read};
use std::path::Path;

/// The sum of bytes.
#[derive(Debug, Clone, Copy, PartialEq, Eq)]
pub struct Checksum([u8; 32]);

/// The sum of bytes that come bit by bit.
#[derive(Clone, Default)]
pub struct Summing(Sha256);

impl Summing {
    pub fn add(&mut self, bytes: &[u8]) {
        self.0.update(bytes);
    }

    pub fn end(self) -> Checksum {
        Checksum(self.0.finalize().into())
    }
}

/// The sum of a file.
pub fn of_file(path: &Path) -> io::Result<Checksum> {
    let mut file = File::open(path)?;
    let mut sum = Summing::default();
    let mut block = vec![0; 1 << 16];
    loop {
        match file.read(&mut block)? {
            0 => return Ok(sum.end()),
            n => sum.add(&block[..n]),
        }
    }
}

impl Checksum {
    /// Reads a sum as it is written.
    pub fn read(text: &str) -> Option<Self> {
        let (pairs, rest) = text.as_bytes().as_chunks::<2>();
        let digit = |c: u8| char::from(c).to_digit(16);
        let bytes = pairs.iter().map(|[high, low]| Some((digit(*high)? << 4 | digit(*low)?) as u8));
        let bytes: Option<Vec<u8>> = bytes.collect();
        let bytes = bytes.filter(|_| rest.is_empty())?;
        bytes.try_into().ok().map(Checksum)
    }
}

impl fmt::Display for Checksum {
    fn fmt(&self, f: &mut fmt::Formatter<'_>) -> fmt::Result {
        self.0.iter().try_for_each(|byte| write!(f, "{byte:02x}"))
    }
}

#[cfg(test)]
mod tests {
    use super::{Checksum, Summing};

    #[test]
    fn the_sum_is_sha_256() {
        let mut sum = Summing::default();
        sum.add(b"a");
        sum.add(b"bc");
        let abc = "ba7816bf8f01cfea414140de5dae2223b00361a396177a9cb410ff61f20015ad";
        let sum = sum.end();
        assert_eq!(sum.to_string(), abc);
        assert!(Checksum::read(abc) == Some(sum));
        for wrong in ["", "ba", &abc[1..], &abc.replace('b', "g"), &format!("{abc}0")] {
            assert!(Checksum::read(wrong).is_none(), "{wrong}");
        }
    }
}
