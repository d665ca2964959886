//! Bytes as a zlib stream: runs and repeats of the row above are matches in the fixed code, and what is shorter as it is, is stored.

/// The longest match.
const LONGEST: usize = 258;

/// The most bytes of a block that is stored.
const MOST: usize = 65535;

/// Bits in the making, from the lowest.
#[derive(Default)]
struct Bits {
    bytes: Vec<u8>,
    held: u32,
    count: u32,
}

impl Bits {
    /// Adds a number of so many bits.
    fn number(&mut self, number: usize, bits: u32) {
        self.held |= (number as u32) << self.count;
        self.count += bits;
        while self.count >= 8 {
            self.bytes.push(self.held as u8);
            self.held >>= 8;
            self.count -= 8;
        }
    }

    /// Adds a word of the code, whose highest bit goes first.
    fn word(&mut self, word: usize, bits: u32) {
        self.number(word.reverse_bits() >> (usize::BITS - bits), bits);
    }

    /// Adds a symbol of the fixed code.
    fn symbol(&mut self, symbol: usize) {
        match symbol {
            0..144 => self.word(0x30 + symbol, 8),
            144..256 => self.word(0x190 + symbol - 144, 9),
            256..280 => self.word(symbol - 256, 7),
            _ => self.word(0xc0 + symbol - 280, 8),
        }
    }

    /// Adds a match.
    fn repeat(&mut self, length: usize, distance: usize) {
        match length - 3 {
            255 => self.symbol(285),
            more => {
                let extra = more.max(4).ilog2() - 2;
                self.symbol(257 + 4 * extra as usize + (more >> extra));
                self.number(more & ((1 << extra) - 1), extra);
            }
        }
        let more = distance - 1;
        let extra = more.max(2).ilog2() - 1;
        self.word(2 * extra as usize + (more >> extra), 5);
        self.number(more & ((1 << extra) - 1), extra);
    }

    fn end(mut self) -> Vec<u8> {
        self.symbol(256);
        self.number(0, 7);
        self.bytes
    }
}

/// The bytes as one block of the fixed code.
fn coded(bytes: &[u8], row: usize) -> Vec<u8> {
    let mut bits = Bits::default();
    bits.number(1, 1);
    bits.number(1, 2);
    let mut place = 0;
    while place < bytes.len() {
        let length = |distance: usize| {
            let Some(from) = place.checked_sub(distance) else { return 0 };
            let same = bytes[place..].iter().zip(&bytes[from..]).take(LONGEST);
            same.take_while(|(here, there)| here == there).count()
        };
        let (length, distance) = [1, row]
            .map(|distance| (length(distance), distance))
            .into_iter()
            .max()
            .unwrap_or_default();
        if length < 3 {
            bits.symbol(bytes[place].into());
            place += 1;
        } else {
            bits.repeat(length, distance);
            place += length;
        }
    }
    bits.end()
}

/// The bytes as blocks that are stored.
fn stored(bytes: &[u8]) -> Vec<u8> {
    let mut out = Vec::new();
    for (k, block) in bytes.chunks(MOST).enumerate() {
        out.push(((k + 1) * MOST >= bytes.len()).into());
        out.extend((block.len() as u16).to_le_bytes());
        out.extend((!(block.len() as u16)).to_le_bytes());
        out.extend(block);
    }
    out
}

/// The stream of bytes whose rows have so many.
pub fn zlib(bytes: &[u8], row: usize) -> Vec<u8> {
    let (coded, stored) = (coded(bytes, row), stored(bytes));
    let mut out = vec![0x78, 0x01];
    out.extend(if coded.len() < stored.len() { coded } else { stored });
    let [mut a, mut b] = [1_u32, 0];
    for byte in bytes {
        a = (a + u32::from(*byte)) % 65521;
        b = (b + a) % 65521;
    }
    out.extend((b << 16 | a).to_be_bytes());
    out
}

#[cfg(test)]
mod tests {
    use super::zlib;
    use crate::chance::Chance;
    use std::io::Write;
    use std::process::{Command, Stdio};

    /// What Python makes of a stream.
    fn read(stream: &[u8]) -> Vec<u8> {
        let script =
            "import sys, zlib; sys.stdout.buffer.write(zlib.decompress(sys.stdin.buffer.read()))";
        let mut command = Command::new("python3");
        command.args(["-c", script]).stdin(Stdio::piped()).stdout(Stdio::piped());
        let mut child = command.spawn().expect("python3 runs");
        child.stdin.take().expect("a pipe").write_all(stream).expect("it is written");
        child.wait_with_output().expect("python3 ends").stdout
    }

    #[test]
    fn a_stream_is_read_back_and_no_longer_than_it_is_stored() {
        let mut chance = Chance(1);
        let cases = [(1, 1), (2, 3), (61, 1), (61, 2), (61, 16), (61, 256), (4096, 5)];
        for (row, values) in cases {
            let rows = 1 + chance.below(80) as usize;
            let mut bytes: Vec<u8> = (0..row * rows).map(|_| chance.below(values) as u8).collect();
            bytes.extend([7; 700]);
            let stream = zlib(&bytes, row);
            assert!(stream.len() <= bytes.len() + 6 + 5 * bytes.len().div_ceil(65535));
            assert!(read(&stream) == bytes, "{row} {values}");
        }
        assert!(zlib(&[0; 3660], 61).len() < 60);
    }
}
