//! Pictures of sixteen colours as PNG.

use crate::deflate::zlib;

/// The colours of a picture.
pub const SHADES: u8 = 16;

pub type Palette = [[u8; 3]; SHADES as usize];

/// The bytes of a file beside its rows.
const FRAME: usize = 180;

/// The most bytes of a picture.
pub const fn most(width: usize, height: usize) -> usize {
    FRAME + height * (1 + width.div_ceil(2))
}

/// A picture from its pixels, row by row, each the number of a colour.
pub fn png(width: usize, pixels: &[u8], palette: &Palette) -> Vec<u8> {
    let row = |pixels: &[u8]| -> Vec<u8> {
        let pairs = pixels.chunks(2).map(|pair| pair[0] << 4 | pair.get(1).unwrap_or(&0));
        // Zero: the row is as it is.
        [0].into_iter().chain(pairs).collect()
    };
    let rows: Vec<u8> = pixels.chunks(width).flat_map(row).collect();
    let size = [width, pixels.len() / width].map(|side| (side as u32).to_be_bytes()).concat();
    // Four bits a pixel, which is a place in the palette.
    let head = [&size[..], &[4, 3, 0, 0, 0]].concat();
    let mut out = b"\x89PNG\r\n\x1a\n".to_vec();
    chunk(&mut out, b"IHDR", &head);
    chunk(&mut out, b"PLTE", &palette.concat());
    chunk(&mut out, b"IDAT", &zlib(&rows, 1 + width.div_ceil(2)));
    chunk(&mut out, b"IEND", &[]);
    out
}

fn chunk(out: &mut Vec<u8>, kind: &[u8; 4], bytes: &[u8]) {
    out.extend((bytes.len() as u32).to_be_bytes());
    let begin = out.len();
    out.extend(kind);
    out.extend(bytes);
    let sum = checked(&out[begin..]);
    out.extend(sum.to_be_bytes());
}

/// The cyclic redundancy check of bytes.
fn checked(bytes: &[u8]) -> u32 {
    let turn = |sum: u32, _| if sum & 1 == 1 { 0xedb8_8320 ^ (sum >> 1) } else { sum >> 1 };
    !bytes.iter().fold(!0, |sum, byte| (0..8).fold(sum ^ u32::from(*byte), turn))
}

/// Bytes as letters, four for three.
pub fn letters(bytes: &[u8]) -> String {
    const LETTERS: &[u8; 64] = b"ABCDEFGHIJKLMNOPQRSTUVWXYZabcdefghijklmnopqrstuvwxyz0123456789+/";
    let mut out = String::new();
    for three in bytes.chunks(3) {
        let byte = |k: usize| u32::from(*three.get(k).unwrap_or(&0));
        let number = byte(0) << 16 | byte(1) << 8 | byte(2);
        for k in 0..4 {
            let letter = LETTERS[(number >> (18 - 6 * k) & 63) as usize];
            out.push(if k <= three.len() { letter.into() } else { '=' });
        }
    }
    out
}

#[cfg(test)]
mod tests {
    use super::{SHADES, checked, letters, most, png};
    use crate::chance::Chance;

    #[test]
    fn sums_and_letters_are_those_of_the_standards() {
        assert_eq!(checked(b"123456789"), 0xcbf4_3926);
        for (text, expected) in [("", ""), ("f", "Zg=="), ("fo", "Zm8="), ("foobar", "Zm9vYmFy")] {
            assert_eq!(letters(text.as_bytes()), expected);
        }
    }

    #[test]
    fn no_picture_is_longer_than_said() {
        let mut chance = Chance(3);
        let pixels: Vec<u8> = (0..7200).map(|_| chance.below(16) as u8).collect();
        let long = png(120, &pixels, &[[1, 2, 3]; SHADES as usize]);
        assert!(long.starts_with(b"\x89PNG") && long.len() <= most(120, 60), "{}", long.len());
        assert!(png(120, &[0; 7200], &[[0; 3]; SHADES as usize]).len() < 300);
    }
}
