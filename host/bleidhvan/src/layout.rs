//! The bytes of a bank, read by docs/ABI.md.

use crate::raw::SLOT_BYTES;

/// The NaN that stands for every NaN.
const NAN: u32 = 0x7fc0_0000;

/// The words of a slot's bytes that are numbers and not floats: the kind, the write places of the string line and of the stretch
/// line, and what is left of the burst.
pub const NUMBERS: [usize; 4] = [KIND, STRING, STRETCH, LEFT];

const KIND: usize = 0;
const STRING: usize = 6;
const STRETCH: usize = 7;
const DELAY: usize = 16;
const LEFT: usize = 23;

/// The place of the flag behind the words.
const HELD: usize = SLOT_BYTES - 1;

/// The bytes of a slot of the bank.
pub fn slot_bytes(bank: &[u8], slot: usize) -> &[u8] {
    &bank[SLOT_BYTES * slot..][..SLOT_BYTES]
}

/// The word at a place of a slot's bytes, every NaN as one word.
fn word(slot: &[u8], place: usize) -> u32 {
    let bytes = slot[4 * place..][..4].try_into().expect("four bytes");
    let word = u32::from_le_bytes(bytes);
    let is_nan = f32::from_bits(word).is_nan() && !NUMBERS.contains(&place);
    if is_nan { NAN } else { word }
}

/// The write place of a slot's string line, which moves with every step of the string.
pub fn string_place(slot: &[u8]) -> u32 {
    word(slot, STRING)
}

/// The bits of a slot's string delay.
pub fn delay(slot: &[u8]) -> u32 {
    word(slot, DELAY)
}

/// A slot's record in the order of docs/RECORD.md.
pub fn record(slot: &[u8]) -> Vec<u32> {
    let words = |from: usize, to: usize| (from..to).map(|place| word(slot, place));
    let mut record: Vec<u32> = NUMBERS.map(|place| word(slot, place)).into();
    record.extend(words(1, STRING));
    record.extend(words(STRETCH + 1, LEFT));
    record.push(slot[HELD].into());
    record.extend(words(26, 50));
    record.extend(words(24, 26));
    for batch in 0..6 {
        let first = 50 + 8 * batch;
        record.extend((0..4).map(|mode| word(slot, first + 2 * mode)));
        record.extend((0..4).map(|mode| word(slot, first + 2 * mode + 1)));
    }
    record
}
