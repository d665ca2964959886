//! What is compared bit for bit.

use record::draws::canonical;
use std::fmt::Debug;

pub fn same<T: PartialEq + Debug>(what: &str, ours: T, theirs: T) -> Result<(), String> {
    match ours == theirs {
        true => Ok(()),
        false => Err(format!("{what} differs: {ours:?} here, {theirs:?} there")),
    }
}

pub fn same_words(what: &str, ours: &[u32], theirs: &[u32]) -> Result<(), String> {
    same(&format!("the count of each {what}"), ours.len(), theirs.len())?;
    match ours.iter().zip(theirs).position(|(a, b)| a != b) {
        None => Ok(()),
        Some(k) => {
            let [a, b] = [ours[k], theirs[k]];
            Err(format!("{what} {k} differs: {a:#010x} here, {b:#010x} there"))
        }
    }
}

/// Two NaNs are equal.
pub fn same_floats(what: &str, ours: &[f32], theirs: &[f32]) -> Result<(), String> {
    let words = |floats: &[f32]| -> Vec<u32> { floats.iter().copied().map(canonical).collect() };
    same_words(what, &words(ours), &words(theirs))
}

/// temp, temp_2, out and aux.
pub fn same_buffers(ours: &[Vec<f32>; 4], theirs: &[Vec<f32>; 4]) -> Result<(), String> {
    let names = ["sample of temp", "sample of temp_2", "sample of out", "sample of aux"];
    let pairs = ours.iter().zip(theirs);
    names.iter().zip(pairs).try_for_each(|(name, (ours, theirs))| same_floats(name, ours, theirs))
}
