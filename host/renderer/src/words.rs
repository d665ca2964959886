//! The values of options.

use lexopt::Parser;
use std::ffi::OsString;

/// The value of an option, or an example of one.
pub fn value(option: &str, example: &str, words: &mut Parser) -> Result<OsString, String> {
    words.value().map_err(|_| format!("{option} needs a value: {option} {example}"))
}

pub fn jobs(option: &str, words: &mut Parser) -> Result<usize, String> {
    Ok(whole(option, "4", words, 1, 256)? as usize)
}

pub fn whole(
    option: &str,
    example: &str,
    words: &mut Parser,
    low: u32,
    high: u32,
) -> Result<u32, String> {
    let value = value(option, example, words)?;
    let number = value.to_str().and_then(|text| text.parse().ok());
    let number = number.filter(|n| (low..=high).contains(n));
    let text = value.display();
    number.ok_or(format!("{option} is '{text}', and must be a whole number from {low} to {high}"))
}

pub fn number(
    option: &str,
    example: &str,
    words: &mut Parser,
    low: f64,
    high: f64,
) -> Result<f64, String> {
    let value = value(option, example, words)?;
    let number = value.to_str().and_then(|text| text.parse().ok());
    let number = number.filter(|n| (low..=high).contains(n));
    let text = value.display();
    number.ok_or(format!("{option} is '{text}', and must be a number from {low} to {high}"))
}
