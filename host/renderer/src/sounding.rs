//! What render and play make their files with, as options say it.

use crate::blocks::LONG;
use crate::format::Format;
use crate::settings::{Level, Settings};
use crate::words::{number, value, whole};
use lexopt::Parser;
use std::ffi::OsStr;

pub struct Sounding {
    pub settings: Settings,
    is_flac: Option<bool>,
    bits: Option<u32>,
    is_gained: bool,
    is_faded: bool,
}

impl Sounding {
    pub fn new() -> Self {
        let (format, level) = (Format::Float32, Level::Gain(0.0));
        let (rate, longest) = (48000, LONG);
        let settings = Settings { seed: 0, rate, format, aux: false, level, fade: 10.0, longest };
        Sounding { settings, is_flac: None, bits: None, is_gained: false, is_faded: false }
    }

    /// Takes an option.
    pub fn option(&mut self, option: &str, words: &mut Parser) -> Result<(), String> {
        let settings = &mut self.settings;
        match option {
            "--seed" => settings.seed = whole(option, "33", words, 0, u32::MAX)?,
            "--rate" => settings.rate = whole(option, "48000", words, 8000, 192000)?,
            "--format" => self.is_flac = Some(is_flac(&value(option, "wav", words)?)?),
            "--bits" => self.bits = Some(bits(&value(option, "24", words)?)?),
            "--gain" => {
                settings.level = Level::Gain(number(option, "-6", words, -100.0, 100.0)?);
                self.is_gained = true;
            }
            "--normalise" => settings.level = level(&value(option, "peak=-1", words)?)?,
            "--fade" => {
                settings.fade = number(option, "10", words, 0.0, 10000.0)?;
                self.is_faded = true;
            }
            "--aux" => settings.aux = true,
            _ => return Err(format!("{option} is no option: 'bleidhvan --help' lists them")),
        }
        if self.is_gained && !matches!(self.settings.level, Level::Gain(_)) {
            return Err("--gain and --normalise do not go together: write one of them".into());
        }
        Ok(())
    }

    /// Fades an end over so many milliseconds, unless --fade says how many.
    pub fn fade_unless_said(&mut self, milliseconds: f64) {
        if !self.is_faded {
            self.settings.fade = milliseconds;
        }
    }

    /// What --format says, if it is written.
    pub fn is_flac(&self) -> Option<bool> {
        self.is_flac
    }

    /// The format, by the options together and what it is without --format.
    pub fn settle(&mut self, is_flac: bool) -> Result<(), String> {
        let is_flac = self.is_flac.unwrap_or(is_flac);
        let bits = self.bits.unwrap_or(if is_flac { 24 } else { 32 });
        let format = Format::of(is_flac, bits);
        self.settings.format =
            format.ok_or("a FLAC file holds whole samples: write --bits 24 or --bits 16")?;
        let rate = self.settings.rate;
        if is_flac && rate > 65535 && !rate.is_multiple_of(10) {
            return Err(format!(
                "--rate is '{rate}', and in a FLAC file must be a multiple of 10 above 65535"
            ));
        }
        Ok(())
    }
}

fn is_flac(value: &OsStr) -> Result<bool, String> {
    match value.to_str() {
        Some("wav") => Ok(false),
        Some("flac") => Ok(true),
        _ => Err(format!("--format is '{}', and must be wav or flac", value.display())),
    }
}

fn bits(value: &OsStr) -> Result<u32, String> {
    let bits = value.to_str().and_then(|text| text.parse().ok());
    let bits = bits.filter(|bits| [32, 24, 16].contains(bits));
    bits.ok_or(format!("--bits is '{}', and must be 32, 24 or 16", value.display()))
}

fn level(value: &OsStr) -> Result<Level, String> {
    value.to_str().and_then(Level::read).ok_or(format!(
        "--normalise is '{}', and must be peak=DB or loudness=LUFS from -100 to 0, as peak=-1",
        value.display()
    ))
}
