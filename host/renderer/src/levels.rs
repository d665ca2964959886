//! The levels of a note as its file has it: peak, loudness, silence, and what of it warns.

use crate::loudness::Meter;
use crate::settings::{Level, Settings};
use std::io;

/// What is quieter than 90 dB below full scale, and how much quieter an end must be than its peak.
pub const QUIET: f32 = 3.1622777e-5;

/// Levels in the making.
pub struct Levels {
    meter: Meter,
    channels: usize,
    pub peak: f32,
    clipped: u64,
    /// Samples that are infinite or NaN.
    no_numbers: u64,
    frames: u64,
    /// The frame behind the last that is heard.
    heard: u64,
}

/// Levels as the catalogue has them.
#[derive(Debug, Clone, Default, PartialEq)]
pub struct Told {
    /// dBFS; nothing of silence.
    pub peak: String,
    /// LUFS; nothing of silence and of less than 0.4 seconds.
    pub loudness: String,
    /// The seconds at the end that are below -90 dBFS.
    pub silent: String,
    /// What to look at, and what to do about it.
    pub warning: String,
}

impl Levels {
    pub fn new(settings: &Settings) -> io::Result<Self> {
        let channels = settings.channels();
        let meter = Meter::new(channels, settings.rate)?;
        Ok(Levels { meter, channels, peak: 0.0, clipped: 0, no_numbers: 0, frames: 0, heard: 0 })
    }

    /// Adds frames, the channels side by side.
    pub fn add(&mut self, sound: &[f32]) {
        self.meter.add(sound);
        let peak = sound.iter().fold(0.0, |peak: f32, sample| peak.max(sample.abs()));
        self.peak = self.peak.max(peak);
        let has_nan = sound.iter().fold(false, |found, sample| found | sample.is_nan());
        if has_nan || peak == f32::INFINITY {
            self.no_numbers += sound.iter().filter(|sample| !sample.is_finite()).count() as u64;
        }
        if peak > 1.0 {
            self.clipped += sound.iter().filter(|sample| sample.abs() > 1.0).count() as u64;
        }
        if peak > QUIET
            && let Some(last) = sound.iter().rposition(|sample| sample.abs() > QUIET)
        {
            self.heard = self.frames + (last / self.channels) as u64 + 1;
        }
        self.frames += (sound.len() / self.channels) as u64;
    }

    pub fn loudness(&self) -> Option<f64> {
        self.meter.loudness()
    }

    /// What the catalogue has of them.
    pub fn told(&self, settings: &Settings) -> Told {
        let decibels = decibels(self.peak);
        let silent = (self.frames - self.heard) as f64 / f64::from(settings.rate);
        Told {
            peak: decibels.map_or(String::new(), |decibels| format!("{decibels:.2}")),
            loudness: self.loudness().map_or(String::new(), |lufs| format!("{lufs:.1}")),
            silent: format!("{silent:.3}"),
            warning: self.warning(settings),
        }
    }

    fn warning(&self, settings: &Settings) -> String {
        if self.frames == 0 {
            return "it is empty: write more than 0 in seconds".into();
        }
        if self.no_numbers > 0 {
            let samples = self.no_numbers;
            return format!(
                "{samples} samples are no numbers: write less damping or fewer seconds"
            );
        }
        let Some(decibels) = decibels(self.peak) else {
            return "it is digital silence: try more accent, brightness or seconds".into();
        };
        if self.clipped > 0 && settings.format.bits().is_some() {
            let (clipped, over) = (self.clipped, (decibels * 10.0).ceil() / 10.0);
            let lower = match settings.level {
                Level::Gain(gain) => format!("--gain {:.1}", gain - over),
                Level::Peak(peak) => format!("--normalise peak={:.1}", peak - over),
                Level::Loudness(lufs) => format!("--normalise loudness={:.1}", lufs - over),
            };
            return format!(
                "{clipped} samples clip: write {lower}, --normalise peak=-1 or --bits 32"
            );
        }
        if matches!(settings.level, Level::Loudness(_)) && self.loudness().is_none() {
            return "its loudness cannot be measured, and is left: write 0.4 seconds or more, or --normalise peak=-1".into();
        }
        String::new()
    }
}

/// Decibels of a magnitude; none of silence and of what is no number.
pub fn decibels(magnitude: f32) -> Option<f64> {
    let decibels = 20.0 * f64::from(magnitude).log10();
    decibels.is_finite().then_some(decibels)
}
