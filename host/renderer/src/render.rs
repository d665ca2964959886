//! A note rendered to a file, block by block through a bank of its own.

use crate::blocks::{Block, Blocks, SHORT};
use crate::levels::{Levels, QUIET, decibels};
use crate::note::{Fault, Note};
use crate::order::Order;
use crate::outcome::{Outcome, Rendered};
use crate::output::{Heard, Output};
use crate::pitch;
use crate::settings::{Level, Settings};
use crate::shape::Shape;
use crate::sheet::cell;
use crate::sndfile::Tags;
use crate::stop::Stop;
use bleidhvan::{Bank, Counts, Refusal};
use std::io;
use std::path::Path;

/// Why there is no file.
enum Failure {
    Refused(Refusal),
    Unwritten(io::Error),
    Stopped,
    /// A NaN is heard, and the blocks are long.
    Nan,
}

/// The seed of a note: the sheet's seed and the name, so that a note sounds the same wherever it stands in a sheet.
fn seed_of(seed: u32, name: &str) -> u32 {
    let step = |sum: u32, byte: u8| (sum ^ u32::from(byte)).wrapping_mul(16777619);
    seed.to_le_bytes().into_iter().chain(name.bytes()).fold(2166136261, step)
}

/// Renders a note to the file at the path, which has not its name yet.
pub fn render(
    order: &Order,
    note: &Note,
    settings: &Settings,
    path: &Path,
    stop: &Stop,
) -> Outcome {
    let rendering = Rendering { order, note, settings, stop };
    match rendering.file(path) {
        Ok(rendered) => Outcome::Rendered(Box::new(rendered)),
        // A NaN has many bits, and which of them are heard hangs on where the blocks end.
        Err(Failure::Nan) => {
            render(order, note, &Settings { longest: SHORT, ..*settings }, path, stop)
        }
        Err(Failure::Refused(refusal)) => {
            Outcome::Refused(Fault::refusal(refusal, &order.row, settings.rate))
        }
        Err(Failure::Unwritten(error)) => Outcome::unwritten(&error),
        Err(Failure::Stopped) => Outcome::NotRendered,
    }
}

struct Rendering<'a> {
    order: &'a Order,
    note: &'a Note,
    settings: &'a Settings,
    stop: &'a Stop,
}

impl Rendering<'_> {
    fn seed(&self) -> u32 {
        seed_of(self.settings.seed, self.order.name())
    }

    /// Plays frames as long as they are wanted, at least one block, also of a note of no frames.
    fn play(
        &self,
        frames: u64,
        mut block: impl FnMut(&[&[f32]], Counts) -> Result<bool, Failure>,
    ) -> Result<(), Failure> {
        let mut bank = Bank::new(self.seed());
        bank.open(0, self.note.kind, self.settings.rate as f32)?;
        let mut blocks = Blocks::new(bank, self.note, self.settings.longest);
        let mut done = 0;
        loop {
            if self.stop.is_asked() {
                return Err(Failure::Stopped);
            }
            let Block { out, aux, counts } = blocks.next(frames - done)?;
            let heard = &[out, aux][..self.settings.channels()];
            if self.settings.longest > SHORT && heard.iter().any(|channel| has_nan(channel)) {
                return Err(Failure::Nan);
            }
            done += out.len() as u64;
            if !block(heard, counts)? || done >= frames {
                return Ok(());
            }
        }
    }

    /// The frames of the note, and the decibels that it is raised by.
    fn measured(&self) -> Result<(u64, f64), Failure> {
        let (settings, most) = (self.settings, self.settings.frames(self.note));
        if !settings.is_measured(self.note) {
            let Level::Gain(gain) = settings.level else { return Ok((most, 0.0)) };
            return Ok((most, gain));
        }
        let mut levels = Levels::new(settings)?;
        let mut ring = Ring::new(settings.rate);
        let mut sound = Vec::new();
        self.play(most, |heard, _| {
            sound.clear();
            Shape::new(0.0, most, 0).add(heard, &mut sound);
            levels.add(&sound);
            Ok(self.note.seconds.is_some() || ring.goes_on(heard))
        })?;
        let frames = if self.note.seconds.is_some() { most } else { ring.frames().min(most) };
        let to = |target: f64, level: Option<f64>| level.map_or(0.0, |level| target - level);
        let decibels = match settings.level {
            Level::Gain(gain) => gain,
            Level::Peak(target) => to(target, decibels(levels.peak)),
            Level::Loudness(target) => to(target, levels.loudness()),
        };
        Ok((frames, decibels))
    }

    fn file(&self, path: &Path) -> Result<Rendered, Failure> {
        let (frames, decibels) = self.measured()?;
        let (seed, tags) = (self.seed(), self.tags());
        let mut output = Output::create(path, self.settings, frames, decibels, seed, &tags)?;
        let mut peak = 0_f32;
        let mut sum = [0_u64; 3];
        self.play(frames, |heard, Counts { burst, dust, dispersion }| {
            output.add(heard)?;
            peak = peak.max(magnitude(heard[0]));
            for (sum, words) in sum.iter_mut().zip([burst, dust, dispersion]) {
                *sum += words as u64;
            }
            Ok(true)
        })?;
        let Heard { whole, checksum, told, wave } = output.close()?;
        let [burst, dust, dispersion] = sum;
        let (wave, file) = (Some(wave), Some(whole));
        Ok(Rendered { frames, peak, burst, dust, dispersion, told, wave, checksum, file })
    }

    /// What the file says of itself.
    fn tags(&self) -> Tags {
        // The row and not its number, so that a row that moves in its sheet is the same file.
        let cells: Vec<String> =
            self.order.row.cells.iter().map(|text| cell(text.trim())).collect();
        let comment = format!("{}; seed {}", cells.join(","), self.settings.seed);
        let key = Some(pitch::key(self.note.hertz));
        Tags { title: self.order.name().into(), comment, key }
    }
}

/// Follows a note until it has died away: a second long no sample is within 90 dB of the highest so far.
struct Ring {
    hold: u64,
    peak: f32,
    frames: u64,
    heard: u64,
}

impl Ring {
    fn new(rate: u32) -> Self {
        Ring { hold: rate.into(), peak: 0.0, frames: 0, heard: 0 }
    }

    /// Whether the note rings on behind these samples.
    fn goes_on(&mut self, channels: &[&[f32]]) -> bool {
        let n = channels.first().map_or(0, |channel| channel.len());
        for channel in channels {
            self.peak = self.peak.max(magnitude(channel));
            let quiet = self.peak * QUIET;
            if let Some(last) = channel.iter().rposition(|sample| sample.abs() > quiet) {
                self.heard = self.heard.max(self.frames + last as u64 + 1);
            }
        }
        self.frames += n as u64;
        self.frames - self.heard < self.hold
    }

    /// The frames up to where it died away, in whole short blocks.
    fn frames(&self) -> u64 {
        self.heard.next_multiple_of(SHORT as u64)
    }
}

/// The highest magnitude, a NaN left out.
fn magnitude(samples: &[f32]) -> f32 {
    samples.iter().fold(0.0, |peak, sample| sample.abs().max(peak))
}

/// Whether a sample is a NaN; all are looked at, many at once.
fn has_nan(samples: &[f32]) -> bool {
    samples.iter().fold(false, |found, sample| found | sample.is_nan())
}

impl From<Refusal> for Failure {
    fn from(refusal: Refusal) -> Self {
        Failure::Refused(refusal)
    }
}

impl From<io::Error> for Failure {
    fn from(error: io::Error) -> Self {
        Failure::Unwritten(error)
    }
}
