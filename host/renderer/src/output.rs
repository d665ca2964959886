//! A note's file in the making, and what is heard of it.

use crate::checksum::Checksum;
use crate::levels::{Levels, Told};
use crate::part::Whole;
use crate::settings::Settings;
use crate::shape::{Dither, Shape};
use crate::sndfile::{Sound, Tags};
use crate::wave::Wave;
use std::io;
use std::path::Path;

pub struct Output {
    file: Sound,
    whole: Whole,
    settings: Settings,
    shape: Shape,
    dither: Option<Dither>,
    /// Samples that wait to be written, some thousand at a time.
    sound: Vec<f32>,
    levels: Levels,
    wave: Wave,
}

/// A file that is written, and what is heard of it.
pub struct Heard {
    pub whole: Whole,
    pub checksum: Checksum,
    pub told: Told,
    pub wave: Wave,
}

/// The samples that are written at a time.
const MANY: usize = 1 << 13;

impl Output {
    /// Begins a file of so many frames.
    pub fn create(
        path: &Path,
        settings: &Settings,
        frames: u64,
        decibels: f64,
        seed: u32,
        tags: &Tags,
    ) -> io::Result<Self> {
        let (file, whole) = Whole::create(path)?;
        let Settings { format, rate, .. } = *settings;
        Ok(Output {
            file: Sound::create(file, format, settings.channels(), rate, tags)?,
            whole,
            settings: *settings,
            shape: Shape::new(decibels, frames, settings.faded(frames)),
            dither: Dither::new(format, seed),
            sound: Vec::new(),
            levels: Levels::new(settings)?,
            wave: Wave::new(frames),
        })
    }

    /// Adds the voice's own samples.
    pub fn add(&mut self, channels: &[&[f32]]) -> io::Result<()> {
        self.shape.add(channels, &mut self.sound);
        if self.sound.len() >= MANY { self.write() } else { Ok(()) }
    }

    fn write(&mut self) -> io::Result<()> {
        let sound = std::mem::take(&mut self.sound);
        self.levels.add(&sound);
        let channels = self.settings.channels();
        let first = |samples: &[f32]| samples.iter().step_by(channels).copied().collect::<Vec<_>>();
        match &mut self.dither {
            None => {
                self.file.floats(&sound)?;
                self.wave.add(&first(&sound));
            }
            Some(dither) => {
                let wholes: Vec<i32> = sound.iter().map(|sample| dither.whole(*sample)).collect();
                self.file.wholes(&wholes)?;
                let heard: Vec<f32> = wholes.iter().map(|whole| dither.heard(*whole)).collect();
                self.wave.add(&first(&heard));
            }
        }
        self.sound = sound;
        self.sound.clear();
        Ok(())
    }

    /// Writes what is left, and closes the file.
    pub fn close(mut self) -> io::Result<Heard> {
        self.write()?;
        let Output { file, whole, settings, levels, wave, .. } = self;
        file.close()?;
        let checksum = whole.checksum()?;
        Ok(Heard { whole, checksum, told: levels.told(&settings), wave })
    }
}
