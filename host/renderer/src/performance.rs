//! A score played to its files, block by block.

use crate::levels::{Levels, decibels};
use crate::output::{Heard, Output};
use crate::player::{Answer, Player};
use crate::playing::{Playing, Tail};
use crate::progress::Progress;
use crate::score::Score;
use crate::settings::{Level, Settings};
use crate::shape::Shape;
use crate::sndfile::Tags;
use crate::stop::Stop;
use crate::tail::Dying;
use bleidhvan::Refusal;
use std::io;
use std::path::Path;

/// Why there is no piece.
pub enum Failure {
    /// A whole block was refused.
    Refused(Refusal),
    Unwritten(io::Error),
    Stopped,
}

pub struct Performance<'a> {
    pub score: &'a Score,
    pub asked: &'a Playing,
    pub stop: &'a Stop,
}

/// A piece whose files are whole and have not their names yet.
pub struct Performed {
    pub frames: u64,
    /// What became of each cue.
    pub answers: Vec<Answer>,
    pub files: Vec<Heard>,
}

impl Performance<'_> {
    fn settings(&self) -> &Settings {
        &self.asked.sounding.settings
    }

    /// The channels that are heard, in one file or in two.
    fn channels(&self) -> usize {
        if self.asked.aux.is_some() { 2 } else { self.settings().channels() }
    }

    /// The frames up to the last row, with its own, without which it would not be played.
    fn last(&self) -> u64 {
        self.score.cues.last().map_or(0, |cue| cue.frame + 1)
    }

    /// The most frames of the piece.
    fn most(&self) -> u64 {
        self.last() + self.asked.tail_frames().max(1) - 1
    }

    /// Plays frames as long as they are wanted.
    fn play(
        &self,
        frames: u64,
        mut block: impl FnMut(&[&[f32]]) -> Result<bool, Failure>,
    ) -> Result<Vec<Answer>, Failure> {
        let Settings { seed, rate, .. } = *self.settings();
        let mut player = Player::new(self.score, (seed, rate), frames, self.asked.block)?;
        while let Some(heard) = player.next()? {
            if self.stop.is_asked() {
                return Err(Failure::Stopped);
            }
            if !block(&heard[..self.channels()])? {
                break;
            }
        }
        Ok(player.answers())
    }

    /// The frames of the piece, and the decibels that it is raised by.
    fn measured(&self) -> Result<(u64, f64), Failure> {
        let (settings, most) = (self.settings(), self.most());
        if let (Tail::Seconds(_), Level::Gain(gain)) = (self.asked.tail, settings.level) {
            return Ok((most, gain));
        }
        let mut levels = Levels::new(&Settings { aux: self.channels() == 2, ..*settings })?;
        let mut dying = Dying::new(settings.rate, self.last());
        let (is_ring, mut sound) = (self.asked.tail == Tail::Ring, Vec::new());
        self.play(most, |heard| {
            let n = if is_ring { dying.follow(heard) } else { heard[0].len() };
            let wanted: Vec<&[f32]> = heard.iter().map(|channel| &channel[..n]).collect();
            sound.clear();
            Shape::new(0.0, most, 0).add(&wanted, &mut sound);
            levels.add(&sound);
            Ok(!dying.is_over)
        })?;
        let frames = if is_ring { dying.frames().min(most) } else { most };
        let to = |target: f64, level: Option<f64>| level.map_or(0.0, |level| target - level);
        let decibels = match settings.level {
            Level::Gain(gain) => gain,
            Level::Peak(target) => to(target, decibels(levels.peak)),
            Level::Loudness(target) => to(target, levels.loudness()),
        };
        Ok((frames, decibels))
    }

    /// Plays the piece to files at these paths: out with aux beside it, or each by itself.
    pub fn files(&self, paths: &[&Path], is_quiet: bool) -> Result<Performed, Failure> {
        let (frames, decibels) = self.measured()?;
        let mut outputs = Vec::new();
        let settings = self.settings();
        for (path, place) in paths.iter().zip(0..) {
            let seed = settings.seed.wrapping_add(place);
            outputs.push(Output::create(path, settings, frames, decibels, seed, &self.tags())?);
        }
        let rate = u64::from(self.settings().rate);
        let progress = Progress::new(is_quiet, frames.div_ceil(rate) as usize, "seconds");
        let mut done = 0;
        let answers = self.play(frames, |heard| {
            match &mut outputs[..] {
                [file] => file.add(heard)?,
                files => {
                    for (file, channel) in files.iter_mut().zip(heard) {
                        file.add(&[channel])?;
                    }
                }
            }
            done += heard[0].len() as u64;
            progress.reach(done.div_ceil(rate) as usize);
            Ok(true)
        });
        progress.end();
        let answers = answers?;
        let files = outputs.into_iter().map(Output::close).collect::<io::Result<_>>()?;
        Ok(Performed { frames, answers, files })
    }

    /// What a file says of itself: nothing of its name, so that a score is the same file under each.
    fn tags(&self) -> Tags {
        let (events, seed) = (self.score.cues.len(), self.settings().seed);
        let comment = format!("{events} events; seed {seed}");
        Tags { title: self.asked.title.clone(), comment, key: None }
    }
}

impl From<Refusal> for Failure {
    fn from(refusal: Refusal) -> Self {
        Failure::Refused(refusal)
    }
}

impl From<io::Error> for Failure {
    fn from(error: io::Error) -> Self {
        Failure::Unwritten(error)
    }
}
