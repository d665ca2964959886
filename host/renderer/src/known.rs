//! What earlier runs wrote to a folder, as their catalogues say.

use crate::catalogue::{self, Listed};
use crate::checksum::{self, Checksum};
use crate::folder::{Folder, identity};
use crate::lines::Lines;
use crate::name::key;
use crate::outcome::Rendered;
use crate::settings::Settings;
use crate::sndfile::Sound;
use crate::stop::Stop;
use crate::wave::Wave;
use std::collections::HashMap;
use std::fs::{self, File};
use std::io;
use std::path::Path;

/// The files that earlier runs wrote, each with what the catalogues list of it.
#[derive(Default)]
pub struct Known {
    files: HashMap<String, Vec<Listed>>,
}

/// What became of the files that this run did not order.
#[derive(Default)]
pub struct Stale {
    pub removed: usize,
    /// Those that are not as they were rendered, which are left.
    pub left: Vec<String>,
}

impl Known {
    /// Reads a catalogue, or what a run that was cut off wrote of one.
    pub fn read(&mut self, text: &[u8]) {
        for (_, line) in Lines::new(text) {
            if let Some((file, listed)) = catalogue::listed(line) {
                let known = self.files.entry(file).or_default();
                known.extend(listed);
            }
        }
    }

    /// Whether an earlier run wrote a file of this name, or one that is the same to the file system.
    pub fn has(&self, file: &str) -> bool {
        self.files.contains_key(file) || {
            let same = key(file);
            self.files.keys().any(|known| key(known) == same)
        }
    }

    /// What is listed of a file that was made by this.
    fn listed(&self, file: &str, made: Checksum) -> Option<&Listed> {
        self.files.get(file)?.iter().rfind(|listed| listed.made == made)
    }

    /// A note that an earlier run made by the same, if its file is still what was rendered.
    pub fn kept(
        &self,
        folder: &Folder,
        file: &str,
        made: Checksum,
        settings: &Settings,
        stop: &Stop,
    ) -> Option<Rendered> {
        let listed = self.listed(file, made)?;
        let path = folder.file(file);
        if checksum::of_file(&path).ok()? != listed.checksum {
            return None;
        }
        let wave = heard(&path, listed.frames, settings, stop).ok()??;
        Some(listed.rendered(Some(wave)))
    }

    /// A note that an earlier run made by the same, and whose file a stopped run has no time to look into.
    pub fn unread(&self, folder: &Folder, file: &str, made: Checksum) -> Option<Rendered> {
        let listed = self.listed(file, made)?;
        folder.file(file).is_file().then(|| listed.rendered(None))
    }

    /// Removes the files of earlier runs that this one did not render or keep, where they are as they were rendered.
    pub fn remove_stale(&self, folder: &Folder, here: &HashMap<String, String>) -> Stale {
        let mut stale = Stale::default();
        for (file, listed) in &self.files {
            let path = folder.file(file);
            // To some file systems the file is this run's by another spelling of its name.
            let is_here = here.get(&key(file)).is_some_and(|name| {
                name == file || identity(&folder.file(name)) == identity(&path)
            });
            if is_here || fs::symlink_metadata(&path).is_err() {
                continue;
            }
            let is_ours = !folder.is_sheet(&path)
                && checksum::of_file(&path)
                    .is_ok_and(|sum| listed.iter().any(|l| l.checksum == sum));
            if is_ours && fs::remove_file(&path).is_ok() {
                stale.removed += 1;
            } else {
                stale.left.push(file.clone());
            }
        }
        stale.left.sort();
        stale
    }
}

/// The waveform of a note's file of so many frames, none where the run is stopped.
fn heard(path: &Path, frames: u64, settings: &Settings, stop: &Stop) -> io::Result<Option<Wave>> {
    let channels = settings.channels();
    let mut wave = Wave::new(frames);
    if frames == 0 {
        return Ok(Some(wave));
    }
    let mut sound = Sound::read(File::open(path)?, settings.format, channels)?;
    let mut left = frames as usize;
    while left > 0 {
        let samples = sound.next(left.min(1 << 13));
        if samples.is_empty() || stop.is_asked() {
            return Ok(None);
        }
        let first: Vec<f32> = samples.iter().step_by(channels).copied().collect();
        left -= first.len();
        wave.add(&first);
    }
    Ok(Some(wave))
}
