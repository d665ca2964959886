//! What several tests need.

use crate::folder::Folder;
use crate::format::Format;
use crate::settings::{Level, Settings};
use std::fs;
use std::path::PathBuf;
use std::sync::atomic::{AtomicUsize, Ordering};

pub const SETTINGS: Settings = Settings {
    seed: 0,
    rate: 48000,
    format: Format::Float32,
    aux: false,
    level: Level::Gain(0.0),
    fade: 0.0,
    longest: 24,
};

/// A folder of a test's own, removed with it.
pub struct Scratch(pub PathBuf);

impl Scratch {
    pub fn new(name: &str) -> Self {
        static FOLDERS: AtomicUsize = AtomicUsize::new(0);
        let number = FOLDERS.fetch_add(1, Ordering::Relaxed);
        let name = format!("bleidhvan-{name}-{}-{number}", std::process::id());
        let path = std::env::temp_dir().join(name);
        fs::create_dir_all(&path).expect("a folder is made");
        Scratch(path)
    }

    /// The folder as a run holds it.
    pub fn folder(&self) -> Folder {
        Folder::hold(&self.0, (PathBuf::new(), (0, 0))).expect("no other run holds it")
    }

    pub fn read(&self, name: &str) -> String {
        fs::read_to_string(self.0.join(name)).expect("the file is read")
    }
}

impl Drop for Scratch {
    fn drop(&mut self) {
        drop(fs::remove_dir_all(&self.0));
    }
}
