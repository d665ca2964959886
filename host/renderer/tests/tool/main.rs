//! The tool, run as a user runs it.

mod command;
mod disk;
mod faults;
mod folder;
mod notes;
mod play;
mod run;
mod sheets;
mod sound;
mod wave;
