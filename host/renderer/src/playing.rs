//! The command line of play.

use crate::blocks::SHORT;
use crate::command::{Command, Word, next};
use crate::note::{MOST_SECONDS, RING_SECONDS};
use crate::sounding::Sounding;
use crate::time::Meter;
use crate::words::{jobs, number, value, whole};
use lexopt::Parser;
use std::ffi::{OsStr, OsString};
use std::path::{Path, PathBuf};

/// The most frames of a block.
pub const BLOCK: usize = 4096;

/// The seconds behind the last row where none are asked for.
const TAIL: f64 = 4.0;

/// The shortest and the longest fade in milliseconds where none is asked for.
const FADES: [f64; 2] = [10.0, 10000.0];

/// What a score is played with.
pub struct Playing {
    pub score: PathBuf,
    pub piece: PathBuf,
    /// The file of the aux output, where it is one of its own.
    pub aux: Option<PathBuf>,
    pub title: String,
    pub sounding: Sounding,
    pub meter: Meter,
    pub tail: Tail,
    /// The most frames that are handed to the bank at once.
    pub block: usize,
    pub is_forced: bool,
    pub is_quiet: bool,
}

/// How long a piece goes on behind its last row.
#[derive(Debug, Clone, Copy, PartialEq)]
pub enum Tail {
    Seconds(f64),
    /// Until it has died away.
    Ring,
}

const USAGE: &str = "write 'bleidhvan play SCORE -o PIECE.wav'";

/// Reads the words behind the command.
pub fn read(mut words: Parser) -> Result<Command, String> {
    let mut asked = Playing::new();
    loop {
        match next(&mut words) {
            Ok(None) => break,
            Ok(Some(Word::Option(name))) => asked.option(&name, &mut words)?,
            Ok(Some(Word::Value(score))) => asked.score(score)?,
            Err(other) => return other,
        }
    }
    asked.settle()?;
    Ok(Command::Play(Box::new(asked)))
}

impl Playing {
    fn new() -> Self {
        Playing {
            score: PathBuf::new(),
            piece: PathBuf::new(),
            aux: None,
            title: String::new(),
            sounding: Sounding::new(),
            meter: Meter { tempo: None, beats: 4 },
            tail: Tail::Seconds(TAIL),
            block: BLOCK,
            is_forced: false,
            is_quiet: false,
        }
    }

    fn score(&mut self, score: OsString) -> Result<(), String> {
        if !self.score.as_os_str().is_empty() {
            let score = score.display();
            return Err(format!("'{score}' is one score too many: play one at a time"));
        }
        self.score = score.into();
        Ok(())
    }

    fn option(&mut self, option: &str, words: &mut Parser) -> Result<(), String> {
        match option {
            "-o" | "--output" => self.piece = value(option, "PIECE.wav", words)?.into(),
            "--aux-output" => self.aux = Some(value(option, "AUX.wav", words)?.into()),
            "--title" => self.title = title(&value(option, "'Small hours'", words)?)?,
            "--tempo" => self.meter.tempo = Some(number(option, "72", words, 1.0, 1000.0)?),
            "--beats" => self.meter.beats = whole(option, "4", words, 1, 64)?,
            "--tail" => self.tail = tail(&value(option, "4", words)?)?,
            "--block" => {
                self.block = whole(option, "512", words, SHORT as u32, BLOCK as u32)? as usize;
            }
            // One piece is one job.
            "-j" | "--jobs" => drop(jobs(option, words)?),
            "--force" => self.is_forced = true,
            "-q" | "--quiet" => self.is_quiet = true,
            "--first-line" | "--piece" | "--again" => {
                return Err(format!("{option} is no option of play"));
            }
            _ => self.sounding.option(option, words)?,
        }
        Ok(())
    }

    /// What the words come to together.
    fn settle(&mut self) -> Result<(), String> {
        if self.score.as_os_str().is_empty() {
            return Err(format!("no score is named: {USAGE}"));
        }
        if self.piece.as_os_str().is_empty() {
            return Err("no piece is named: write '-o PIECE.wav' behind the score".into());
        }
        if self.aux.is_some() && self.sounding.settings.aux {
            return Err("--aux and --aux-output do not go together: write one of them".into());
        }
        let is_flac = self.is_flac("-o", &self.piece)?;
        if let Some(aux) = &self.aux {
            if *aux == self.piece {
                return Err("--aux-output names the piece itself: name another file".into());
            }
            if aux.parent() != self.piece.parent() {
                return Err("--aux-output must lie in the folder of the piece".into());
            }
            if self.is_flac("--aux-output", aux)? != is_flac {
                return Err("-o and --aux-output must end alike, in .wav or .flac".into());
            }
        }
        // The music up to the last row is left as it is.
        let half = match self.tail {
            Tail::Seconds(seconds) => seconds * 500.0,
            Tail::Ring => 0.0,
        };
        self.sounding.fade_unless_said(half.clamp(FADES[0], FADES[1]));
        self.sounding.settle(is_flac)
    }

    /// Whether a file is FLAC by its name's ending.
    fn is_flac(&self, option: &str, path: &Path) -> Result<bool, String> {
        let ending = path.extension().and_then(|ending| ending.to_str());
        let shown = path.display();
        let is_flac = match ending.map(str::to_ascii_lowercase).as_deref() {
            Some("wav") => false,
            Some("flac") => true,
            _ => return Err(format!("{option} is '{shown}', and must end in .wav or .flac")),
        };
        let [ending, format] = if is_flac { [".flac", "wav"] } else { [".wav", "flac"] };
        match self.sounding.is_flac() {
            Some(asked) if asked != is_flac => Err(format!(
                "{shown} ends in {ending}, and --format is {format}: let them agree, or leave --format out"
            )),
            _ => Ok(is_flac),
        }
    }

    /// The most frames behind the last row.
    pub fn tail_frames(&self) -> u64 {
        let seconds = match self.tail {
            Tail::Seconds(seconds) => seconds,
            Tail::Ring => RING_SECONDS,
        };
        (seconds * f64::from(self.sounding.settings.rate)).round() as u64
    }
}

fn title(value: &OsStr) -> Result<String, String> {
    let title =
        value.to_str().filter(|title| title.len() <= 100 && !title.contains(char::is_control));
    title.map(str::to_string).ok_or(format!(
        "--title is '{}', and must be up to 100 bytes of text on one line",
        value.display()
    ))
}

fn tail(value: &OsStr) -> Result<Tail, String> {
    let text = value.to_str().unwrap_or_default();
    if text == "ring" {
        return Ok(Tail::Ring);
    }
    let seconds = text.parse().ok().filter(|seconds| (0.0..=MOST_SECONDS).contains(seconds));
    seconds.map(Tail::Seconds).ok_or(format!(
        "--tail is '{}', and must be a number of seconds from 0 to 3600, or ring",
        value.display()
    ))
}

#[cfg(test)]
mod tests {
    use super::{Playing, Tail};
    use crate::command::{Command, read};
    use crate::format::Format;
    use std::ffi::OsString;
    use std::path::Path;

    fn asked(words: &str) -> Result<Box<Playing>, String> {
        match read(words.split(' ').map(OsString::from).collect())? {
            Command::Play(asked) => Ok(asked),
            _ => Err("no piece".into()),
        }
    }

    #[test]
    fn options_are_read_and_the_ending_says_the_format() {
        let words = "play a.csv -o b.flac --tempo 72 --beats=3 --tail 2.5 --block 24 -j3 --seed=7";
        let asked = asked(words).expect("a piece");
        assert_eq!([&asked.score, &asked.piece], [Path::new("a.csv"), Path::new("b.flac")]);
        assert_eq!((asked.meter.tempo, asked.meter.beats), (Some(72.0), 3));
        assert_eq!((asked.tail, asked.block), (Tail::Seconds(2.5), 24));
        let settings = asked.sounding.settings;
        assert_eq!((settings.seed, settings.format), (7, Format::Flac24));
    }

    #[test]
    fn an_end_is_faded_over_half_the_tail_unless_it_is_said() {
        let cases = [
            ("", 2000.0),
            (" --tail 0", 10.0),
            (" --tail 100", 10000.0),
            (" --tail ring", 10.0),
            (" --tail 1 --fade 0", 0.0),
            (" --fade 700", 700.0),
        ];
        for (words, fade) in cases {
            let asked = asked(&format!("play a.csv -o b.wav{words}")).expect(words);
            assert_eq!(asked.sounding.settings.fade, fade, "{words}");
        }
    }

    #[test]
    fn a_wrong_word_says_what_to_write() {
        let cases = [
            ("play", "no score is named: write 'bleidhvan play SCORE -o PIECE.wav'"),
            ("play a.csv", "no piece is named: write '-o PIECE.wav' behind the score"),
            ("play a.csv b.csv -o c.wav", "'b.csv' is one score too many"),
            ("play a.csv -o b.mp3", "-o is 'b.mp3', and must end in .wav or .flac"),
            ("play a.csv -o b", "-o is 'b', and must end in .wav or .flac"),
            ("play a.csv -o b.wav --format flac", "b.wav ends in .wav, and --format is flac"),
            ("play a.csv -o b.flac --format wav", "b.flac ends in .flac, and --format is wav"),
            ("play a.csv -o b.flac --bits 32", "a FLAC file holds whole samples"),
            ("play a.csv -o b.wav --aux --aux-output c.wav", "--aux and --aux-output do not"),
            ("play a.csv -o b.wav --aux-output b.wav", "--aux-output names the piece itself"),
            ("play a.csv -o b.wav --aux-output d/c.wav", "--aux-output must lie in the folder of"),
            ("play a.csv -o b.wav --aux-output c.flac", "-o and --aux-output must end alike"),
            ("play a.csv -o b.wav --tempo 0", "--tempo is '0', and must be a number from 1"),
            ("play a.csv -o b.wav --block 23", "--block is '23', and must be a whole number from"),
            ("play a.csv -o b.wav --block 4097", "--block is '4097', and must be a whole number"),
            ("play a.csv -o b.wav --tail long", "--tail is 'long', and must be a number of"),
            ("play a.csv -o b.wav --tail -1", "--tail is '-1', and must be a number of"),
            ("play a.csv -o b.wav --jobs 0", "--jobs is '0', and must be a whole number from 1"),
            ("play a.csv -o b.wav --first-line 3", "--first-line is no option of play"),
            ("play a.csv -o b.wav --loud", "--loud is no option: 'bleidhvan --help' lists them"),
        ];
        for (words, message) in cases {
            let error = asked(words).err().expect(words);
            assert!(error.starts_with(message), "{error}");
        }
    }
}
