//! The command line.

use crate::playing::{self, Playing};
use crate::sounding::Sounding;
use crate::words::{jobs, value, whole};
use lexopt::{Arg, Parser};
use std::ffi::{OsStr, OsString};
use std::path::PathBuf;

/// What the command line asks for.
pub enum Command {
    Render(Box<Asked>),
    Play(Box<Playing>),
    Verify(Verifying),
    Help,
    Version,
}

/// What a render is asked for.
pub struct Asked {
    pub sheet: PathBuf,
    pub folder: PathBuf,
    pub sounding: Sounding,
    pub jobs: usize,
    /// The line of the whole sheet that line 2 of this part of it is.
    pub first_line: usize,
    /// The file in the folder that the page plays on top.
    pub piece: Option<String>,
    pub is_forced: bool,
    pub is_quiet: bool,
}

/// What a folder is looked through for.
pub struct Verifying {
    pub folder: PathBuf,
    pub jobs: usize,
    /// Whether each note is rendered anew.
    pub is_again: bool,
}

const USAGE: &str = "write 'bleidhvan render SHEET -o DIR'";

/// Reads the command line behind the tool's name, or says what to write instead.
pub fn read(words: Vec<OsString>) -> Result<Command, String> {
    let mut words = Parser::from_args(words);
    match words.next().map_err(|error| wrong(&error))? {
        Some(Arg::Short('h') | Arg::Long("help")) => Ok(Command::Help),
        Some(Arg::Short('V') | Arg::Long("version")) => Ok(Command::Version),
        Some(Arg::Value(word)) => match word.to_str() {
            Some("render") => render(words),
            Some("play") => playing::read(words),
            Some("verify") => verify(words),
            Some("help") => Ok(Command::Help),
            _ => Err(format!("'{}' is no command: {USAGE}", word.display())),
        },
        _ => Err(USAGE.into()),
    }
}

/// A word behind a command: an option by its name, or what it is about.
pub enum Word {
    Option(String),
    Value(OsString),
}

/// The next word, none at the end; the help and the version where they are asked for.
pub fn next(words: &mut Parser) -> Result<Option<Word>, Result<Command, String>> {
    Ok(match words.next().map_err(|error| Err(wrong(&error)))? {
        None => None,
        Some(Arg::Short('h') | Arg::Long("help")) => return Err(Ok(Command::Help)),
        Some(Arg::Short('V') | Arg::Long("version")) => return Err(Ok(Command::Version)),
        Some(Arg::Short(letter)) => Some(Word::Option(format!("-{letter}"))),
        Some(Arg::Long(name)) => Some(Word::Option(format!("--{name}"))),
        Some(Arg::Value(value)) => Some(Word::Value(value)),
    })
}

fn render(mut words: Parser) -> Result<Command, String> {
    let mut asked = Asked::new();
    loop {
        match next(&mut words) {
            Ok(None) => break,
            Ok(Some(Word::Option(name))) => asked.option(&name, &mut words)?,
            Ok(Some(Word::Value(sheet))) => asked.sheet(sheet)?,
            Err(other) => return other,
        }
    }
    if asked.sheet.as_os_str().is_empty() {
        return Err(format!("no sheet is named: {USAGE}"));
    }
    if asked.folder.as_os_str().is_empty() {
        return Err("no folder is named: write '-o DIR' behind the sheet".into());
    }
    asked.sounding.settle(false)?;
    Ok(Command::Render(Box::new(asked)))
}

fn verify(mut words: Parser) -> Result<Command, String> {
    let mut asked = Verifying { folder: PathBuf::new(), jobs: 1, is_again: false };
    loop {
        match next(&mut words) {
            Ok(None) => break,
            Ok(Some(Word::Option(name))) => match &name[..] {
                "--again" => asked.is_again = true,
                "-j" | "--jobs" => asked.jobs = jobs(&name, &mut words)?,
                _ => return Err(format!("{name} is no option of verify: write --again or --jobs")),
            },
            Ok(Some(Word::Value(folder))) if asked.folder.as_os_str().is_empty() => {
                asked.folder = folder.into();
            }
            Ok(Some(Word::Value(folder))) => {
                return Err(format!("'{}' is one folder too many", folder.display()));
            }
            Err(other) => return other,
        }
    }
    if asked.folder.as_os_str().is_empty() {
        return Err("no folder is named: write 'bleidhvan verify DIR'".into());
    }
    Ok(Command::Verify(asked))
}

/// What to write where the words cannot be read.
fn wrong(error: &lexopt::Error) -> String {
    match error {
        lexopt::Error::UnexpectedValue { option, .. } => format!("{option} takes no value"),
        _ => error.to_string(),
    }
}

impl Asked {
    fn new() -> Self {
        Asked {
            sheet: PathBuf::new(),
            folder: PathBuf::new(),
            sounding: Sounding::new(),
            jobs: 1,
            first_line: 2,
            piece: None,
            is_forced: false,
            is_quiet: false,
        }
    }

    fn sheet(&mut self, sheet: OsString) -> Result<(), String> {
        if !self.sheet.as_os_str().is_empty() {
            let sheet = sheet.display();
            return Err(format!("'{sheet}' is one sheet too many: render one at a time"));
        }
        self.sheet = sheet.into();
        Ok(())
    }

    fn option(&mut self, option: &str, words: &mut Parser) -> Result<(), String> {
        match option {
            "-o" | "--output" => self.folder = value(option, "DIR", words)?.into(),
            "-j" | "--jobs" => self.jobs = jobs(option, words)?,
            "--first-line" => {
                self.first_line = whole(option, "1002", words, 2, u32::MAX)? as usize;
            }
            "--piece" => self.piece = Some(piece(&value(option, "PIECE.wav", words)?)?),
            "--force" => self.is_forced = true,
            "-q" | "--quiet" => self.is_quiet = true,
            "--aux-output" | "--title" | "--tempo" | "--beats" | "--tail" | "--block"
            | "--again" => {
                return Err(format!("{option} is no option of render"));
            }
            _ => self.sounding.option(option, words)?,
        }
        Ok(())
    }
}

/// The name of a file that lies in the folder.
fn piece(value: &OsStr) -> Result<String, String> {
    let name = value.to_str().filter(|name| !name.is_empty() && !name.contains('/'));
    let text = value.display();
    name.map(str::to_string).ok_or(format!(
        "--piece is '{text}', and must be the name of a sound file in DIR, as piece.wav"
    ))
}

#[cfg(test)]
mod tests {
    use super::{Asked, Command, read};
    use std::ffi::OsString;
    use std::os::unix::ffi::OsStringExt;
    use std::path::Path;

    fn asked(words: &str) -> Result<Box<Asked>, String> {
        match read(words.split(' ').map(OsString::from).collect())? {
            Command::Render(asked) => Ok(asked),
            _ => Err("no render".into()),
        }
    }

    #[test]
    fn options_are_written_in_any_way_and_order() {
        let ways = [
            "render a.csv -o b --seed 7 --jobs 3 --quiet",
            "render --seed=7 -qj3 --output=b a.csv",
            "render -o=b --jobs=3 --seed 7 -q -- a.csv",
            "render -ob -j 3 a.csv --quiet --seed=7",
        ];
        for way in ways {
            let asked = asked(way).expect(way);
            assert_eq!([&asked.sheet, &asked.folder], [Path::new("a.csv"), Path::new("b")]);
            assert_eq!(
                (asked.sounding.settings.seed, asked.jobs, asked.is_quiet),
                (7, 3, true),
                "{way}"
            );
        }
        assert_eq!(asked("render - -o b").expect("a render").sheet, Path::new("-"));
    }

    #[test]
    fn a_wrong_word_says_what_to_write() {
        let cases = [
            ("render a.csv -o b --quiet=yes", "--quiet takes no value"),
            ("render a.csv -o b --seed", "--seed needs a value: --seed 33"),
            ("render a.csv -o b -x", "-x is no option: 'bleidhvan --help' lists them"),
            ("render a.csv -o b --seed=-1", "--seed is '-1', and must be a whole number from 0"),
            ("render a.csv --output=", "no folder is named"),
            ("render a.csv -o b --bits 32 --format flac", "a FLAC file holds whole samples"),
            ("render a.csv -o b --format=flac --rate 96001", "--rate is '96001', and in a FLAC"),
            ("render a.csv -o b --normalise peak=3", "--normalise is 'peak=3', and must be"),
            ("render a.csv -o b --gain 3 --normalise peak=-1", "--gain and --normalise do not go"),
            ("render a.csv -o b --fade nan", "--fade is 'nan', and must be a number from 0"),
            ("render a.csv -o b --tempo 72", "--tempo is no option of render"),
            ("verify", "no folder is named: write 'bleidhvan verify DIR'"),
            ("verify a b", "'b' is one folder too many"),
            ("verify a --force", "--force is no option of verify"),
            ("--seed 3 render", "write 'bleidhvan render SHEET -o DIR'"),
            ("sing", "'sing' is no command: write"),
            ("render a.csv -o b --piece c/d.wav", "--piece is 'c/d.wav', and must be the name of"),
        ];
        for (words, message) in cases {
            let error = asked(words).err().expect(words);
            assert!(error.starts_with(message), "{error}");
        }
    }

    #[test]
    fn paths_need_not_be_utf_8() {
        let path = OsString::from_vec(b"caf\xe9".to_vec());
        let words = ["render".into(), path.clone(), "-o".into(), path.clone()];
        let Ok(Command::Render(asked)) = read(words.to_vec()) else { panic!("a render") };
        assert_eq!([asked.sheet, asked.folder], [Path::new(&path), Path::new(&path)]);
    }
}
