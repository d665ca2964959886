//! Replays the recorded answers of a folder.

use replay::{File, Libraries, Report, replay};
use std::ffi::OsString;
use std::path::{Path, PathBuf};
use std::process::ExitCode;

const USAGE: &str = "usage: replay [FOLDER]
  FOLDER   holds leaves.bin, strings.bin, modals.bin and banks.bin (host/replay/data)
The status is 0 where nothing differs, 1 where something does, and 2 where a file cannot be replayed.";

fn main() -> ExitCode {
    let arguments: Vec<OsString> = std::env::args_os().skip(1).collect();
    let folder = match &arguments[..] {
        [] => Path::new(env!("CARGO_MANIFEST_DIR")).join("data"),
        [folder] if !folder.to_string_lossy().starts_with('-') => PathBuf::from(folder),
        _ => {
            eprintln!("{USAGE}");
            return ExitCode::from(2);
        }
    };
    let statuses = File::ALL.map(|file| status(file, replayed(file, &folder)));
    ExitCode::from(statuses.into_iter().max().unwrap_or(2))
}

fn replayed(file: File, folder: &Path) -> Result<Report, String> {
    let bytes = std::fs::read(folder.join(file.name())).map_err(|error| error.to_string())?;
    replay(file, &bytes, &mut Libraries)
}

/// Prints what a file gave, and gives its status.
fn status(file: File, replayed: Result<Report, String>) -> u8 {
    match replayed {
        Ok(report) => {
            print!("{report}");
            u8::from(report.differ > 0)
        }
        Err(message) => {
            eprintln!("replay: {}: {message}", file.name());
            2
        }
    }
}
