//! The program: what it prints, and its status.

mod common;

use common::{data, recorded};
use replay::File;
use std::path::PathBuf;
use std::process::{Command, Output};

/// A folder with the four files, which a test changes.
struct Folder(PathBuf);

impl Folder {
    fn new(name: &str) -> Self {
        let folder = PathBuf::from(env!("CARGO_TARGET_TMPDIR")).join(name);
        std::fs::create_dir_all(&folder).expect("a folder is made");
        let folder = Folder(folder);
        File::ALL.iter().for_each(|file| folder.write(*file, &recorded(*file)));
        folder
    }

    fn write(&self, file: File, bytes: &[u8]) {
        std::fs::write(self.0.join(file.name()), bytes).expect("a file is written");
    }

    fn replay(&self) -> (Option<i32>, String, String) {
        said(replay().arg(&self.0))
    }
}

impl Drop for Folder {
    fn drop(&mut self) {
        let _ = std::fs::remove_dir_all(&self.0);
    }
}

fn replay() -> Command {
    Command::new(env!("CARGO_BIN_EXE_replay"))
}

/// The status, and what was written to both outputs.
fn said(command: &mut Command) -> (Option<i32>, String, String) {
    let Output { status, stdout, stderr } = command.output().expect("the program runs");
    let [out, err] = [stdout, stderr].map(|text| String::from_utf8(text).expect("text"));
    (status.code(), out, err)
}

#[test]
fn the_recorded_files_are_replayed_by_default() {
    let (status, out, err) = said(&mut replay());
    assert_eq!((status, &err[..]), (Some(0), ""));
    assert_eq!(out.lines().filter(|line| line.ends_with(" 0 differ")).count(), 26, "{out}");
    assert_eq!(said(replay().arg(data())), (status, out, err));
}

#[test]
fn a_difference_is_status_1() {
    let folder = Folder::new("difference");
    let mut bytes = recorded(File::Modals);
    *bytes.last_mut().expect("a byte") ^= 1;
    folder.write(File::Modals, &bytes);
    let (status, out, err) = folder.replay();
    assert_eq!((status, &err[..]), (Some(1), ""));
    let line = "modals.bin: call 1208, field unused (word 63): recorded 01000000, again 00000000";
    assert!(out.lines().any(|printed| printed == line), "{out}");
    assert!(out.contains("banks.bin: 13 lists"), "the other files are replayed: {out}");
}

#[test]
fn a_file_that_cannot_be_replayed_is_status_2() {
    let folder = Folder::new("unreadable");
    let whole = recorded(File::Strings);
    let changed = |place: usize| {
        let mut bytes = whole.clone();
        bytes[place] ^= 1;
        bytes
    };
    for (bytes, why) in [
        (whole[..100].to_vec(), "it is shorter than its header"),
        (whole[..128].to_vec(), "it has no call"),
        (whole[..whole.len() - 1].to_vec(), "it ends 255 bytes behind its last whole call"),
        (whole[..whole.len() - 256].to_vec(), "seed 33; calls 1515'"),
        ([&whole[..], &[0; 256]].concat(), "seed 33; calls 1517'"),
        (changed(20), "its header is"),
        (changed(126), "its header is"),
        (changed(127), "its header is"),
        (recorded(File::Modals), "its header is"),
    ] {
        folder.write(File::Strings, &bytes);
        let (status, out, err) = folder.replay();
        assert_eq!(status, Some(2), "{why}");
        assert!(err.starts_with("replay: strings.bin: ") && err.contains(why), "{why}: {err}");
        assert!(out.contains("leaves.bin: 4642 raw") && out.contains("banks.bin: 13"), "{out}");
        assert!(!out.contains("strings.bin"), "{out}");
    }
    std::fs::remove_file(folder.0.join("strings.bin")).expect("the file is there");
    let (status, _, err) = folder.replay();
    assert_eq!(status, Some(2));
    assert!(err.starts_with("replay: strings.bin: "), "{err}");
}

#[test]
fn what_is_no_folder_is_status_2() {
    for arguments in [&["--help"][..], &["a", "b"]] {
        let (status, out, err) = said(replay().args(arguments));
        assert_eq!((status, &out[..]), (Some(2), ""));
        assert!(err.starts_with("usage: replay [FOLDER]\n"), "{err}");
    }
}
