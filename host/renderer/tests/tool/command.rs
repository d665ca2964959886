//! What the command line says where it is wrong.

use crate::run::{Folder, GOOD, WARNING, said, tool};
use std::collections::BTreeSet;
use std::ffi::OsStr;
use std::fs;
use std::os::unix::ffi::OsStrExt;
use std::path::Path;

#[test]
fn a_wrong_command_says_what_to_write() {
    let folder = Folder::new("wrong");
    let sheet = folder.sheet(GOOD);
    let file = folder.path("file");
    fs::write(&file, "").expect("a file is written");
    let out = folder.path("notes");
    let missing = folder.path("missing.csv");
    let cases: [(&[&dyn AsRef<std::ffi::OsStr>], &str); 16] = [
        (&[&"render", &sheet, &"-o", &""], "no folder is named: write '-o DIR' behind the sheet"),
        (&[&"render", &sheet, &"-o", &out, &"--quiet=1"], "--quiet takes no value"),
        (&[&"sing"], "'sing' is no command: write 'bleidhvan render SHEET -o DIR'"),
        (&[&"play", &sheet, &"-o", &out], "notes', and must end in .wav or .flac"),
        (&[&"play", &missing, &"-o", &"x.wav"], "missing.csv cannot be read: No such file"),
        (&[&"render"], "no sheet is named"),
        (&[&"render", &sheet], "no folder is named: write '-o DIR' behind the sheet"),
        (&[&"render", &sheet, &"-o"], "-o needs a value"),
        (&[&"render", &missing, &"-o", &out], "missing.csv cannot be read: No such file"),
        (&[&"render", &folder.0, &"-o", &out], "is a folder: name a CSV file"),
        (&[&"render", &file, &"-o", &out], "the sheet is empty: its first line must be name,kind,"),
        (&[&"render", &sheet, &"-o", &file], "cannot be written"),
        (
            &[&"render", &sheet, &"-o", &out, &"--rate", &"7999"],
            "a whole number from 8000 to 192000",
        ),
        (
            &[&"render", &sheet, &"-o", &out, &"--bits", &"12"],
            "--bits is '12', and must be 32, 24 or 16",
        ),
        (&[&"render", &sheet, &"-o", &out, &"--loud"], "--loud is no option"),
        (&[&"render", &sheet, &sheet, &"-o", &out], "is one sheet too many"),
    ];
    for (words, message) in cases {
        let (status, text, error) = said(&tool(words));
        assert_eq!((status, &text[..]), (2, ""), "{error}");
        assert!(error.starts_with("bleidhvan: ") && error.contains(message), "{error}");
    }
    assert!(!out.exists());
    for words in [&["--help"][..], &["render", "-h"], &["help"]] {
        let words: Vec<&dyn AsRef<std::ffi::OsStr>> = words.iter().map(|w| w as _).collect();
        let (status, text, _) = said(&tool(&words));
        assert!(status == 0 && text.contains("Example:\n  bleidhvan render notes.csv -o notes"));
    }
}

#[test]
fn the_version_is_told() {
    for word in ["--version", "-V"] {
        assert_eq!(said(&tool(&[&word])), (0, "bleidhvan 0.1.0\n".into(), String::new()));
    }
}

#[test]
fn paths_that_are_not_utf_8_are_rendered() {
    let folder = Folder::new("paths");
    let name = OsStr::from_bytes(b"caf\xe9.csv");
    let sheet = folder.0.join(name);
    fs::copy(folder.sheet(GOOD), &sheet).expect("the sheet is copied");
    let out = folder.0.join(OsStr::from_bytes(b"not\xe9s"));
    for sum in ["5 rendered", "0 rendered + 5 kept"] {
        let (status, text, error) = said(&tool(&[&"render", &sheet, &"-o", &out]));
        assert_eq!((status, &error[..]), (0, WARNING));
        assert!(text.starts_with(&format!("5 notes ordered = {sum} + 0 refused\n")), "{text}");
    }
    let missing = folder.0.join(OsStr::from_bytes(b"\xe9"));
    let (status, _, error) = said(&tool(&[&"render", &missing, &"-o", &out]));
    assert!(status == 2 && error.contains("cannot be read"), "{error}");
}

/// The options of a text: words that begin with two dashes, the backslashes of a man page left out.
fn options(text: &str) -> BTreeSet<String> {
    let text = text.replace('\\', "");
    let words = text.split(|c: char| !c.is_ascii_alphanumeric() && c != '-');
    words.filter(|word| word.len() > 2 && word.starts_with("--")).map(str::to_string).collect()
}

#[test]
fn the_page_and_the_completions_have_every_option() {
    let (_, help, _) = said(&tool(&[&"--help"]));
    let help = options(&help);
    assert!(help.len() > 9, "{help:?}");
    let share = Path::new(env!("CARGO_MANIFEST_DIR")).join("share");
    for name in ["bleidhvan.1", "bleidhvan.bash", "_bleidhvan", "bleidhvan.fish"] {
        let text = fs::read_to_string(share.join(name)).expect("the file is read");
        let text = text.replace(" -l ", " --");
        assert_eq!(options(&text), help, "{name}");
    }
    let page = fs::read_to_string(share.join("bleidhvan.1")).expect("the page is read");
    assert!(page.contains(concat!("bleidhvan ", env!("CARGO_PKG_VERSION"))));
}
