//! What a run makes of a folder: nothing is written over, kept wrongly or left stale.

use crate::run::{
    BESIDE, Folder, GOOD, HEADER, files, is_clean, lines, said, signal, started, tool, with_notes,
};
use std::ffi::OsStr;
use std::fs;
use std::io::Write;
use std::os::unix::fs::{MetadataExt, symlink};
use std::path::Path;
use std::process::{Command, Stdio};
use std::time::{Duration, Instant};

type Words<'a> = [&'a dyn AsRef<OsStr>];

/// Renders a sheet with options, and gives the exit status, the sum and the errors.
fn render(sheet: &Path, out: &Path, options: &Words) -> (i32, String, String) {
    let words = [&[&"render" as &dyn AsRef<OsStr>, &sheet, &"-o", &out], options].concat();
    let (status, text, error) = said(&tool(&words));
    (status, text.lines().next().unwrap_or_default().into(), error)
}

/// The number of a file, which is another one where it was written anew.
fn number(path: &Path) -> u64 {
    fs::metadata(path).expect("the file is there").ino()
}

#[test]
fn only_what_changed_is_rendered() {
    let folder = Folder::new("kept");
    let out = folder.path("notes");
    let sheet = folder.sheet(GOOD);
    let sum = |sheet: &Path, options: &Words| {
        let (status, sum, error) = render(sheet, &out, options);
        assert!(status == 0 && error.lines().all(|line| line.starts_with("warning: ")), "{error}");
        sum
    };
    let all = "5 notes ordered = 5 rendered + 0 refused";
    let none = "5 notes ordered = 0 rendered + 5 kept + 0 refused";
    let one = "5 notes ordered = 1 rendered + 4 kept + 0 refused";
    assert_eq!(sum(&sheet, &[]), all);
    let (first, pluck) = (files(&out), number(&out.join("pluck.wav")));
    assert_eq!(sum(&sheet, &[]), none);
    assert!(files(&out) == first);
    assert_eq!(number(&out.join("pluck.wav")), pluck);
    fs::remove_file(out.join("bar.wav")).expect("a file is removed");
    assert_eq!(sum(&sheet, &[]), one);
    let mut damaged = first["bar.wav"].clone();
    damaged[1000] ^= 1;
    for wrong in [&damaged[..], &damaged[..500], b""] {
        fs::write(out.join("bar.wav"), wrong).expect("a file is damaged");
        assert_eq!(sum(&sheet, &[]), one);
        assert!(files(&out) == first);
    }
    let sheet = folder.sheet(&GOOD.replace("bar,modal,69", "bar,modal,70"));
    assert_eq!(sum(&sheet, &[]), one);
    assert!(files(&out)["bar.wav"] != first["bar.wav"]);
    let sheet = folder.sheet(GOOD);
    assert_eq!(sum(&sheet, &[&"--force"]), all);
    assert!(files(&out) == first);
    for options in [
        &["--seed", "1"][..],
        &["--rate", "44100"],
        &["--bits", "16"],
        &["--aux"],
        &["--fade", "3"],
        &["--format", "flac", "--aux"],
        &["--normalise", "peak=-1"],
    ] {
        let options: Vec<_> = options.iter().map(|word| word as &dyn AsRef<OsStr>).collect();
        assert_eq!(sum(&sheet, &options), all);
        let first = files(&out);
        assert_eq!(sum(&sheet, &options), none);
        assert!(files(&out) == first);
    }
}

#[test]
fn a_file_that_no_row_renders_is_removed_if_it_is_ours() {
    let folder = Folder::new("stale");
    let out = folder.path("notes");
    assert_eq!(render(&folder.sheet(GOOD), &out, &[]).0, 0);
    fs::write(out.join("mine.wav"), "mine").expect("a file is written");
    fs::write(out.join("bow.wav"), "edited").expect("a file is edited");
    let rows: Vec<&str> = GOOD.lines().collect();
    let rows = [rows[0], &rows[1].replace("0.5,1,", "0.5,7,"), rows[4]].join("\n");
    let output = tool(&[&"render", &folder.sheet(&rows), &"-o", &out]);
    let (status, text, error) = said(&output);
    assert_eq!(status, 1);
    assert!(
        text.starts_with(
            "3 notes ordered = 0 rendered + 2 kept + 1 refused\n2 files of earlier runs removed"
        ),
        "{text}"
    );
    assert!(error.contains("left: bow.wav: this sheet does not render it"), "{error}");
    let names: Vec<String> = files(&out).into_keys().collect();
    let left = with_notes(&["bow.wav", "mine.wav", "nothing.wav", "pluck.wav"]);
    assert_eq!(names, left);
}

#[test]
fn a_catalogue_of_the_version_before_lists_its_files_without_checksums() {
    let folder = Folder::new("before");
    let out = folder.path("notes");
    fs::create_dir_all(&out).expect("a folder is made");
    let catalogue = "name,status,file,frames,peak,burst,dust,dispersion,number,knob,value,range,reason\n\
        pluck,rendered,pluck.wav,2400,0.5,2,0,0,,,,,\nold,rendered,old.wav,2,0.5,2,0,0,,,,,\n";
    for (name, text) in [("catalogue.csv", catalogue), ("pluck.wav", "x"), ("old.wav", "y")] {
        fs::write(out.join(name), text).expect("a file is written");
    }
    let (status, sum, error) = render(&folder.sheet(GOOD), &out, &[]);
    assert_eq!((status, &sum[..]), (0, "5 notes ordered = 5 rendered + 0 refused"));
    assert!(error.contains("\nleft: old.wav: "), "{error}");
    assert_eq!(files(&out)["old.wav"], b"y");
}

#[test]
fn the_sheet_is_written_over_by_nothing() {
    let folder = Folder::new("sheet");
    let text = format!("{HEADER}\n{GOOD}");
    let sheet = folder.path("sheet.csv");
    let cases = [
        ("catalogue.csv", 2),
        ("index.html", 2),
        ("pluck.wav", 3),
        (".bleidhvan-x.part", 2),
        ("x.csv", 0),
    ];
    for (name, expected) in cases {
        for way in ["file", "link", "hard link", "force"] {
            let out = folder.path(&format!("{name} {way}"));
            fs::create_dir_all(&out).expect("a folder is made");
            fs::write(&sheet, &text).expect("the sheet is written");
            let path = out.join(name);
            match way {
                "link" => symlink(&sheet, &path).expect("a link is made"),
                "hard link" => fs::hard_link(&sheet, &path).expect("a link is made"),
                _ => _ = fs::copy(&sheet, &path).expect("the sheet is copied"),
            }
            let options: &Words = if way == "force" { &[&"--force"] } else { &[] };
            let (status, _, error) = render(&path, &out, options);
            assert_eq!(status, expected, "{name} {way}: {error}");
            assert!(expected == 0 || error.contains("rename"), "{error}");
            let left = fs::read_to_string(&path).expect("the sheet is there");
            assert!(left == text, "{name} {way}");
            fs::remove_file(&sheet).expect("the sheet is removed");
        }
    }
}

#[test]
fn a_sheet_on_standard_input_is_written_over_by_nothing() {
    let folder = Folder::new("input");
    let text = format!("{HEADER}\n{GOOD}");
    let sheet = folder.path("catalogue.csv");
    fs::write(&sheet, &text).expect("the sheet is written");
    let input = fs::File::open(&sheet).expect("the sheet is read");
    let mut command = Command::new(env!("CARGO_BIN_EXE_bleidhvan"));
    command.args(["render", "-", "-o"]).arg(&folder.0).stdin(input);
    let (status, _, error) = said(&command.output().expect("the tool runs"));
    assert_eq!(status, 2, "{error}");
    assert_eq!(fs::read_to_string(&sheet).expect("the sheet is there"), text);
    let out = folder.path("notes");
    let mut command = Command::new(env!("CARGO_BIN_EXE_bleidhvan"));
    command.args(["render", "-", "-o"]).arg(&out).stdin(Stdio::piped()).stdout(Stdio::piped());
    let mut child = command.stderr(Stdio::piped()).spawn().expect("the tool starts");
    let mut pipe = child.stdin.take().expect("a pipe");
    pipe.write_all(text.as_bytes()).expect("the sheet is written");
    drop(pipe);
    assert_eq!(said(&child.wait_with_output().expect("the tool ends")).0, 0);
    assert_eq!(lines(&out).len(), 6);
}

#[test]
fn files_that_no_run_wrote_are_left() {
    let folder = Folder::new("foreign");
    let sheet = folder.sheet(GOOD);
    for name in BESIDE {
        let out = folder.path(name);
        fs::create_dir_all(&out).expect("a folder is made");
        fs::write(out.join(name), "mine").expect("a file is written");
        let (status, _, error) = render(&sheet, &out, &[]);
        assert_eq!(status, 2);
        assert!(error.contains("is there, and no run wrote it: move it away"), "{error}");
        assert_eq!(files(&out).len(), 1);
    }
    let out = folder.path("notes");
    fs::create_dir_all(out.join("bow.wav")).expect("a folder is made");
    fs::write(out.join("bar.wav"), "mine").expect("a file is written");
    let (status, sum, error) = render(&sheet, &out, &[]);
    assert_eq!((status, &sum[..]), (3, "5 notes ordered = 3 rendered + 0 refused + 2 failed"));
    assert!(
        error.contains("failed: line 3, bar: bar.wav is there, and no run wrote it"),
        "{error}"
    );
    assert_eq!(fs::read(out.join("bar.wav")).expect("it is there"), b"mine");
    fs::remove_dir(out.join("bow.wav")).expect("the folder is removed");
    let (status, sum, _) = render(&sheet, &out, &[&"--force"]);
    assert_eq!((status, &sum[..]), (0, "5 notes ordered = 5 rendered + 0 refused"));
    for name in ["catalogue.csv", "index.html"] {
        fs::remove_file(out.join(name)).expect("a file is removed");
    }
    // Notes whose catalogue is gone are the same bytes again, and so are no others.
    let (status, sum, _) = render(&sheet, &out, &[]);
    assert_eq!((status, &sum[..]), (0, "5 notes ordered = 5 rendered + 0 refused"));
}

#[test]
fn two_runs_never_write_to_one_folder() {
    let folder = Folder::new("two");
    let out = folder.path("notes");
    let mut child = started(&folder, &out);
    let begun = Instant::now();
    let (status, sum, error) = render(&folder.path("sheet.csv"), &out, &[]);
    assert_eq!((status, &sum[..]), (2, ""));
    assert!(error.contains("another run renders to"), "{error}");
    assert!(begun.elapsed() < Duration::from_secs(2));
    assert!(child.try_wait().expect("the first is looked at").is_none());
    signal(&child, "-TERM");
    assert_eq!(said(&child.wait_with_output().expect("the tool ends")).0, 143);
    is_clean(&out);
}

#[test]
fn a_run_that_was_cut_off_is_gone_on_with() {
    let folder = Folder::new("cut");
    let out = folder.path("notes");
    let sheet = folder.path("sheet.csv");
    let mut kept_before = 0;
    for signals in [["-KILL"; 3], ["-TERM"; 3], ["-KILL", "-TERM", "-KILL"]] {
        drop(fs::remove_dir_all(&out));
        kept_before = 0;
        for name in signals {
            let mut child = started(&folder, &out);
            std::thread::sleep(Duration::from_millis(150));
            signal(&child, name);
            child.wait().expect("the tool ends");
        }
        let short: String = crate::run::long(100);
        let sheet = folder.sheet(&short);
        let (status, sum, error) = render(&sheet, &out, &[&"--jobs", &"2"]);
        assert_eq!(status, 0, "{error}");
        let kept = sum.split(" rendered + ").nth(1).and_then(|rest| rest.split(' ').next());
        kept_before += kept.expect("a number").parse::<usize>().expect("a number");
        assert!(kept_before > 5, "{sum}");
        is_clean(&out);
        assert!(lines(&out).len() == 101);
    }
    assert!(kept_before > 5);
    let whole = folder.path("whole");
    assert_eq!(render(&sheet, &whole, &[&"--jobs", &"2"]).0, 0);
    assert!(files(&whole) == files(&out));
}
