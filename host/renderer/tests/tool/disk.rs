//! Full disks.

use crate::run::{Folder, files, is_clean, lines, said, tool};
use std::fs;
use std::io::Write;
use std::path::{Path, PathBuf};
use std::process::Command;

/// A file system of a few kilobytes, unmounted with it.
struct Small(PathBuf);

impl Small {
    /// None, with a line that says so, where a file system may not be mounted.
    fn mounted(path: PathBuf, kilobytes: usize) -> Option<Self> {
        fs::create_dir_all(&path).expect("a folder is made");
        let small = Small(path);
        if !small.mount(&format!("size={kilobytes}k"), "tmpfs") {
            let why = "a small file system cannot be mounted here, as root may";
            writeln!(std::io::stderr(), "test: skipped: full disks: {why}").expect("it is said");
            std::mem::forget(small);
            return None;
        }
        Some(small)
    }

    fn mount(&self, options: &str, device: &str) -> bool {
        let mut command = Command::new("mount");
        command.args(["-t", "tmpfs", "-o", options, device]).arg(&self.0);
        command.output().is_ok_and(|output| output.status.success())
    }
}

impl Drop for Small {
    fn drop(&mut self) {
        drop(Command::new("umount").arg(&self.0).output());
    }
}

/// Notes of 20 to 290 kilobytes, 4.7 megabytes in all.
fn rows() -> String {
    (0..30)
        .map(|k| {
            format!(
                "n{k},modal,{},{},trigger,.5,.4,.5,.5\n",
                40 + k,
                0.1 + (k * 7 % 15) as f64 / 10.0
            )
        })
        .collect()
}

/// The number before a word of the sum.
fn number(sum: &str, word: &str) -> usize {
    let before = sum.split(&format!(" {word}")).next().unwrap_or_default();
    let number = before.rsplit(' ').next().and_then(|number| number.parse().ok());
    number.filter(|_| sum.contains(word)).unwrap_or_default()
}

/// Renders to a disk of so many kilobytes, and again once there is room; gives the first run's exit status.
fn full(folder: &Folder, kilobytes: usize, jobs: usize, format: &str) -> Option<i32> {
    let whole = folder.path(format);
    let out = folder.path(&format!("{kilobytes}-{jobs}"));
    let small = Small::mounted(out.clone(), kilobytes)?;
    let (sheet, jobs) = (folder.sheet(&rows()), jobs.to_string());
    let render = |out: &Path| {
        said(&tool(&[&"render", &sheet, &"-o", &out, &"--jobs", &jobs, &"--format", &format]))
    };
    assert_eq!(render(&whole).0, 0);
    let (status, sum, error) = render(&out);
    let [rendered, failed] = ["rendered", "failed"].map(|word| number(&sum, word));
    match status {
        2 => {
            assert!(error.contains("no room for the catalogue and its page"), "{error}");
            assert_eq!(files(&out).len(), 0);
        }
        3 => {
            assert!(sum.starts_with("30 notes ordered = ") && failed > 0, "{sum}");
            assert!(error.contains("its file cannot be written: No space left"), "{error}");
        }
        _ => assert_eq!((status, failed), (0, 0), "{error}"),
    }
    if status != 2 {
        assert_eq!(rendered + failed, 30);
        assert_eq!(lines(&out).len(), 31);
        let page = fs::read_to_string(out.join("index.html")).expect("the page is read");
        assert!(page.ends_with("</table>\n</main>\n") && page.matches("<tr").count() == 31);
        for piece in ["list", "waves-1", "spectra-1"] {
            let file = out.join(format!("index-{piece}.js"));
            let text = fs::read_to_string(file).expect("it is read");
            assert!(text.ends_with(",\n]);\n") && text.lines().count() == 33, "{piece}");
        }
        is_clean(&out);
    }
    assert!(small.mount("remount,size=20000k", "tmpfs"));
    let (again, sum, error) = render(&out);
    assert_eq!((again, number(&sum, "kept")), (0, rendered), "{sum}{error}");
    assert!(files(&out) == files(&whole));
    Some(status)
}

#[test]
fn a_full_disk_has_its_catalogue_and_fails_what_it_cannot_hold() {
    let folder = Folder::new("full");
    let mut statuses = Vec::new();
    for kilobytes in (100..6200).step_by(300) {
        match full(&folder, kilobytes, 1 + kilobytes / 100 % 3, "wav") {
            Some(status) => statuses.push(status),
            None => return,
        }
    }
    for kilobytes in (500..1100).step_by(150) {
        assert_eq!(full(&folder, kilobytes, 2, "flac"), Some(3), "{kilobytes}");
    }
    for status in [0, 2, 3] {
        assert!(statuses.contains(&status), "{statuses:?}");
    }
}

/// Plays a piece of 0.9 megabytes to a disk of so many kilobytes, and again once there is room; gives the first run's exit status.
fn played(folder: &Folder, kilobytes: usize) -> Option<i32> {
    let score = folder.path("score.csv");
    let rows = "0,0,modal,A3,trigger,0.5,0.3,0.5,0.5\n".repeat(40);
    let header = "time,slot,kind,note,play,accent,structure,brightness,damping\n";
    fs::write(&score, [header, &rows].concat()).expect("the score is written");
    let out = folder.path(&format!("piece-{kilobytes}"));
    let small = Small::mounted(out.clone(), kilobytes)?;
    let piece = out.join("piece.wav");
    let play = || said(&tool(&[&"play", &score, &"-o", &piece, &"--tail", &"4.7"]));
    let (status, sum, error) = play();
    let names = |out: &Path| files(out).into_keys().collect::<Vec<_>>();
    match status {
        2 => {
            assert!(error.contains("piece.wav.report.csv has no room: make some"), "{error}");
            assert_eq!(names(&out).len(), 0);
        }
        3 => {
            assert!(sum.starts_with("40 events ordered = 0 played + 0 refused + 40 failed\n"));
            assert!(error.contains("piece.wav cannot be written: No space left"), "{error}");
            assert_eq!(names(&out), ["piece.wav.report.csv"]);
            let report = fs::read_to_string(out.join("piece.wav.report.csv")).expect("it is read");
            assert_eq!(report.matches(",failed,").count(), 40);
        }
        _ => assert_eq!((status, &error[..]), (0, "")),
    }
    assert!(small.mount("remount,size=20000k", "tmpfs"));
    let (again, sum, error) = play();
    assert_eq!((again, &error[..]), (0, ""), "{sum}");
    assert_eq!(names(&out), ["piece.wav", "piece.wav.report.csv"]);
    Some(status)
}

#[test]
fn a_full_disk_has_the_report_of_a_piece_or_nothing() {
    let folder = Folder::new("full piece");
    let mut statuses = Vec::new();
    for kilobytes in [12, 24, 40, 100, 500, 900, 1400] {
        match played(&folder, kilobytes) {
            Some(status) => statuses.push(status),
            None => return,
        }
    }
    assert!(
        statuses
            .is_sorted_by(|a, b| [2, 3, 0].iter().position(|s| s == a)
                <= [2, 3, 0].iter().position(|s| s == b)),
        "{statuses:?}"
    );
    for status in [0, 2, 3] {
        assert!(statuses.contains(&status), "{statuses:?}");
    }
}
