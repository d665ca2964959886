//! Faults of the machine.

use crate::run::{Folder, GOOD, files, is_clean, lines, said, signal, started, tool_in};
use std::path::Path;

/// The lines of a catalogue that have a status.
fn count(folder: &Path, status: &str) -> usize {
    let status = format!(",{status},");
    lines(folder).iter().filter(|line| line.contains(&status)).count()
}

/// A shell's limit stands in for a full disk: it needs no root.
#[test]
fn a_note_that_cannot_be_written_fails_and_stops_no_other() {
    let folder = Folder::new("large");
    let out = folder.path("notes");
    let rows = format!(
        "{GOOD}long,modal,A3,9,trigger,0.5,0.4,0.5,0.5\nlast,modal,A3,0.1,trigger,0.5,0.4,0.5,0.5\n"
    );
    let script = "trap '' XFSZ; ulimit -f 2000; exec \"$0\" \"$@\"";
    let output = tool_in(script, &[&"render", &folder.sheet(&rows), &"-o", &out, &"--jobs", &"3"]);
    let (status, text, error) = said(&output);
    assert_eq!(status, 3, "{error}");
    assert!(text.starts_with("7 notes ordered = 6 rendered + 0 refused + 1 failed\n"), "{text}");
    let reason = "long: its file cannot be written: File too large";
    assert!(error.starts_with(&format!("failed: line 7, {reason}")), "{error}");
    assert!(lines(&out)[6].starts_with("long,failed,,,,,,,,,,,its file cannot be written: File"));
    is_clean(&out);
}

#[test]
fn a_note_that_fails_is_kept_where_it_is_whole() {
    let folder = Folder::new("forced");
    let out = folder.path("notes");
    let sheet = folder.sheet("long,modal,A3,9,trigger,0.5,0.4,0.5,0.5\n");
    assert_eq!(said(&tool_in("exec \"$0\" \"$@\"", &[&"render", &sheet, &"-o", &out])).0, 0);
    let first = files(&out);
    let script = "trap '' XFSZ; ulimit -f 2000; exec \"$0\" \"$@\"";
    let output = tool_in(script, &[&"render", &sheet, &"-o", &out, &"--force"]);
    let (status, text, _) = said(&output);
    assert!(text.starts_with("1 notes ordered = 0 rendered + 1 kept + 0 refused\n"), "{text}");
    assert_eq!(status, 0);
    assert!(files(&out) == first);
}

#[test]
fn a_signal_ends_a_run_with_all_that_is_whole() {
    for (name, status) in [("-INT", 130), ("-TERM", 143)] {
        let folder = Folder::new("signal");
        let out = folder.path("notes");
        let child = started(&folder, &out);
        signal(&child, name);
        let output = child.wait_with_output().expect("the tool ends");
        let (ended, text, error) = said(&output);
        assert_eq!(ended, status, "{error}");
        let [rendered, left] = ["rendered", "not rendered"].map(|status| count(&out, status));
        assert_eq!(rendered + left, 400);
        assert!(rendered > 5 && left > 0);
        let sum =
            format!("400 notes ordered = {rendered} rendered + 0 refused + {left} not rendered\n");
        assert!(text.starts_with(&sum), "{text}");
        assert_eq!(error, "bleidhvan: stopped: the same command goes on from here\n");
        is_clean(&out);
    }
}

/// Address space from what hardly starts the tool to what is enough for all jobs.
#[test]
fn many_jobs_in_little_memory_are_fewer_jobs_or_a_sentence() {
    let folder = Folder::new("memory");
    let rows: String = (0..300).map(|k| format!("n{k},modal,A3,0.02,trigger,0,0,0,0\n")).collect();
    let sheet = folder.sheet(&rows);
    let [mut whole, mut told] = [0; 2];
    for step in 0..20 {
        let kilobytes = 9_000 + 17_000 * step;
        let script = format!("ulimit -v {kilobytes}; exec \"$0\" \"$@\"");
        let out = folder.path(&format!("{kilobytes}"));
        let output = tool_in(&script, &[&"render", &sheet, &"-o", &out, &"--jobs", &"256"]);
        let (status, text, error) = said(&output);
        match status {
            0 => {
                assert!(text.starts_with("300 notes ordered = 300 rendered + 0 refused\n"));
                whole += 1;
            }
            _ => {
                assert_eq!(status, 2, "{kilobytes}: {error}");
                assert!(error.starts_with("bleidhvan: ") && error.contains("memory"), "{error}");
                told += 1;
            }
        }
    }
    assert_eq!([whole, told], [19, 1]);
}

#[test]
fn a_hundred_thousand_rows_are_read_in_little_memory() {
    let folder = Folder::new("long");
    let out = folder.path("notes");
    let rows: String =
        (0..100_000).map(|k| format!("note {k},drum,A3,1,trigger,0,0,0,0\n")).collect();
    let sheet = folder.sheet(&format!("{rows}{GOOD}"));
    let script = "ulimit -v 200000; exec \"$0\" \"$@\"";
    let (status, text, error) = said(&tool_in(script, &[&"render", &sheet, &"-o", &out]));
    assert_eq!(status, 1, "{error}");
    assert!(text.starts_with("100005 notes ordered = 5 rendered + 100000 refused\n"), "{text}");
    assert_eq!(lines(&out).len(), 100_006);
    let pages = files(&out)
        .into_iter()
        .filter(|(name, _)| name.starts_with("index") && name.ends_with(".html"));
    let sizes: Vec<usize> = pages.map(|(_, page)| page.len()).collect();
    assert!(sizes.len() == 401 && sizes.iter().all(|size| *size < 200_000), "{sizes:?}");
}
