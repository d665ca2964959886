//! Scores played to pieces.

use crate::run::{Folder, files, said, signal, tool, tool_in};
use crate::wave::{read, sha256};
use std::ffi::OsStr;
use std::fs;
use std::path::{Path, PathBuf};
use std::process::{Command, Stdio};
use std::thread::sleep;
use std::time::{Duration, Instant};

const HEADER: &str = "time,slot,kind,note,play,accent,structure,brightness,damping";

/// Every kind of row, with strings that draw words of all kinds at once.
const GOOD: &str = "1:1,0,modal,A2,trigger,0.6,0.28,0.4,0.7
1:1,1,string,E4,trigger,0.5,0.2,0.6,0.7
1:1.5,2,string,C5,sustain,0.2,0.4,0.2,0.6
1:2,3,string,A4,sustain,0.2,0.8,0.3,0.6
1:2,4,modal,C6,sustain,0.2,0.5,0.3,0.6
1:2.25,1,,A4,trigger,0.7,0.3,0.6,0.7
1:2.5,2,,D5,,0.2,0.4,0.2,0.6
0.7,0,modal,A2,trigger,0.6,0.28,0.4,0.7
";

type Words<'a> = [&'a dyn AsRef<OsStr>];

/// Writes a score of these rows.
fn score(folder: &Folder, rows: &str) -> PathBuf {
    let path = folder.path("score.csv");
    fs::write(&path, format!("{HEADER}\n{rows}")).expect("the score is written");
    path
}

/// Plays rows to a piece in a folder of that name, and gives its path and what was said.
fn play(
    folder: &Folder,
    name: &str,
    rows: &str,
    options: &Words,
) -> (PathBuf, (i32, String, String)) {
    let (score, piece) = (score(folder, rows), folder.path(name).join("piece.wav"));
    let words: &Words = &[&"play", &score, &"-o", &piece, &"--tempo", &"90", &"--tail", &"0.3"];
    let said = said(&tool(&[words, options].concat()));
    (piece, said)
}

fn report(piece: &Path) -> Vec<String> {
    let path = piece.with_file_name("piece.wav.report.csv");
    let text = fs::read_to_string(path).expect("the report is read");
    text.lines().map(str::to_string).collect()
}

#[test]
fn every_row_has_its_answer() {
    let folder = Folder::new("answers");
    let rows = "0,0,string,A3,trigger,0.5,1.5,0.5,0.5
0.1,0,,A3,trigger,0.5,0.5,0.5,0.5
0.2,0,string,A3,trigger,0.5,0.2,0.5,0.5
0.3,0,modal,A3,trigger,0.5,0.2,0.5,0.5
1:1.2,1,,A3,trigger,0.5,0.2,0.5,0.5
0.1,1,modal,A3,trigger,0.5,0.2,0.5,0.5
x,1,,A3,trigger,0.5,0.2,0.5,0.5
99999,1,,A3,trigger,0.5,0.2,0.5,0.5
0.3,8,modal,A3,trigger,0.5,0.2,0.5,0.5
0.3,0,,H3,trigger,0.5,0.2,0.5,0.5
0.3,0,,30000hz,trigger,0.5,0.2,0.5,0.5
0.3,0,drum,A3,trigger,0.5,0.2,0.5,0.5
0.3,0,,A3,strike,0.5,0.2,0.5,0.5
0.3,0,,A3,,NaN,0.2,0.5,0.5
0.3,0,,A3,,0.5,0.2,x,0.5
0.3,0,,A3
0.3,0,\"string,A3,,0.5,0.2,0.5,0.5
1:9,0,,A3,,0.5,0.2,0.5,0.5
0.3,0,string,A3,,0.5,0.2,0.5,0.5
";
    let (piece, (status, text, error)) = play(&folder, "piece", rows, &[]);
    assert_eq!(status, 1, "{error}");
    assert!(
        text.starts_with("19 events ordered = 4 played + 15 refused\npiece.wav has 0.60 seconds"),
        "{text}"
    );
    let answers = [
        "2,refused,,,,,11,structure,1.5,0 to 1,\"structure is '1.5', and must be 0 to 1\",0,0,string,A3",
        "3,refused,,,,,,,,,no row before it in time opens slot 0: write string or modal in kind,0.1",
        "4,played,9600,",
        "5,refused,,,,,,,,,\"slot 0 is a string from its first row in time on: write string or nothing",
        "6,played,6400,0,0,0,",
        "7,played,4800,0,0,0,",
        "8,refused,,,,,,time,x,\"a number of seconds from 0 to 86400, or a bar and a beat up to there",
        "9,refused,,,,,,time,99999,",
        "10,refused,,,,,,slot,8,a number from 0 to 7,",
        "11,refused,,,,,,note,H3,",
        "12,refused,,,,,9,note,30000hz,",
        "13,refused,,,,,,kind,drum,",
        "14,refused,,,,,,play,strike,\"trigger, sustain, or empty to move the knobs on\",",
        "15,refused,,,,,10,accent,NaN,0 to 1,",
        "16,refused,,,,,,brightness,x,a number such as 0.5,",
        "17,refused,,,,,,,,,\"the row has 4 cells, where the header has 9\",",
        "18,refused,,,,,,,,,\"a quote does not end on its line",
        "19,refused,,,,,,time,1:9,",
        "20,played,14400,",
    ];
    let lines = report(&piece);
    for (line, answer) in lines[1..].iter().zip(answers) {
        assert!(line.starts_with(answer), "{line}\nis not\n{answer}");
    }
    assert_eq!(lines.len(), 21);
    assert!(
        lines[20].starts_with(",written,") && lines[20].ends_with(&sha256(&piece)),
        "{}",
        lines[20]
    );
    assert!(
        error.starts_with("refused: line 2: structure is '1.5', and must be 0 to 1\n"),
        "{error}"
    );
    assert_eq!(error.lines().count(), 15);
}

#[test]
fn a_wrong_score_writes_nothing() {
    let folder = Folder::new("header");
    let (path, piece) = (folder.path("score.csv"), folder.path("piece.wav"));
    let error = |text: &str, expected: i32| {
        fs::write(&path, text).expect("the score is written");
        let (status, _, error) = said(&tool(&[&"play", &path, &"-o", &piece]));
        assert_eq!(status, expected, "{error}");
        assert_eq!(files(&folder.0).len(), 1, "{error}");
        error
    };
    assert!(error("", 2).contains("its first line must be time,slot,kind,note,play,accent"));
    assert!(
        error(&format!("{HEADER},pan\n"), 2)
            .contains("unknown in the header: 'pan'; the columns are time, slot")
    );
    assert!(error("time,slot,kind\n", 2).contains("missing in the header: 'note', 'play'"));
    assert!(error(&format!("{HEADER}\n\n,,\n"), 1).contains("orders no event"));
}

#[test]
fn where_no_row_can_be_played_the_report_says_why() {
    let folder = Folder::new("none");
    let rows: String = (0..30).map(|_| "0,9,modal,A3,trigger,0,0,0,0\n").collect();
    let (piece, (status, text, error)) = play(&folder, "none", &rows, &[]);
    assert!(text.starts_with("30 events ordered = 0 played + 30 refused\n"), "{text}");
    assert!(
        error.contains("\n10 more, which ") && error.ends_with("so no piece is written\n"),
        "{error}"
    );
    assert_eq!((status, report(&piece).len(), piece.exists()), (1, 31, false));
}

#[test]
fn two_runs_other_blocks_and_jobs_give_the_same_bytes() {
    let folder = Folder::new("same");
    let (first, (status, _, error)) = play(&folder, "first", GOOD, &[&"--aux"]);
    assert_eq!(status, 0, "{error}");
    let bytes = fs::read(&first).expect("it is read");
    let others: [&Words; 7] = [
        &[],
        &[&"--block", &"24"],
        &[&"--block", &"25"],
        &[&"--block", &"100"],
        &[&"--block", &"1000"],
        &[&"--block", &"4096"],
        &[&"--jobs", &"3"],
    ];
    for (place, options) in others.into_iter().enumerate() {
        let (other, _) = play(&folder, &place.to_string(), GOOD, &[options, &[&"--aux"]].concat());
        assert!(fs::read(other).expect("it is read") == bytes, "{place}");
    }
    let (other, _) = play(&folder, "seed", GOOD, &[&"--aux", &"--seed", &"1"]);
    assert!(fs::read(other).expect("it is read") != bytes);
    // Under another name too.
    let name = folder.path("other name.wav");
    let score = score(&folder, GOOD);
    tool(&[&"play", &score, &"-o", &name, &"--tempo=90", &"--aux", &"--tail=0.3"]);
    assert!(fs::read(name).expect("it is read") == bytes);
}

#[test]
fn a_piece_that_grows_to_nan_is_the_same_in_all_blocks() {
    let folder = Folder::new("nan");
    let row = "0,0,string,238hz,trigger,1,0.24,1,1\n";
    let options: &Words = &[&"--rate", &"8000", &"--tail", &"560", &"--fade", &"0"];
    let pieces = ["24", "100", "4096"].map(|block| {
        let (piece, (status, _, error)) =
            play(&folder, block, row, &[options, &[&"--block", &block]].concat());
        assert!(status == 0 && error.contains(" samples are no numbers: "), "{error}");
        fs::read(piece).expect("it is read")
    });
    assert!(pieces[0] == pieces[1] && pieces[0] == pieces[2]);
}

#[test]
fn rows_in_another_order_are_the_same_piece() {
    let folder = Folder::new("order");
    let (first, _) = play(&folder, "first", GOOD, &[]);
    // No two rows of one slot are of one time.
    let rows: Vec<&str> = GOOD.lines().rev().collect();
    let (second, (status, _, error)) = play(&folder, "second", &rows.join("\n"), &[]);
    assert_eq!(status, 0, "{error}");
    let [first, second] = [first, second].map(|piece| read(&piece).samples);
    assert!(first == second);
}

#[test]
fn a_frame_takes_sixty_four_events_and_the_rest_are_refused() {
    let folder = Folder::new("crowd");
    // Slot 7 sounds on beside the rows of slot 0.
    let row = "1,0,modal,A3,trigger,0.1,0.3,0.1,0.5\n";
    let rows = format!("0,7,modal,A4,trigger,0.1,0.3,0.1,0.5\n{}", row.repeat(70));
    let (piece, (status, text, _)) = play(&folder, "crowd", &rows, &[]);
    assert_eq!(status, 1);
    assert!(text.starts_with("71 events ordered = 64 played + 7 refused\n"), "{text}");
    let lines = report(&piece);
    assert!(lines[64].starts_with("65,played,48000,0,0,0,"), "{}", lines[64]);
    assert!(
        lines[65].starts_with("66,refused,,,,,14,,,,\"its frame 48000 has 64 events"),
        "{}",
        lines[65]
    );
}

#[test]
fn aux_is_a_channel_or_a_file_of_its_own() {
    let folder = Folder::new("aux");
    let (both, _) = play(&folder, "both", GOOD, &[&"--aux", &"--normalise", &"peak=-2"]);
    let aux = folder.path("two").join("aux.wav");
    let options: &Words = &[&"--aux-output", &aux, &"--normalise", &"peak=-2"];
    let (out, (status, text, error)) = play(&folder, "two", GOOD, options);
    assert_eq!(status, 0, "{error}");
    assert!(text.contains("\npiece.wav has ") && text.contains("\naux.wav has "), "{text}");
    let both = read(&both);
    let one = [&out, &aux].map(|path| read(path));
    assert_eq!((both.head[0], one[0].head[0]), (2, 1));
    let apart = one[0].samples.iter().zip(&one[1].samples).flat_map(|(out, aux)| [*out, *aux]);
    assert!(apart.eq(both.samples.iter().copied()));
    let peak =
        both.samples.iter().map(|bits| f32::from_bits(*bits as u32).abs()).fold(0.0, f32::max);
    assert!((peak - 0.7943).abs() < 0.0001, "{peak}");
    assert_eq!(report(&out).len(), 1 + 8 + 2);
}

#[test]
fn a_piece_has_every_format() {
    let folder = Folder::new("formats");
    let own = read(&play(&folder, "own", GOOD, &[&"--fade", &"0"]).0);
    let floats: Vec<f64> =
        own.samples.iter().map(|bits| f64::from(f32::from_bits(*bits as u32))).collect();
    for (bits, file) in [(24, "a.wav"), (16, "b.wav"), (24, "c.flac"), (16, "d.flac")] {
        let (score, path) = (score(&folder, GOOD), folder.path(file));
        let words: &Words =
            &[&"play", &score, &"-o", &path, &"--tempo=90", &"--fade=0", &"--tail=0.3"];
        let bits_of = bits.to_string();
        let gain = "--gain=-20";
        let (status, _, error) = said(&tool(&[words, &[&"--bits", &bits_of, &gain]].concat()));
        assert_eq!((status, &error[..]), (0, ""));
        let whole = read(&path);
        assert_eq!(whole.head[1..], [48000, bits, own.head[3]]);
        let steps = f64::from((1 << (bits - 1)) - 1);
        let mut errors =
            floats.iter().zip(&whole.samples).map(|(a, b)| *b as f64 - a * 0.1 * steps);
        assert!(errors.all(|error| error.abs() <= 1.6), "{file}");
    }
}

#[test]
fn a_piece_ends_behind_its_tail() {
    let folder = Folder::new("tail");
    let rows = "0,0,modal,A5,trigger,0.5,0.3,0.5,0.1\n0.5,0,,A5,,0.5,0.3,0.5,0.1\n";
    let frames = |name: &str, options: &Words| {
        let (score, piece) = (score(&folder, rows), folder.path(name).join("piece.wav"));
        let words: &Words = &[&"play", &score, &"-o", &piece, &"--rate", &"8000"];
        let (status, _, error) = said(&tool(&[words, options].concat()));
        assert_eq!((status, &error[..]), (0, ""));
        let read = read(&piece);
        (read.head[3], read.samples)
    };
    assert_eq!(frames("default", &[]).0, 4000 + 4 * 8000);
    assert_eq!(frames("one", &[&"--tail", &"1"]).0, 4000 + 8000);
    assert_eq!(frames("none", &[&"--tail", &"0"]).0, 4001);
    let (ring, heard) = frames("ring", &[&"--tail", &"ring"]);
    let (_, long) = frames("long", &[&"--tail", &"20", &"--fade", &"0"]);
    assert!(ring % 24 == 0 && heard[..ring as usize - 80] == long[..ring as usize - 80]);
    let quiet = |bits: &i64| f32::from_bits(*bits as u32).abs();
    let peak = long.iter().map(quiet).fold(0.0, f32::max);
    let behind = long[ring as usize..].iter().map(quiet).fold(0.0, f32::max);
    assert!(behind <= peak * 3.2e-5, "{behind} of {peak}");
}

#[test]
fn nothing_of_anyone_else_is_written_over() {
    let folder = Folder::new("there");
    let (piece, _) = play(&folder, "there", GOOD, &[]);
    // What a run wrote, another writes over.
    let (_, (status, _, error)) = play(&folder, "there", GOOD, &[&"--seed", &"3"]);
    assert_eq!(status, 0, "{error}");
    fs::write(&piece, "mine").expect("it is edited");
    let (_, (status, _, error)) = play(&folder, "there", GOOD, &[]);
    assert!(status == 2 && error.contains("is there, and not as a run wrote it"), "{error}");
    assert_eq!(fs::read(&piece).expect("it is there"), b"mine");
    assert_eq!(play(&folder, "there", GOOD, &[&"--force"]).1.0, 0);
    let report = piece.with_file_name("piece.wav.report.csv");
    fs::write(&report, "mine").expect("it is edited");
    let (_, (status, _, error)) = play(&folder, "there", GOOD, &[&"--force"]);
    assert!(status == 2 && error.contains("report.csv is there, and no run wrote it"), "{error}");
    // The score under any of these names.
    for name in ["a.wav", "a.wav.report.csv", ".bleidhvan-a.wav.part"] {
        let path = folder.path(name);
        fs::write(&path, format!("{HEADER}\n{GOOD}")).expect("the score is written");
        let piece = folder.path("a.wav");
        let (status, _, error) =
            said(&tool(&[&"play", &path, &"-o", &piece, &"--tempo=90", &"--force"]));
        assert_eq!(status, 2, "{error}");
        assert_eq!(fs::read_to_string(&path).expect("it is there"), format!("{HEADER}\n{GOOD}"));
        fs::remove_file(&path).expect("it is removed");
    }
}

/// A shell's limit stands in for a full disk: it needs no root.
#[test]
fn a_piece_that_cannot_be_written_fails_with_its_report() {
    let folder = Folder::new("large");
    let (piece, _) = play(&folder, "large", GOOD, &[]);
    let before = sha256(&piece);
    let score = score(&folder, GOOD);
    let script = "trap '' XFSZ; ulimit -f 300; exec \"$0\" \"$@\"";
    let words: &Words = &[&"play", &score, &"-o", &piece, &"--tempo=90", &"--tail=9"];
    let (status, text, error) = said(&tool_in(script, words));
    assert_eq!(status, 3, "{error}");
    assert!(text.starts_with("8 events ordered = 0 played + 0 refused + 8 failed\n"), "{text}");
    assert!(
        error.ends_with("piece.wav cannot be written: File too large (os error 27)\n"),
        "{error}"
    );
    // What an earlier run wrote stays, and stays known.
    let lines = report(&piece);
    assert!(lines[1].starts_with("2,failed,") && lines[9].starts_with(",kept,"), "{}", lines[9]);
    assert_eq!((sha256(&piece), lines[9].ends_with(&before)), (before, true));
    assert_eq!(files(&folder.path("large")).len(), 2);
    assert_eq!(said(&tool(words)).0, 0);
}

#[test]
fn a_full_disk_for_the_report_is_a_sentence() {
    let folder = Folder::new("small");
    let rows = GOOD.repeat(40);
    let (score, piece) = (score(&folder, &rows), folder.path("piece.wav"));
    let script = "trap '' XFSZ; ulimit -f 20; exec \"$0\" \"$@\"";
    let (status, text, error) =
        said(&tool_in(script, &[&"play", &score, &"-o", &piece, &"--tempo=90"]));
    assert_eq!((status, &text[..]), (2, ""));
    assert!(error.contains("report.csv cannot be written: File too large"), "{error}");
    assert_eq!(files(&folder.0).len(), 1);
}

/// Starts a piece of an hour, and waits until its file is begun.
fn started(folder: &Folder, score: &Path) -> std::process::Child {
    let piece = folder.path("piece.wav");
    let mut command = Command::new(env!("CARGO_BIN_EXE_bleidhvan"));
    command.arg("play").arg(score).arg("-o").arg(&piece).args(["--tempo=90", "--tail=3600"]);
    let child = command.stdout(Stdio::piped()).stderr(Stdio::piped()).spawn();
    let begun = Instant::now();
    while !folder.path(".bleidhvan-piece.wav.part").exists() {
        assert!(begun.elapsed() < Duration::from_secs(60), "no part in a minute");
        sleep(Duration::from_millis(5));
    }
    child.expect("the tool starts")
}

#[test]
fn a_signal_ends_a_run_with_its_report_alone() {
    for (name, expected) in [("-INT", 130), ("-TERM", 143)] {
        let folder = Folder::new("stopped");
        let child = started(&folder, &score(&folder, GOOD));
        signal(&child, name);
        let (status, text, error) = said(&child.wait_with_output().expect("the tool ends"));
        assert_eq!(status, expected, "{error}");
        assert!(
            text.starts_with("8 events ordered = 0 played + 0 refused + 8 not played\n"),
            "{text}"
        );
        assert!(
            error.ends_with("no piece is written, and the same command begins anew\n"),
            "{error}"
        );
        let names: Vec<String> = files(&folder.0).into_keys().collect();
        assert_eq!(names, ["piece.wav.report.csv", "score.csv"]);
        assert!(report(&folder.path("piece.wav"))[1].starts_with("2,not played,,"));
    }
}

#[test]
fn a_run_that_is_killed_is_in_the_way_of_none() {
    let folder = Folder::new("killed");
    let path = score(&folder, GOOD);
    let mut child = started(&folder, &path);
    signal(&child, "-KILL");
    child.wait().expect("it ends");
    let piece = folder.path("piece.wav");
    let (status, _, error) = said(&tool(&[&"play", &path, &"-o", &piece, &"--tempo=90"]));
    assert_eq!((status, &error[..]), (0, ""));
    let names: Vec<String> = files(&folder.0).into_keys().collect();
    assert_eq!(names, ["piece.wav", "piece.wav.report.csv", "score.csv"]);
}

/// The peak of a piece by its report, in dBFS.
fn peak(piece: &Path) -> f64 {
    let lines = report(piece);
    let cells = lines.last().expect("the piece's line").split(',');
    cells.clone().nth(22).and_then(|peak| peak.parse().ok()).expect("a peak")
}

#[test]
fn every_slot_of_the_example_is_heard_and_nothing_clips() {
    let folder = Folder::new("example");
    let example = Path::new(env!("CARGO_MANIFEST_DIR")).join("../../examples/small-hours.csv");
    let text = fs::read_to_string(example).expect("the example is read");
    let rows: Vec<&str> = text.lines().skip(1).filter(|line| !line.is_empty()).collect();
    let options: &Words = &[&"--tempo", &"66", &"--gain", &"-6"];
    let (piece, (status, sum, error)) = play(&folder, "all", &rows.join("\n"), options);
    assert_eq!((status, &error[..]), (0, ""));
    assert!(sum.starts_with(&format!("{0} events ordered = {0} played + 0 refused\n", rows.len())));
    assert!((-6.0..0.0).contains(&peak(&piece)), "{}", peak(&piece));
    for slot in 0..8 {
        let is_of = |row: &&&str| row.split(',').nth(1) == Some(&slot.to_string());
        let own: Vec<&str> = rows.iter().filter(is_of).copied().collect();
        assert!(own.len() > 3, "slot {slot}");
        let (piece, _) = play(&folder, &slot.to_string(), &own.join("\n"), options);
        assert!(peak(&piece) > -20.0, "slot {slot}: {}", peak(&piece));
    }
}

#[test]
fn memory_grows_with_no_piece() {
    let folder = Folder::new("memory");
    let rows = "0,0,modal,A3,trigger,0.5,0.3,0.5,0.5\n300,0,,A4,trigger,0.5,0.3,0.5,0.5\n";
    let (score, piece) = (score(&folder, rows), folder.path("piece.wav"));
    // The piece has 58 MB.
    let script = "ulimit -v 30000; exec \"$0\" \"$@\"";
    let (status, text, error) = said(&tool_in(script, &[&"play", &score, &"-o", &piece]));
    assert_eq!((status, &error[..]), (0, ""));
    assert!(text.contains("piece.wav has 304.00 seconds"), "{text}");
}
