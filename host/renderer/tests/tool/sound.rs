//! What sound files hold: the voice's own samples, and what the options make of them.

use crate::run::{Folder, GOOD, is_clean, lines, said, tool};
use crate::wave::{Read, bank_samples, read, seed};
use bleidhvan::{Kind, Knobs};
use std::ffi::OsStr;
use std::fs;
use std::path::{Path, PathBuf};

fn pluck() -> Knobs {
    let f0 = (220.0 / 44100.0) as f32;
    Knobs { trigger: true, f0, structure: 0.3, ..Knobs::default() }
}

/// Renders rows with options to a folder of that name, at 44,100 Hz with the seed 7.
fn render(folder: &Folder, name: &str, rows: &str, options: &[&str]) -> (PathBuf, String) {
    let (sheet, out) = (folder.sheet(rows), folder.path(name));
    let mut words: Vec<&dyn AsRef<OsStr>> = vec![&"render", &sheet, &"-o", &out];
    words.extend([&"--seed" as &dyn AsRef<OsStr>, &"7", &"--rate", &"44100"]);
    words.extend(options.iter().map(|word| word as &dyn AsRef<OsStr>));
    let (status, _, error) = said(&tool(&words));
    assert_eq!(status, 0, "{error}");
    (out, error)
}

fn floats(read: &Read) -> Vec<f32> {
    read.samples.iter().map(|bits| f32::from_bits(*bits as u32)).collect()
}

/// A cell of the line of a note.
fn cell(out: &Path, note: usize, column: &str) -> String {
    let lines = lines(out);
    let place = lines[0].split(',').position(|name| name == column).expect("the column");
    // No cell before it is quoted.
    lines[note + 1].split(',').nth(place).expect("the cell").into()
}

#[test]
fn the_files_hold_the_bank_s_samples() {
    let folder = Folder::new("samples");
    let n = 2205;
    let [out, aux] = bank_samples(seed(7, "pluck"), Kind::String, pluck(), 44100.0, n);
    let (folder_of, _) = render(&folder, "own", GOOD, &["--fade", "0"]);
    let own = read(&folder_of.join("pluck.wav"));
    assert_eq!(own.head, [1, 44100, 32, n as i64]);
    assert!(own.samples.iter().copied().eq(out.iter().map(|x| i64::from(x.to_bits()))));
    let both: Vec<f32> = out.iter().zip(&aux).flat_map(|(a, b)| [*a, *b]).collect();
    assert!(out.iter().any(|x| x.abs() > 0.01) && aux.iter().any(|x| *x != 0.0));
    for (options, bits, file) in [
        (&["--bits", "16"][..], 16, "pluck.wav"),
        (&["--bits", "24"], 24, "pluck.wav"),
        (&["--format", "flac"], 24, "pluck.flac"),
        (&["--format=flac", "--bits=16"], 16, "pluck.flac"),
    ] {
        let options = [options, &["--aux", "--fade", "0"]].concat();
        let (out, _) = render(&folder, &options.concat(), GOOD, &options);
        let Read { head, samples, .. } = read(&out.join(file));
        assert_eq!(head, [2, 44100, bits, n as i64]);
        let steps = f64::from((1 << (bits - 1)) - 1);
        let wrong = |sample: &f32, step: &i64| *step as f64 - f64::from(*sample) * steps;
        let errors: Vec<f64> = both.iter().zip(&samples).map(|(a, b)| wrong(a, b)).collect();
        // Half a step of rounding, and a step of dither.
        assert!(errors.iter().all(|error| error.abs() <= 1.5), "{options:?}");
        assert!(errors.iter().any(|error| error.abs() > 0.6), "{options:?}");
        // A note of no frames is a whole file too.
        assert_eq!(read(&out.join(file.replace("pluck", "nothing"))).head, [2, 44100, bits, 0]);
        let silent = both.iter().zip(&samples).filter(|(sample, _)| **sample == 0.0);
        assert!(silent.into_iter().all(|(_, step)| *step == 0));
        is_clean(&out);
    }
    // An odd number of bytes.
    let (odd, _) = render(&folder, "odd", GOOD, &["--bits", "24"]);
    assert_eq!(read(&odd.join("pluck.wav")).head, [1, 44100, 24, n as i64]);
}

#[test]
fn an_end_is_faded_and_the_rest_is_the_voice_s() {
    let folder = Folder::new("fade");
    let (own, _) = render(&folder, "own", GOOD, &["--fade", "0"]);
    let (faded, _) = render(&folder, "faded", GOOD, &[]);
    let [own, faded] = [own, faded].map(|out| floats(&read(&out.join("pluck.wav"))));
    assert!(own[..1764] == faded[..1764]);
    assert!(own[2000] != 0.0 && faded[2204] == 0.0);
    let pairs = own[1764..].iter().zip(&faded[1764..]);
    assert!(pairs.into_iter().all(|(own, faded)| faded.abs() <= own.abs()));
}

#[test]
fn tags_say_what_a_file_is_and_no_time() {
    let folder = Folder::new("tags");
    let rows = "low,string,220hz,0.05,trigger,0.5,0.3,0.5,0.5\nhigh,modal,452.9hz,0.05,trigger,0.5,0.3,0.5,0.5\n";
    let (out, _) = render(&folder, "wav", rows, &[]);
    let comment = "low,string,220hz,0.05,trigger,0.5,0.3,0.5,0.5; seed 7";
    let tags = read(&out.join("low.wav")).tags;
    let said = |name: &str| tags[name].clone();
    assert_eq!([said("INAM"), said("ICMT"), said("bext")], ["low", comment, comment]);
    assert!(said("ISFT").starts_with("bleidhvan 0.1.0"), "{}", said("ISFT"));
    assert_eq!([said("originator"), said("date")], ["bleidhvan", ""]);
    assert_eq!([said("key"), said("fraction")], ["57", "0"]);
    // The peak chunk of floats has a time.
    assert!(!said("chunks").contains("PEAK"));
    let tags = read(&out.join("high.wav")).tags;
    assert_eq!(tags["key"], "69");
    assert!(
        (tags["fraction"].parse::<f64>().expect("a number") / 2f64.powi(32) - 0.5).abs() < 0.01
    );
    let (out, _) = render(&folder, "flac", rows, &["--format", "flac"]);
    let tags = read(&out.join("low.flac")).tags;
    assert_eq!([&tags["title"], &tags["comment"]], ["low", comment]);
}

#[test]
fn levels_are_told_and_come_to() {
    let folder = Folder::new("levels");
    let rows = "a,string,A3,1,trigger,0.5,0.3,0.5,0.5\nb,modal,69,1,sustain,0.9,0.5,0.9,0.9\n";
    let peak = |out: &Path, file: &str| {
        let read = read(&out.join(file));
        20.0 * floats(&read).iter().fold(0.0, |peak: f32, x| peak.max(x.abs())).log10()
    };
    let (own, _) = render(&folder, "own", rows, &[]);
    let (less, _) = render(&folder, "less", rows, &["--gain", "-6"]);
    let (full, _) = render(&folder, "full", rows, &["--normalise", "peak=-1"]);
    let (loud, _) = render(&folder, "loud", rows, &["--normalise", "loudness=-18"]);
    for (note, file) in ["a.wav", "b.wav"].into_iter().enumerate() {
        for out in [&own, &less, &full, &loud] {
            let told: f32 = cell(out, note, "peak_dbfs").parse().expect("a number");
            assert!((told - peak(out, file)).abs() < 0.01);
        }
        assert!((peak(&less, file) - peak(&own, file) + 6.0).abs() < 0.01);
        assert!((peak(&full, file) + 1.0).abs() < 0.01);
        let lufs: f64 = cell(&loud, note, "loudness_lufs").parse().expect("a number");
        assert!((lufs + 18.0).abs() <= 0.2, "{lufs}");
    }
}

#[test]
fn what_clips_is_silent_or_empty_is_warned_of() {
    let folder = Folder::new("warned");
    let rows = "hot,modal,69,0.5,sustain,1,0.5,1,1\nempty,modal,69,0,trigger,0.5,0.5,0.5,0.5\nshort,modal,69,0.1,trigger,0.5,0.5,0.5,0.5\n";
    let (out, error) = render(&folder, "hot", rows, &["--bits", "16"]);
    assert!(
        error.starts_with("warning: line 2, hot: ")
            && error.contains(" samples clip: write --gain -"),
        "{error}"
    );
    assert!(error.contains("warning: line 3, empty: it is empty"), "{error}");
    assert!(cell(&out, 0, "warning").contains("samples clip"));
    let page = fs::read_to_string(out.join("index.html")).expect("the page is read");
    assert!(page.contains("<b>Warning: it is empty"));
    let gain =
        error.split("--gain ").nth(1).and_then(|rest| rest.split(',').next()).expect("a gain");
    let (_, error) = render(&folder, "cooler", rows, &["--bits", "16", "--gain", gain]);
    assert!(!error.contains("clip"), "{error}");
    let (_, error) = render(&folder, "floats", rows, &[]);
    assert!(!error.contains("clip"), "{error}");
    let (_, error) =
        render(&folder, "loud flac", rows, &["--normalise=loudness=-3", "--format=flac"]);
    let lower = error.split("write --normalise ").nth(1).and_then(|rest| rest.split(',').next());
    let lower = format!("--normalise={}", lower.expect("a loudness"));
    let (_, error) = render(&folder, "lower", rows, &[&lower, "--format=flac"]);
    assert!(!error.contains("clip"), "{lower}: {error}");
    let (_, error) = render(&folder, "loud", rows, &["--normalise", "loudness=-18"]);
    assert!(error.contains("line 4, short: its loudness cannot be measured"), "{error}");
}

#[test]
fn a_note_that_rings_ends_where_it_has_died_away() {
    let folder = Folder::new("ring");
    let rows = "a,modal,A3,ring,trigger,0.5,0.3,0.5,0.4\nb,string,A4,ring,trigger,0.5,0.3,0.5,0.3\nc,string,A2,ring,trigger,0.9,0.1,0.9,1\n";
    let (out, _) = render(&folder, "ring", rows, &["--fade", "0"]);
    for (note, file) in ["a.wav", "b.wav"].into_iter().enumerate() {
        let sound = floats(&read(&out.join(file)));
        let peak = sound.iter().fold(0.0, |peak: f32, x| peak.max(x.abs()));
        let seconds = sound.len() as f64 / 44100.0;
        assert!(seconds > 0.2 && seconds < 60.0, "{file}: {seconds}");
        let last = sound.iter().rposition(|x| x.abs() > peak * 3.1622777e-5).expect("a sound");
        assert!(sound.len() - last <= 24, "{file}: {}", sound.len() - last);
        // It is the beginning of the note that is given a minute.
        let rows = format!(
            "{},{},60,trigger,{}\n",
            &file[..1],
            ["modal,A3", "string,A4"][note],
            ["0.5,0.3,0.5,0.4", "0.5,0.3,0.5,0.3"][note]
        );
        let (long, _) = render(&folder, "long", &rows, &["--fade", "0"]);
        let long = floats(&read(&long.join(file)));
        assert!(long[..sound.len()] == sound[..]);
        assert!(long[sound.len()..].iter().all(|x| x.abs() <= peak * 3.1622777e-5));
    }
    assert!(read(&out.join("c.wav")).head[3] <= 60 * 44100);
    let rows = "d,modal,A3,ring,sustain,0.5,0.3,0.5,0.4\n";
    let (status, _, error) = said(&tool(&[&"render", &folder.sheet(rows), &"-o", &out]));
    assert!(status == 1 && error.contains("seconds is 'ring', and must be a number"), "{error}");
}

#[test]
fn an_instrument_has_a_region_a_note() {
    let folder = Folder::new("sfz");
    let (out, _) = render(&folder, "notes", GOOD, &["--format", "flac"]);
    let text = fs::read_to_string(out.join("notes.sfz")).expect("the instrument is read");
    let regions: Vec<&str> = text.lines().filter(|line| line.starts_with("<region>")).collect();
    assert_eq!(regions.len(), 5);
    assert_eq!(regions[0], "<region> key=57 pitch_keycenter=57 tune=0 sample=pluck.flac");
    assert_eq!(regions[3], "<region> key=73 pitch_keycenter=73 tune=0 sample=bowl, rubbed.flac");
    for region in regions {
        let (_, sample) = region.split_once("sample=").expect("a sample");
        assert!(out.join(sample).exists(), "{sample}");
    }
}

#[test]
fn a_folder_is_verified() {
    let folder = Folder::new("verify");
    for options in
        [&[][..], &["--format", "flac", "--aux", "--normalise", "peak=-3"], &["--bits", "16"]]
    {
        let name = format!("notes{options:?}").replace(['"', '[', ']', ' '], "");
        let rows = format!("{GOOD}ring,string,A5,ring,trigger,0.5,0.3,0.5,0.3\n");
        let (out, _) = render(&folder, &name, &rows, options);
        for again in [&[][..], &["--again", "--jobs", "2"]] {
            let verify = || {
                let mut words: Vec<&dyn AsRef<OsStr>> = vec![&"verify", &out];
                words.extend(again.iter().map(|word| word as &dyn AsRef<OsStr>));
                said(&tool(&words))
            };
            let whole = "6 files listed = 6 whole + 0 wrong\n";
            assert_eq!(verify(), (0, whole.into(), String::new()));
            let file = out.join(cell(&out, 1, "file"));
            let bytes = fs::read(&file).expect("the file is read");
            fs::write(&file, &bytes[1..]).expect("the file is damaged");
            let (status, text, error) = verify();
            assert_eq!((status, &text[..]), (1, "6 files listed = 5 whole + 1 wrong\n"));
            assert!(error.contains(": it is not as it was rendered"), "{error}");
            fs::remove_file(&file).expect("the file is removed");
            assert!(verify().2.contains("No such file"));
            fs::write(&file, &bytes).expect("the file is there again");
        }
        // A line that says what the file is not made of.
        let catalogue = out.join("catalogue.csv");
        let text = fs::read_to_string(&catalogue).expect("the catalogue is read");
        fs::write(&catalogue, text.replace("modal,69,0.05", "modal,70,0.05"))
            .expect("it is written");
        assert_eq!(said(&tool(&[&"verify", &out])).0, 0);
        let (status, _, error) = said(&tool(&[&"verify", &out, &"--again"]));
        assert!(status == 1 && error.contains("rendered anew it is another file"), "{error}");
    }
    let (status, _, error) = said(&tool(&[&"verify", &folder.0]));
    assert!(status == 2 && error.contains("cannot be read"), "{error}");
}
