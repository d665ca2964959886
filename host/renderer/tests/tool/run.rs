//! A run of the tool in a folder of a test's own.

use std::collections::BTreeMap;
use std::fs;
use std::path::{Path, PathBuf};
use std::process::{Child, Command, Output, Stdio};
use std::thread::sleep;
use std::time::{Duration, Instant};

pub const HEADER: &str = "name,kind,note,seconds,play,accent,structure,brightness,damping";

pub const GOOD: &str = "pluck,string,A3,0.05,trigger,0.5,0.3,0.5,0.5
bar,modal,69,0.05,trigger,0.5,1,0.5,0.5
bow,string,220hz,0.02,sustain,0.5,0.8,0.6,0.7
\"bowl, rubbed\",modal,C#5,0.02,sustain,0.5,0.2,0.6,0.7
nothing,modal,C4,0,trigger,0.5,0.2,0.6,0.7
";

/// What is said of the last of these.
pub const WARNING: &str = "warning: line 6, nothing: it is empty: write more than 0 in seconds\n";

/// A folder of a test's own, removed with it.
pub struct Folder(pub PathBuf);

impl Folder {
    pub fn new(name: &str) -> Self {
        let path = std::env::temp_dir().join(format!("bleidhvan-{name}-{}", std::process::id()));
        drop(fs::remove_dir_all(&path));
        fs::create_dir_all(&path).expect("a folder is made");
        Folder(path)
    }

    pub fn path(&self, name: &str) -> PathBuf {
        self.0.join(name)
    }

    /// Writes a sheet of these rows.
    pub fn sheet(&self, rows: &str) -> PathBuf {
        let path = self.path("sheet.csv");
        fs::write(&path, format!("{HEADER}\n{rows}")).expect("the sheet is written");
        path
    }
}

impl Drop for Folder {
    fn drop(&mut self) {
        drop(fs::remove_dir_all(&self.0));
    }
}

pub fn tool(words: &[&dyn AsRef<std::ffi::OsStr>]) -> Output {
    let mut command = Command::new(env!("CARGO_BIN_EXE_bleidhvan"));
    words.iter().for_each(|word| _ = command.arg(word));
    command.output().expect("the tool runs")
}

/// Runs the tool from a shell's script, in which it is "$0" and its words "$@".
pub fn tool_in(script: &str, words: &[&dyn AsRef<std::ffi::OsStr>]) -> Output {
    let mut command = Command::new("sh");
    command.arg("-c").arg(script).arg(env!("CARGO_BIN_EXE_bleidhvan"));
    words.iter().for_each(|word| _ = command.arg(word));
    command.output().expect("sh runs")
}

/// The exit status, standard output and standard error.
pub fn said(output: &Output) -> (i32, String, String) {
    let text = |bytes: &[u8]| String::from_utf8(bytes.to_vec()).expect("UTF-8");
    (output.status.code().expect("no signal"), text(&output.stdout), text(&output.stderr))
}

/// The bytes of every file of a folder.
pub fn files(folder: &Path) -> BTreeMap<String, Vec<u8>> {
    let entries = fs::read_dir(folder).expect("the folder is read");
    entries
        .map(|entry| {
            let path = entry.expect("an entry").path();
            let name = path.file_name().expect("a name").to_string_lossy().into_owned();
            (name, fs::read(path).expect("the file is read"))
        })
        .collect()
}

pub fn lines(folder: &Path) -> Vec<String> {
    let text = fs::read_to_string(folder.join("catalogue.csv")).expect("the catalogue is read");
    text.lines().map(str::to_string).collect()
}

/// A long sheet: notes of 3 seconds.
pub fn long(notes: usize) -> String {
    let row = |k| format!("n{k},string,{},3,trigger,0.5,0.3,0.6,0.7\n", 30 + k % 60);
    (0..notes).map(row).collect()
}

/// The files beside the notes, where these are one page.
pub const BESIDE: [&str; 6] = [
    "catalogue.csv",
    "index-list.js",
    "index-spectra-1.js",
    "index-waves-1.js",
    "index.html",
    "notes.sfz",
];

/// The notes' files of a folder, and those that lie beside them.
pub fn with_notes(notes: &[&str]) -> Vec<String> {
    let mut names: Vec<String> = notes.iter().chain(&BESIDE).map(|name| name.to_string()).collect();
    names.sort();
    names
}

/// No file but whole notes that the catalogue lists, the catalogue and the page.
pub fn is_clean(folder: &Path) {
    let lines = lines(folder);
    for name in files(folder).into_keys() {
        let quoted = if name.contains(',') { format!("\"{name}\"") } else { name.clone() };
        let listed = lines.iter().any(|line| line.contains(&format!(",rendered,{quoted},")));
        assert!(
            listed || name == "catalogue.csv" || name == "notes.sfz" || name.starts_with("index"),
            "{name}"
        );
    }
}

/// Starts a render of a long sheet, and waits until it has written a note.
pub fn started(folder: &Folder, out: &Path) -> Child {
    let sheet = folder.sheet(&long(400));
    let mut command = Command::new(env!("CARGO_BIN_EXE_bleidhvan"));
    command.arg("render").arg(sheet).arg("-o").arg(out).args(["--jobs", "2"]);
    let child = command.stdout(Stdio::piped()).stderr(Stdio::piped()).spawn();
    let child = child.expect("the tool starts");
    let begun = Instant::now();
    // The lock comes before the journal.
    while !out.join("n5.wav").exists() {
        assert!(begun.elapsed() < Duration::from_secs(60), "no note in a minute");
        sleep(Duration::from_millis(5));
    }
    child
}

pub fn signal(child: &Child, name: &str) {
    let status = Command::new("kill").args([name, &child.id().to_string()]).status();
    assert!(status.expect("kill runs").success());
}
