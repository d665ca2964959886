//! What a good sheet gives.

use crate::run::{BESIDE, Folder, GOOD, files, lines, said, tool};
use crate::wave::sha256;
use std::fs;

#[test]
fn a_good_sheet_is_rendered_whole() {
    let folder = Folder::new("good");
    let out = folder.path("notes");
    let output = tool(&[&"render", &folder.sheet(GOOD), &"-o", &out]);
    let (status, text, error) = said(&output);
    assert_eq!(status, 0);
    assert_eq!(error, "warning: line 6, nothing: it is empty: write more than 0 in seconds\n");
    assert!(text.starts_with("5 notes ordered = 5 rendered + 0 refused\n"), "{text}");
    let lines = lines(&out);
    assert_eq!(lines.len(), 6);
    assert!(lines[1].starts_with("pluck,rendered,pluck.wav,2400,0."), "{}", lines[1]);
    assert!(lines[4].starts_with("\"bowl, rubbed\",rendered,\"bowl, rubbed.wav\",960,"));
    let nothing = "nothing,rendered,nothing.wav,0,0,0,0,0,,,,,,6,,,0.000,it is empty: write more than 0 in seconds,\
        modal,C4,0,trigger,0.5,0.2,0.6,0.7,0,48000,24,wav float32,1,gain=0,10,0.1.0 libsndfile-";
    assert!(lines[5].starts_with(nothing), "{}", lines[5]);
    assert!(lines[5].ends_with(&sha256(&out.join("nothing.wav"))), "{}", lines[5]);
    let page = fs::read_to_string(out.join("index.html")).expect("the page is read");
    assert!(page.contains("5 notes ordered = 5 rendered + 0 refused."));
    assert!(page.contains("src=\"bowl%2C%20rubbed.wav\""));
    let names: Vec<String> = files(&out).into_keys().collect();
    let wavs = ["bar", "bow", "bowl, rubbed", "nothing", "pluck"].map(|name| format!("{name}.wav"));
    let mut expected = [&wavs[..], &BESIDE.map(String::from)].concat();
    expected.sort();
    assert_eq!(names, expected);
}

#[test]
fn jobs_and_order_change_no_byte() {
    let folder = Folder::new("jobs");
    let many: String = (0..100)
        .map(|k| format!("n{k},modal,{},0.01,trigger,.5,.4,.5,.5\n", 30 + k % 60))
        .collect();
    let sheet = folder.sheet(&format!("{GOOD}{many}"));
    let render = |jobs: &str| {
        let out = folder.path(jobs);
        tool(&[&"render", &sheet, &"-o", &out, &"--jobs", &jobs, &"--quiet"]);
        files(&out)
    };
    let one = render("1");
    assert_eq!(one.len(), 105 + BESIDE.len());
    assert!(one == render("5"));
    let turned: String = GOOD.lines().rev().map(|line| format!("{line}\n")).collect();
    let out = folder.path("turned");
    tool(&[&"render", &folder.sheet(&turned), &"-o", &out]);
    assert_eq!(files(&out)["pluck.wav"], one["pluck.wav"]);
    let out = folder.path("seeded");
    tool(&[&"render", &folder.sheet(GOOD), &"-o", &out, &"--seed", &"1"]);
    assert_ne!(files(&out)["pluck.wav"], one["pluck.wav"]);
}

#[test]
fn many_notes_are_pages_that_lead_to_each_other() {
    let folder = Folder::new("pages");
    let out = folder.path("notes");
    let row = |k: usize| format!("n{k},modal,A3,0.001,trigger,.5,.4,.5,.5\n");
    let rows: String = (0..501).map(row).collect();
    assert_eq!(said(&tool(&[&"render", &folder.sheet(&rows), &"-o", &out])).0, 0);
    let page = |name: &str| fs::read_to_string(out.join(name)).expect("the page is read");
    let [first, second, third] = ["index.html", "index-2.html", "index-3.html"].map(page);
    let rows = |page: &str| page.matches("<tr><th>n").count();
    assert_eq!([rows(&first), rows(&second), rows(&third)], [250, 250, 1]);
    assert!(first.contains("501 notes ordered = 501 rendered + 0 refused."));
    assert!(second.contains("Notes 251 to 500 of 501.") && third.contains("<tr><th>n500<td>"));
    assert!(first.contains("<a href=\"index-2.html\">next</a>"));
    assert!(second.contains("<a href=\"index.html\">before</a>"));
    assert!(third.contains("<span>next</span>") && third.ends_with("</nav>\n</main>\n"));
    assert_eq!(said(&tool(&[&"render", &folder.sheet(GOOD), &"-o", &out])).0, 0);
    let names: Vec<String> =
        files(&out).into_keys().filter(|name| name.contains("index")).collect();
    assert_eq!(names, &BESIDE[1..5]);
    assert!(!page("index.html").contains("<nav>"));
}
