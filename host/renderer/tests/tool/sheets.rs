//! What becomes of sheets that are wrong in a part or in whole.

use crate::run::{BESIDE, Folder, GOOD, HEADER, WARNING, files, lines, said, tool, with_notes};
use std::fs;

#[test]
fn a_refused_note_has_its_line_and_stops_no_other() {
    let folder = Folder::new("refused");
    let rows = "a,string,A3,0.01,trigger,0.5,1.5,0.5,0.5
b,string,A3,0.01,trigger,0.5,0.5,0.5,0.5
c,drum,A3,0.01,trigger,0.5,0.5,0.5,0.5
d,modal,30000hz,0.01,trigger,0.5,0.5,0.5,0.5
B,modal,A3,0.01,trigger,0.5,0.5,0.5,0.5
../e,modal,A3,0.01,trigger,0.5,0.5,0.5,0.5
f,modal,A3,-1,trigger,0.5,0.5,0.5,0.5
g,modal,A3,0.01,trigger,NaN,x,0.5,0.5
h,modal,A3,0.01,trigger,NaN,0.5,0.5,0.5
i,modal,A3
j,modal,H3,0.01,trigger,0.5,0.5,0.5,0.5
k,modal,A3,0.01,sustain,0.5,0.5,0.5,0.5
";
    let out = folder.path("notes");
    let (status, text, error) = said(&tool(&[&"render", &folder.sheet(rows), &"-o", &out]));
    assert_eq!(status, 1);
    assert!(text.starts_with("12 notes ordered = 2 rendered + 10 refused\n"), "{text}");
    let lines = lines(&out);
    let reasons = [
        "a,refused,,,,,,,11,structure,1.5,0 to 1,\"structure is '1.5', and must be 0 to 1\",2",
        "b,rendered,b.wav,480,",
        "c,refused,,,,,,,,kind,drum,string or modal,\"kind is 'drum', and must be string or modal\",4",
        "d,refused,,,,,,,9,note,30000hz,\"0.0458hz to 24000hz, or C-1 to G9\",\"note is '30000hz', and must",
        "B,refused,,,,,,,,name,B,\"another: it is that of line 3, as file systems compare names\",",
        "../e,refused,,,,,,,,name,../e,",
        "f,refused,,,,,,,,seconds,-1,\"a number from 0 to 3600, or ring for a struck note\",",
        "g,refused,,,,,,,,structure,x,a number such as 0.5,",
        "h,refused,,,,,,,10,accent,NaN,0 to 1,",
        "i,refused,,,,,,,,,,,\"the row has 3 cells, where the header has 9\"",
        "j,refused,,,,,,,,note,H3,\"a name such as A3",
        "k,rendered,k.wav,480,",
    ];
    for (line, reason) in lines[1..].iter().zip(reasons) {
        assert!(line.starts_with(reason), "{line}\nis not\n{reason}");
    }
    assert_eq!(lines.len(), 13);
    let page = fs::read_to_string(out.join("index.html")).expect("the page is read");
    assert!(page.contains("Line 2 refused (number 11): structure is '1.5', and must be 0 to 1."));
    assert!(error.starts_with("refused: line 2, a: structure is '1.5', and must be 0 to 1\n"));
    assert!(
        error.contains("\nrefused: line 5, d: note is '30000hz', and must be 0.0458hz to 24000hz")
    );
    assert_eq!(error.lines().count(), 10);
    let names: Vec<String> = files(&out).into_keys().collect();
    assert_eq!(names, with_notes(&["b.wav", "k.wav"]));
}

#[test]
fn a_wrong_header_names_the_columns() {
    let folder = Folder::new("header");
    let out = folder.path("notes");
    let sheet = folder.path("sheet.csv");
    let error = |bytes: &[u8]| {
        fs::write(&sheet, bytes).expect("the sheet is written");
        let (status, _, error) = said(&tool(&[&"render", &sheet, &"-o", &out]));
        assert_eq!(status, 2, "{error}");
        error
    };
    assert!(error(b"name,kind,note\n").contains("missing in the header: 'seconds', 'play'"));
    assert!(error(format!("{HEADER},pan\n").as_bytes()).contains("unknown in the header: 'pan'"));
    assert!(error(b"\xff\xfen\0a\0").contains("UTF-16, or no text at all: save as CSV (UTF-8)"));
    let zip = error(b"PK\x03\x04\x14\0\x08\x08");
    assert!(zip.contains("sheet.csv: this is a spreadsheet's own file: save as CSV"), "{zip}");
    assert!(!out.exists());
}

#[test]
fn a_stray_quote_refuses_its_line_alone() {
    let folder = Folder::new("quote");
    let rows: Vec<&str> = GOOD.lines().collect();
    for (place, row) in rows.iter().enumerate() {
        let out = folder.path(&place.to_string());
        let stray = format!("\"{}", row.replace('"', ""));
        let mut sheet = rows.clone();
        sheet[place] = &stray;
        let (status, text, error) =
            said(&tool(&[&"render", &folder.sheet(&sheet.join("\r\n")), &"-o", &out]));
        assert_eq!(status, 1);
        assert!(text.starts_with("5 notes ordered = 4 rendered + 1 refused\n"), "{text}");
        assert!(error.starts_with(&format!("refused: line {}, ", place + 2)), "{error}");
        assert!(error.contains("a quote does not end on its line: take it out, or write \"\""));
    }
}

#[test]
fn tabs_semicolons_and_any_line_end_give_the_same_notes() {
    let folder = Folder::new("forms");
    let text = format!("{HEADER}\n{}", GOOD.replace("\"bowl, rubbed\"", "bowl"));
    let notes = |name: &str, text: &str| {
        let (sheet, out) = (folder.path(&format!("{name}.csv")), folder.path(name));
        fs::write(&sheet, text).expect("the sheet is written");
        let (status, _, error) = said(&tool(&[&"render", &sheet, &"-o", &out]));
        assert_eq!((status, &error[..]), (0, WARNING), "{name}");
        files(&out)
    };
    let plain = notes("plain", &text);
    assert_eq!(plain.len(), 5 + BESIDE.len());
    let marked = format!("\u{feff}{text}");
    let forms = [
        ("semicolons", text.replace(',', ";")),
        ("tabs", text.replace(',', "\t")),
        ("crlf", text.replace('\n', "\r\n")),
        ("cr", text.replace('\n', "\r")),
        ("mark", marked),
        ("all", format!("\u{feff}{}", text.replace(',', "\t").replace('\n', "\r\n"))),
    ];
    for (name, text) in forms {
        assert!(notes(name, &text) == plain, "{name}");
    }
}

#[test]
fn a_refused_row_takes_no_name_from_a_later_one() {
    let folder = Folder::new("twins");
    let out = folder.path("notes");
    let rows = "a,string,A3,0.01,trigger,0.5,1.5,0.5,0.5
a,string,A3,0.01,trigger,0.5,0.5,x,0.5
a,string
a,string,A3,0.01,trigger,0.5,0.5,0.5,0.5
A,modal,A3,0.01,trigger,0.5,0.5,0.5,0.5
caf\u{e9},modal,A3,0.01,trigger,0.5,0.5,0.5,0.5
cafe\u{301},modal,A3,0.01,trigger,0.5,0.5,0.5,0.5
a\u{200b},modal,A3,0.01,trigger,0.5,0.5,0.5,0.5
aux,modal,A3,0.01,trigger,0.5,0.5,0.5,0.5
";
    let (status, text, error) = said(&tool(&[&"render", &folder.sheet(rows), &"-o", &out]));
    assert_eq!(status, 1);
    assert!(text.starts_with("9 notes ordered = 2 rendered + 7 refused\n"), "{text}");
    assert!(error.contains("line 6, A: name is 'A', and must be another: it is that of line 5"));
    assert!(error.contains("must be another: it is that of line 7"));
    assert!(error.contains("without the character U+200B"));
    assert!(error.contains("name is 'aux', and must be another: Windows keeps"));
    let names: Vec<String> = files(&out).into_keys().collect();
    assert_eq!(names, with_notes(&["a.wav", "caf\u{e9}.wav"]));
}

#[test]
fn twenty_refused_notes_are_told_and_the_rest_counted() {
    let folder = Folder::new("told");
    let out = folder.path("notes");
    let rows: String =
        (0..45).map(|k| format!("n{k},drum\u{1b}[2J,A3,1,trigger,0,0,0,0\n")).collect();
    let sheet = folder.sheet(&rows);
    let (status, _, error) = said(&tool(&[&"render", &sheet, &"-o", &out]));
    assert_eq!((status, error.lines().count()), (1, 21));
    assert!(error.ends_with("\n25 more, which catalogue.csv names\n"), "{error}");
    assert!(!error.contains('\u{1b}'));
    let (status, text, error) = said(&tool(&[&"render", &sheet, &"-o", &out, &"--quiet"]));
    assert_eq!((status, &text[..], &error[..]), (1, "", ""));
}

#[test]
fn a_header_without_rows_is_said_and_nothing_written() {
    let folder = Folder::new("empty");
    let out = folder.path("notes");
    for rows in ["", "\n\n", ",,,,,,,,\n"] {
        let (status, text, error) = said(&tool(&[&"render", &folder.sheet(rows), &"-o", &out]));
        assert_eq!((status, &text[..]), (1, ""));
        assert!(
            error.contains("orders no note: it has a header, and no line behind it"),
            "{error}"
        );
    }
    assert!(!out.exists());
}
