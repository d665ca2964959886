//! An instrument of the notes for samplers: SFZ, a region a note.

use crate::order::Order;
use crate::pitch;

pub const FILE: &str = "notes.sfz";

pub const HEADER: &str = "// The notes of catalogue.csv, a region each, by bleidhvan.
<control>
<global>
loop_mode=one_shot";

/// Whether a file that begins so is an instrument of this tool.
pub fn is_ours(beginning: &[u8]) -> bool {
    beginning.starts_with(b"// The notes of catalogue.csv")
}

/// The region of a note: its key plays it at its own pitch. SFZ takes what stands before a '=' for the name of something, so that a
/// note with one in its name is a comment.
pub fn region(order: &Order, file: &str) -> String {
    let Ok(note) = &order.note else { return String::new() };
    let (below, hundredths) = pitch::key(note.hertz);
    // The nearest key, and how far the sample is from it.
    let (key, tune) = match hundredths {
        ..=50 => (below, -i32::from(hundredths)),
        _ if below == 127 => (below, -i32::from(hundredths)),
        _ => (below + 1, 100 - i32::from(hundredths)),
    };
    let mark = if file.contains('=') { "// no sampler reads this name: " } else { "" };
    format!("{mark}<region> key={key} pitch_keycenter={key} tune={tune} sample={file}")
}

#[cfg(test)]
mod tests {
    use super::region;
    use crate::order::Orders;
    use crate::sheet::{COLUMNS, Sheet};
    use crate::tests::SETTINGS;

    #[test]
    fn a_region_has_the_nearest_key() {
        let cases = [("A3", "57", "0"), ("452hz", "69", "-47"), ("455hz", "70", "42")];
        for (note, key, tune) in cases {
            let text = format!("{}\nx,modal,{note},1,trigger,0,0,0,0\n", COLUMNS.join(","));
            let sheet = Sheet::new(text.as_bytes()).expect("a header");
            let order = Orders::new(sheet, &SETTINGS).next().expect("a note");
            let expected =
                format!("<region> key={key} pitch_keycenter={key} tune={tune} sample=x.wav");
            assert_eq!(region(&order, "x.wav"), expected);
            assert!(region(&order, "x key=3.wav").starts_with("// "));
        }
    }
}
