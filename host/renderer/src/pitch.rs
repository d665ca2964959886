//! A note as a frequency: a name, a number or hertz.

use bleidhvan::Knob;

/// 2^(k/12) for the semitones of an octave, so that a pitch has the same bits on every machine.
const RATIOS: [f64; 12] = [
    1.0,
    1.0594630943592953,
    1.122462048309373,
    1.189207115002721,
    1.2599210498948732,
    1.3348398541700344,
    std::f64::consts::SQRT_2,
    1.4983070768766815,
    1.5874010519681996,
    1.681792830507429,
    1.7817974362806785,
    1.887748625363387,
];

/// What to write in the column.
pub const FORMS: &str = "a name such as A3 or C#4, a number such as 57, or a frequency such as 220hz; numbers and names go from 0 (C-1) to 127 (G9)";

/// The frequency of a note in hertz.
pub fn hertz(note: &str) -> Option<f64> {
    let note = note.trim();
    if let Some(hz) = note.to_ascii_lowercase().strip_suffix("hz") {
        return hz.trim().parse().ok();
    }
    let number = note.parse().ok().or_else(|| named(note));
    number.filter(|n| (0..=127).contains(n)).map(of_number)
}

/// A frequency as the bank takes it.
pub fn f0(hertz: f64, rate: u32) -> f32 {
    (hertz / f64::from(rate)) as f32
}

/// The key at or below a frequency, held to those of a keyboard, and the hundredths of a semitone above it.
pub fn key(hertz: f64) -> (u8, u8) {
    let hundredths = (6900.0 + 1200.0 * (hertz / 440.0).log2()).round().clamp(0.0, 12799.0) as u16;
    ((hundredths / 100) as u8, (hundredths % 100) as u8)
}

/// The notes that the bank accepts at a sample rate, in hertz and as names.
pub fn range(rate: u32) -> String {
    let accepted = Knob::F0.range();
    let [low, high] = [accepted.start(), accepted.end()].map(|f0| f64::from(*f0) * f64::from(rate));
    // Rounded up, so that the low end is itself accepted.
    let low = (low * 1e4).ceil() / 1e4;
    let is_accepted = |number: &i32| accepted.contains(&f0(of_number(*number), rate));
    let [first, last] = [(0..128).find(is_accepted), (0..128).rfind(is_accepted)];
    let [first, last] = [first, last].map(|number| name(number.unwrap_or_default()));
    format!("{low}hz to {high}hz, or {first} to {last}")
}

/// The name of a note's number.
fn name(number: i32) -> String {
    let names = ["C", "C#", "D", "D#", "E", "F", "F#", "G", "G#", "A", "A#", "B"];
    format!("{}{}", names[number.rem_euclid(12) as usize], number.div_euclid(12) - 1)
}

/// The number of a note's name; C4 is 60.
fn named(note: &str) -> Option<i32> {
    let mut rest = note.chars();
    let letter = rest.next()?.to_ascii_uppercase();
    let place = [('C', 0), ('D', 2), ('E', 4), ('F', 5), ('G', 7), ('A', 9), ('B', 11)];
    let (_, place) = place.into_iter().find(|(name, _)| *name == letter)?;
    let rest = rest.as_str();
    let octave = rest.trim_start_matches(['#', '♯', 'b', '♭']);
    let accidentals = rest[..rest.len() - octave.len()].chars();
    let semitones: i32 = accidentals.map(|c| if matches!(c, '#' | '♯') { 1 } else { -1 }).sum();
    let octave: i32 = octave.parse().ok().filter(|octave| (-2..=10).contains(octave))?;
    Some(12 * (octave + 1) + place + semitones)
}

/// 440 hertz at 69, twelve equal semitones an octave.
fn of_number(number: i32) -> f64 {
    let above = number - 69;
    let octaves = above.div_euclid(12);
    let ratio = RATIOS[above.rem_euclid(12) as usize];
    440.0 * ratio * 2f64.powi(octaves)
}

#[cfg(test)]
mod tests {
    use super::{hertz, key, name, range};

    #[test]
    fn a_frequency_is_a_key_and_hundredths() {
        let cases = [(440.0, (69, 0)), (220.0, (57, 0)), (452.9, (69, 50)), (0.1, (0, 0))];
        for (hertz, expected) in cases {
            assert_eq!(key(hertz), expected, "{hertz}");
        }
        assert_eq!(key(23000.0), (127, 99));
        for number in 0..128 {
            let note: i32 = number;
            assert_eq!(key(hertz(&note.to_string()).unwrap()), (note as u8, 0));
        }
    }

    #[test]
    fn names_numbers_and_hertz_agree() {
        for note in ["A3", "57", "220hz", "220.0 Hz", "a3", "G##3", "Bbb3"] {
            assert_eq!(hertz(note), Some(220.0), "{note}");
        }
        assert_eq!(hertz("C4"), hertz("60"));
        assert_eq!(hertz("C-1"), hertz("0"));
        assert_eq!(hertz("Cb4"), hertz("59"));
        assert!((hertz("C4").unwrap() - 261.6255653005986).abs() < 1e-10);
        for number in 0..128 {
            assert_eq!(hertz(&name(number)), hertz(&number.to_string()));
        }
    }

    #[test]
    fn anything_else_is_no_note() {
        for note in ["", "H3", "A", "A99", "128", "-1", "57.5", "hz", "A3x", "♯3", "b"] {
            assert_eq!(hertz(note), None, "{note}");
        }
    }

    #[test]
    fn the_range_is_said_in_hertz_and_names() {
        assert_eq!(range(48000), "0.0458hz to 24000hz, or C-1 to G9");
        assert_eq!(range(8000), "0.0077hz to 4000hz, or C-1 to B7");
        assert_eq!(range(44101), "0.0421hz to 22050.5hz, or C-1 to G9");
    }
}
