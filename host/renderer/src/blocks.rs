//! A voice played block after block, in blocks as long as give the very samples of short ones.
//!
//! docs/DECISIONS.md says why they do.

use crate::note::Note;
use bleidhvan::{Bank, Counts, Kind, Knobs, Refusal, layout};

/// The frames of a short block, as many as the instrument itself renders at once.
pub const SHORT: usize = 24;

/// The frames of a long block: as many short ones as a render takes at once.
pub const LONG: usize = 170 * SHORT;

/// A block that was played.
pub struct Block<'a> {
    pub out: &'a [f32],
    pub aux: &'a [f32],
    pub counts: Counts,
}

/// A voice in the slot 0 of a bank of its own.
pub struct Blocks {
    bank: Bank,
    knobs: Knobs,
    buffers: [Vec<f32>; 4],
    /// Whether the samples from here on are the same in longer blocks.
    is_free: bool,
}

impl Blocks {
    /// Blocks of at most the longest many frames, a multiple of a short block's.
    pub fn new(bank: Bank, note: &Note, longest: usize) -> Self {
        let buffers = std::array::from_fn(|_| vec![0.0; longest]);
        Blocks { bank, knobs: note.knobs, buffers, is_free: note.kind == Kind::Modal }
    }

    /// Plays the next of the frames that are left, in buffers that were silent.
    pub fn next(&mut self, left: u64) -> Result<Block<'_>, Refusal> {
        let n = self.frames(left);
        let before = self.string();
        let [_, _, out, aux] = &mut self.buffers;
        out[..n].fill(0.0);
        aux[..n].fill(0.0);
        let buffers = self.buffers.each_mut().map(|buffer| &mut buffer[..n]);
        let counts = self.bank.render(0, &self.knobs, buffers)?;
        self.knobs.trigger = false;
        self.is_free |= n == SHORT && frees(before, self.string(), counts);
        let [_, _, out, aux] = &self.buffers;
        Ok(Block { out: &out[..n], aux: &aux[..n], counts })
    }

    /// The frames of the next block: whole short blocks, and what is left behind these by itself.
    fn frames(&self, left: u64) -> usize {
        let most = if self.is_free { self.buffers[0].len() } else { SHORT };
        let whole = left - left % SHORT as u64;
        (if whole > 0 { whole.min(most as u64) } else { left }) as usize
    }

    fn string(&self) -> StringAt {
        let slot = layout::slot_bytes(self.bank.bytes(), 0);
        StringAt { place: layout::string_place(slot), delay: layout::delay(slot) }
    }
}

/// Where a string writes, and its delay.
#[derive(Clone, Copy)]
struct StringAt {
    place: u32,
    delay: u32,
}

/// Whether a string that played this short block plays the same in longer ones from now on: it took a step that left its delay, and
/// all words that it draws are for one thing.
fn frees(before: StringAt, after: StringAt, counts: Counts) -> bool {
    let is_settled = before.place != after.place && before.delay == after.delay;
    is_settled && (counts.dispersion == 0 || counts.burst + counts.dust == 0)
}

#[cfg(test)]
mod tests {
    use super::{LONG, SHORT};
    use crate::chance::Chance;
    use crate::format::FORMATS;
    use crate::known::Known;
    use crate::run::Run;
    use crate::settings::{Level, Settings};
    use crate::sheet::{COLUMNS, Sheet};
    use crate::stop::Stop;
    use crate::tests::{SETTINGS, Scratch};
    use std::collections::BTreeMap;
    use std::fs;

    impl Chance {
        /// A knob: one of a few values, or any.
        fn knob(&mut self, few: &[f64]) -> f64 {
            if self.below(2) == 0 { self.of(few) } else { self.part() }
        }

        /// Frames around the ends of blocks, and up to some seconds.
        fn frames(&mut self, rate: u32) -> u64 {
            match self.below(4) {
                0 => self.below(120),
                1 => SHORT as u64 * self.below(400) + self.below(3),
                2 => (LONG as u64 * self.below(5) + self.below(2000)).saturating_sub(1000),
                _ => (self.part() * self.part() * 3.0 * f64::from(rate)) as u64,
            }
        }

        /// A pitch, also one that a string's line is too short for.
        fn f0(&mut self) -> f64 {
            let octaves = if self.below(3) == 0 { 19.0 } else { 9.0 };
            0.5 * 2f64.powf(-octaves * self.part())
        }

        fn settings(&mut self) -> Settings {
            Settings {
                seed: self.below(1 << 31) as u32,
                rate: self.of(&[8000, 44100, 48000, 96000, 192000]),
                format: self.of(&FORMATS),
                aux: self.below(2) == 0,
                level: self.of(&[Level::Gain(0.0), Level::Gain(-3.0), Level::Peak(-1.0)]),
                fade: self.of(&[0.0, 10.0]),
                longest: LONG,
            }
        }

        fn row(&mut self, name: usize, rate: u32) -> String {
            const STRUCTURE: [f64; 9] = [0.0, 0.2399, 0.24, 0.25, 0.26, 0.2601, 0.82, 0.9, 1.0];
            let kind = self.of(&["string", "string", "string", "modal"]);
            let play = self.of(&["trigger", "trigger", "sustain"]);
            let hertz = self.f0() * f64::from(rate);
            let seconds = self.frames(rate) as f64 / f64::from(rate);
            let seconds = match (play, self.below(40)) {
                ("trigger", 0) => "ring".into(),
                _ => seconds.to_string(),
            };
            let accent = self.knob(&[0.0, 0.8, 1.0]);
            let structure = match self.below(3) {
                0 => 0.235 + 0.03 * self.part(),
                _ => self.knob(&STRUCTURE),
            };
            let brightness = self.knob(&[0.0, 1.0]);
            let damping = self.knob(&[0.0, 0.94, 0.95, 0.96, 1.0]);
            format!(
                "{name},{kind},{hertz}hz,{seconds},{play},{accent},{structure},{brightness},{damping}\n"
            )
        }
    }

    /// The files of a sheet of these rows, which are all rendered.
    fn files(rows: &str, settings: &Settings) -> BTreeMap<String, Vec<u8>> {
        let scratch = Scratch::new("blocks");
        let (folder, known) = (scratch.folder(), Known::default());
        let text = format!("{}\n{rows}", COLUMNS.join(","));
        let sheet = Sheet::new(text.as_bytes()).expect("the sheet has its header");
        let stop = Stop::default();
        let run = Run {
            folder: &folder,
            known: &known,
            settings,
            ordered: rows.lines().count(),
            jobs: 2,
            stop: &stop,
            is_forced: false,
            piece: None,
        };
        let (sum, _) = run.run(sheet, |order| run.play(order)).expect("the folder is written");
        assert_eq!(sum.rendered, rows.lines().count());
        let entries = fs::read_dir(&scratch.0).expect("the folder is read");
        let files = entries.map(|entry| {
            let path = entry.expect("an entry").path();
            let name = path.file_name().expect("a name").to_string_lossy().into_owned();
            (name, fs::read(path).expect("the file is read"))
        });
        files.collect()
    }

    /// Holds the files of a sheet, with its catalogue and its page, to those of short blocks throughout.
    fn hold(rows: &str, settings: &Settings) {
        let short = files(rows, &Settings { longest: SHORT, ..*settings });
        let long = files(rows, settings);
        assert!(long.keys().eq(short.keys()));
        let others: Vec<&String> = long.keys().filter(|name| long[*name] != short[*name]).collect();
        assert!(others.is_empty(), "{others:?} differ with {settings:?}:\n{rows}");
    }

    /// SHEETS is how many sheets of 24 notes are tried.
    #[test]
    fn long_blocks_change_no_byte() {
        let sheets = std::env::var("SHEETS").map_or(20, |sheets| sheets.parse().expect("a number"));
        let mut chance = Chance(2026);
        for _ in 0..sheets {
            let settings = chance.settings();
            let rows: String = (0..24).map(|name| chance.row(name, settings.rate)).collect();
            hold(&rows, &settings);
        }
    }

    #[test]
    fn a_string_that_grows_to_nan_has_the_bits_of_short_blocks() {
        let settings = Settings { rate: 8000, aux: true, longest: LONG, ..SETTINGS };
        let rows = "struck,string,238hz,560,trigger,1,0.24,1,1\nbowed,string,238hz,530,sustain,1,0.24,1,1\n";
        let heard = files(rows, &settings);
        for name in ["struck.wav", "bowed.wav"] {
            let bytes = &heard[name];
            let data = bytes.windows(4).position(|word| word == b"data").expect("data");
            let (samples, _) = bytes[data + 8..].as_chunks();
            assert!(samples.iter().any(|bytes| f32::from_le_bytes(*bytes).is_nan()), "{name}");
        }
        let catalogue = String::from_utf8_lossy(&heard["catalogue.csv"]).into_owned();
        assert_eq!(catalogue.matches(" samples are no numbers: ").count(), 2);
        hold(rows, &settings);
    }
}
