//! Random scores, most of them damaged: every line has its answer, and what is played is what the bank gives render by render.

use crate::blocks::SHORT;
use crate::chance::Chance;
use crate::lines::counted;
use crate::player::Player;
use crate::score::{COLUMNS, Cue, Reading, SLOTS, Score};
use crate::sheet::Sheet;
use crate::time::Meter;
use bleidhvan::{Bank, Counts, Knobs};

const READING: Reading =
    Reading { rate: 48000, meter: Meter { tempo: Some(150.0), beats: 4 }, frames: 200_000 };

/// A cell: one that is good, or one that is not.
fn cell(chance: &mut Chance, good: &[&str], bad: &[&str], faults: u64) -> String {
    let is_bad = chance.below(100) < faults;
    (if is_bad { chance.of(bad) } else { chance.of(good) }).to_string()
}

/// A row, each of whose cells is bad in so many of a hundred.
fn row(chance: &mut Chance, faults: u64, seconds: f64) -> String {
    let frame = chance.below((seconds * 48000.0) as u64);
    let time = match chance.below(4) {
        0 => chance.of(&["0", "1:1", "1:1.5", "0.005"]).to_string(),
        _ => format!("{}", frame as f64 / 48000.0),
    };
    let time = cell(chance, &[&time], &["-1", "x", "9999", "1:9", "nan", ""], faults);
    let cells = [
        time,
        cell(chance, &["0", "1", "2", "3", "4", "5", "6", " 7"], &["8", "-1", "", "1.5"], faults),
        cell(chance, &["string", "modal", "", "", " String"], &["drum"], faults),
        cell(
            chance,
            &["A3", "57", "220hz", "C#6", "D1"],
            &["H3", "1hz ", "30000hz", "0hz"],
            faults,
        ),
        cell(chance, &["trigger", "sustain", "", "Trigger"], &["strike"], faults),
        cell(chance, &["0.5", "0", "1"], &["2", "x", "-0.1"], faults),
        cell(chance, &["0.1", "0.25", "0.26", "0.7"], &["1.01", "nan"], faults),
        cell(chance, &["0.5", "0.2"], &["-1", ""], faults),
        cell(chance, &["0.5", "0.8"], &["1.5", "inf"], faults),
    ];
    cells.join(",")
}

fn text(chance: &mut Chance, rows: u64, faults: u64, seconds: f64) -> String {
    let mut text = COLUMNS.join(",") + "\n";
    for _ in 0..rows {
        let line = row(chance, faults, seconds);
        text += &line;
        text += chance.of(&["\n", "\n", "\n\n", "\"\n", ",\n"][..if faults > 0 { 5 } else { 3 }]);
    }
    text
}

fn score(text: &str) -> Score {
    Score::new(Sheet::of(text.as_bytes(), COLUMNS).expect("a header"), &READING)
}

#[test]
fn every_line_is_played_or_refused_in_five_thousand_scores() {
    let mut chance = Chance(31);
    let [mut played, mut refused] = [0; 2];
    for _ in 0..5_000 {
        let (rows, faults) = (chance.below(30), chance.of(&[0, 3, 20]));
        let text = text(&mut chance, rows, faults, 2.0);
        let Score { rows: answered, cues, kinds } = score(&text);
        assert_eq!([answered.len(), counted(text.as_bytes())], [rows as usize; 2], "{text}");
        let mut has_cue = vec![0; answered.len()];
        cues.iter().for_each(|cue| has_cue[cue.row] += 1);
        for (row, cues) in answered.iter().zip(&has_cue) {
            assert_eq!(*cues, usize::from(row.fault.is_none()), "{text}");
            let reason = row.fault.as_ref().map_or("played", |fault| &fault.reason);
            assert!(!reason.is_empty() && reason.len() < 400, "{reason}");
        }
        assert!(cues.windows(2).all(|pair| {
            (pair[0].frame, pair[0].slot, pair[0].row) < (pair[1].frame, pair[1].slot, pair[1].row)
        }));
        assert!(cues.iter().all(|cue| kinds[cue.slot].is_some()));
        played += cues.len();
        refused += answered.len() - cues.len();
    }
    assert!(played > 20_000 && refused > 20_000, "{played} and {refused}");
}

/// A render that is called by itself: the frame at which it begins, its slot, and its knobs.
type Render = (u64, usize, Knobs);

/// The renders of a score, found row by row: at every short block's begin those that are carried on, and at a row's frame its own.
fn renders(cues: &[Cue], end: u64) -> Vec<Render> {
    let mut renders = Vec::new();
    let mut carried: [Option<Knobs>; SLOTS] = [None; SLOTS];
    for frame in 0..end {
        let rows: Vec<&Cue> = cues.iter().filter(|cue| cue.frame == frame).collect();
        let is_cut = frame % SHORT as u64 == 0;
        for (slot, carried) in carried.iter_mut().enumerate() {
            let rows: Vec<&Cue> = rows.iter().filter(|cue| cue.slot == slot).copied().collect();
            let on = carried.filter(|_| is_cut && rows.is_empty());
            renders.extend(on.map(|knobs| (frame, slot, knobs)));
            for cue in rows {
                renders.push((frame, slot, cue.knobs));
                *carried = Some(Knobs { trigger: false, ..cue.knobs });
            }
        }
    }
    renders
}

/// Out and aux of renders that are called one by one, the words that they drew, and the generator's word behind them.
fn called(score: &Score, seed: u32, end: u64) -> ([Vec<f32>; 2], u64, u32) {
    let mut bank = Bank::new(seed);
    for (slot, kind) in score.kinds.iter().enumerate() {
        kind.iter().for_each(|kind| bank.open(slot, *kind, 48000.0).expect("it is opened"));
    }
    let renders = renders(&score.cues, end);
    let [mut out, mut aux] = [0; 2].map(|_| vec![0.0; end as usize]);
    let mut words = 0;
    for (place, (from, slot, knobs)) in renders.iter().enumerate() {
        let later = renders[place + 1..].iter().find(|(_, later, _)| later == slot);
        let part = *from as usize..later.map_or(end, |(frame, ..)| *frame) as usize;
        let [mut temp, mut temp_2] = [0; 2].map(|_| vec![0.0; part.len()]);
        let buffers = [&mut temp[..], &mut temp_2, &mut out[part.clone()], &mut aux[part]];
        let Counts { burst, dust, dispersion } =
            bank.render(*slot, knobs, buffers).expect("it is accepted");
        words += (burst + dust + dispersion) as u64;
    }
    ([out, aux], words, bank.word())
}

fn bits(samples: &[f32]) -> Vec<u32> {
    samples.iter().map(|sample| sample.to_bits()).collect()
}

/// The word behind so many draws.
fn drawn(seed: u32, words: u64) -> u32 {
    (0..words).fold(seed, |word, _| word.wrapping_mul(1664525).wrapping_add(1013904223))
}

#[test]
fn a_piece_is_the_renders_of_its_score_called_one_by_one() {
    let mut chance = Chance(32);
    let mut rows = 0;
    for round in 0..120 {
        let count = 1 + chance.below(40);
        let text = text(&mut chance, count, 2, 0.05);
        let score = score(&text);
        let end = score.cues.last().map_or(0, |cue| cue.frame) + 1 + chance.below(3_000);
        let seed = chance.below(1 << 31) as u32;
        let (expected, words, word) = called(&score, seed, end);
        let block = chance.of(&[24, 25, 100, 512, 4096]);
        let mut player = Player::new(&score, (seed, 48000), end, block).expect("it is opened");
        let mut heard = [vec![], vec![]];
        while let Some(channels) = player.next().expect("no block is refused") {
            heard.iter_mut().zip(channels).for_each(|(all, channel)| all.extend(channel));
        }
        assert_eq!(heard.each_ref().map(|all| bits(all)), expected.each_ref().map(|all| bits(all)));
        assert_eq!((player.word(), drawn(seed, words)), (word, word), "{round}");
        let answers = player.answers();
        let sums = answers.iter().map(|answer| answer.expect("accepted").iter().sum::<u64>());
        assert_eq!(sums.sum::<u64>(), words);
        rows += answers.len();
    }
    assert!(rows > 500, "{rows}");
}
