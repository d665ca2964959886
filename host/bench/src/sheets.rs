//! Sheets through the exported player beside the same renders called singly, through the wrapper beside the exported player, and what a sheet
//! costs by its events and by its frames.

use std::hint::black_box;

use bleidhvan::raw::{self, Answer, EVENTS, Event, LINES};
use bleidhvan::{Bank, Kind, Knobs, slow_subnormals};

use crate::buffers::{Buffers, same, silent};
use crate::ratio::{beside, medians};

const SLOTS: usize = 8;

/// The kinds, sustain, f0 and structure of the slots.
const VOICES: [(u32, bool, f32, f32); SLOTS] = [
    (1, false, 0.0073, 0.1),
    (2, false, 0.0073, 0.4),
    (1, false, 0.0073, 0.8),
    (2, true, 0.0073, 0.4),
    (1, true, 0.0073, 0.8),
    (2, false, 0.0021, 0.2),
    (1, false, 0.0003, 0.1),
    (2, true, 0.0021, 0.2),
];

/// As many events of each slot, on frames that are as far apart, so that every slot sounds in every frame; sustained some or all.
fn sheet(events: usize, frames: usize, all_sustained: bool) -> Vec<Event> {
    let each = events / SLOTS;
    let event = |k: usize| {
        let knobs = knobs(k % SLOTS, all_sustained);
        Event::new((k / SLOTS * frames / each) as u32, (k % SLOTS) as u32, &knobs)
    };
    (0..events).map(event).collect()
}

fn knobs(slot: usize, all_sustained: bool) -> Knobs {
    let (_, sustain, f0, structure) = VOICES[slot];
    Knobs {
        sustain: sustain || all_sustained,
        trigger: true,
        accent: 0.5,
        f0,
        structure,
        brightness: 0.5,
        damping: 0.6,
    }
}

/// The same sheet as the wrapper takes it.
fn wrapped(sheet: &[Event]) -> Vec<bleidhvan::Event> {
    let event = |event: &Event| {
        let [frame, slot] = [event.frame, event.slot].map(|number| number as usize);
        bleidhvan::Event { frame, slot, knobs: knobs(slot, false) }
    };
    sheet.iter().map(event).collect()
}

/// The same as renders, each with its first frame and with the one behind its last.
fn renders(sheet: &[Event], frames: usize) -> Vec<(Event, usize, usize)> {
    let end = |k: usize| sheet.get(k + SLOTS).map_or(frames, |next| next.frame as usize);
    sheet.iter().enumerate().map(|(k, event)| (*event, event.frame as usize, end(k))).collect()
}

/// What is lent to the calls.
struct World {
    bank: Vec<u8>,
    lines: Vec<f32>,
    word: u32,
    buffers: Buffers,
    answers: [Answer; EVENTS],
    slow: bool,
}

impl World {
    /// A bank whose slots are open, and buffers of so many frames.
    fn new(frames: usize) -> Self {
        let (mut bank, mut lines) = (vec![0; raw::bank_bytes()], vec![0.0; LINES]);
        assert_eq!(raw::fresh(&mut bank), 0);
        for (slot, (kind, ..)) in VOICES.into_iter().enumerate() {
            assert_eq!(raw::open(&mut bank, &mut lines, slot, kind, 48000.0), 0);
        }
        let buffers = silent(frames);
        let (answers, slow) = ([Answer::default(); EVENTS], slow_subnormals());
        World { bank, lines, word: 33, buffers, answers, slow }
    }
}

/// Blocks of a sheet, which sound on from those before.
#[inline(never)]
fn play(world: &mut World, sheet: &[Event], blocks: usize) {
    for _ in 0..blocks {
        let World { bank, lines, word, buffers, answers, slow } = world;
        let buffers = buffers.each_mut().map(|buffer| &mut buffer[..]);
        // A process has the environment of its start here.
        let number =
            unsafe { raw::unguarded::play(bank, lines, word, sheet, answers, buffers, *slow) };
        assert_eq!(number, 0);
    }
}

/// Blocks of its renders.
#[inline(never)]
fn singly(world: &mut World, renders: &[(Event, usize, usize)], blocks: usize) {
    for _ in 0..blocks {
        for (k, (event, from, to)) in renders.iter().enumerate() {
            world.answers[k] = render(world, event, *from, *to);
            assert_eq!(world.answers[k].number, 0);
        }
    }
}

fn render(world: &mut World, event: &Event, from: usize, to: usize) -> Answer {
    let World { bank, lines, word, buffers, slow, .. } = world;
    let Event { slot, trigger, sustain, f0, accent, structure, brightness, damping, .. } = *event;
    let (trigger, sustain) = (trigger == 1, sustain == 1);
    let knobs = Knobs { sustain, trigger, accent, f0, structure, brightness, damping };
    let buffers = buffers.each_mut().map(|buffer| &mut buffer[from..to]);
    // A process has the environment of its start here.
    unsafe { raw::unguarded::render(bank, lines, word, slot as usize, &knobs, buffers, *slow) }
}

/// A sheet beside its renders, with the same bits and the same answers.
fn setting(events: usize, frames: usize) {
    let (sheet, blocks) = (sheet(events, frames, false), 4096 / frames);
    let renders = renders(&sheet, frames);
    let [mut a, mut b] = [0; 2].map(|_| World::new(frames));
    singly(&mut a, &renders, blocks);
    play(&mut b, &sheet, blocks);
    assert!(same(&a.buffers, &b.buffers), "the bits differ");
    assert!((a.bank == b.bank) && (a.word, a.answers) == (b.word, b.answers), "the banks differ");
    beside(
        &format!("sheet of {events} events, blocks of {frames}"),
        "the time of its renders called singly",
        3,
        || singly(&mut a, black_box(&renders), blocks),
        || play(&mut b, black_box(&sheet), blocks),
    );
}

/// Blocks of a sheet through the wrapper.
#[inline(never)]
fn play_wrapped(bank: &mut Bank, sheet: &[bleidhvan::Event], buffers: &mut Buffers, blocks: usize) {
    for _ in 0..blocks {
        let buffers = buffers.each_mut().map(|buffer| &mut buffer[..]);
        black_box(bank.play(sheet, buffers).expect("the sheet is played"));
    }
}

/// A sheet through the wrapper beside the exported player, with the same bits.
fn setting_wrapped(events: usize, frames: usize) {
    let (sheet, blocks) = (sheet(events, frames, false), 4096 / frames);
    let (mut world, mut bank, mut buffers) = (World::new(frames), Bank::new(33), silent(frames));
    for (slot, (kind, ..)) in VOICES.into_iter().enumerate() {
        let kind = if kind == 1 { Kind::String } else { Kind::Modal };
        bank.open(slot, kind, 48000.0).expect("the opening is accepted");
    }
    let wrapped = wrapped(&sheet);
    play(&mut world, &sheet, blocks);
    play_wrapped(&mut bank, &wrapped, &mut buffers, blocks);
    assert!(same(&world.buffers, &buffers), "the bits differ");
    beside(
        &format!("wrapped sheet of {events} events, blocks of {frames}"),
        "the time of the exported player",
        3,
        || play(&mut world, black_box(&sheet), blocks),
        || play_wrapped(&mut bank, black_box(&wrapped), &mut buffers, blocks),
    );
}

/// Prints what one block costs by something that grows, in parts of the first one's cost, and how far a straight line is from it. All voices
/// are sustained, since a struck one costs more or less a frame as it dies away.
fn table(what: &str, sizes: &[usize], sheets: Vec<(Vec<Event>, usize)>) {
    let mut worlds: Vec<World> = sheets.iter().map(|(_, frames)| World::new(*frames)).collect();
    let costs = medians(sheets.len(), |k| {
        let (sheet, frames) = &sheets[k];
        play(&mut worlds[k], black_box(sheet), 4096 / frames);
    });
    let block = |k: usize| costs[k] / (4096 / sheets[k].1) as f64;
    let points: Vec<(f64, f64)> =
        sizes.iter().enumerate().map(|(k, size)| (*size as f64, block(k) / block(0))).collect();
    let (at_none, each) = line(&points);
    println!("{what}");
    for (size, cost) in &points {
        let off = 100.0 * ((at_none + each * size) / cost - 1.0);
        println!("{size:>6} {cost:>8.3}   the line is {off:+.1} % off");
    }
    println!("  the line: {at_none:.4} and {each:.5} for each");
}

/// The straight line through points whose parts it misses least, as its height at 0 and its slope.
fn line(points: &[(f64, f64)]) -> (f64, f64) {
    let sum =
        |of: fn(f64, f64) -> f64| -> f64 { points.iter().map(|(x, y)| of(*x, *y) / (y * y)).sum() };
    let [n, x, y, xx, xy] =
        [sum(|_, _| 1.0), sum(|x, _| x), sum(|_, y| y), sum(|x, _| x * x), sum(|x, y| x * y)];
    let slope = (n * xy - x * y) / (n * xx - x * x);
    ((y - slope * x) / n, slope)
}

pub fn all() {
    for frames in [24, 64, 512, 4096] {
        setting(8, frames);
        if frames > 24 {
            setting(64, frames);
        }
    }
    for (events, frames) in [(8, 24), (8, 512), (64, 64)] {
        setting_wrapped(events, frames);
    }
    let sizes = [8, 16, 24, 32, 40, 48, 56, 64];
    for frames in [64, 512] {
        let sheets = sizes.map(|events| (sheet(events, frames, true), frames));
        table(
            &format!("the cost of a block of {frames} by its events, in parts of the first"),
            &sizes,
            sheets.into(),
        );
    }
    let sizes = [64, 128, 256, 512, 1024, 2048, 4096];
    for events in [8, 64] {
        let sheets = sizes.map(|frames| (sheet(events, frames, true), frames));
        table(
            &format!(
                "the cost of {events} events by the frames of their block, in parts of the first"
            ),
            &sizes,
            sheets.into(),
        );
    }
}
