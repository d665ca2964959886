//! The calls in every floating-point environment that a caller may have set: the same bits, and the caller's environment after it.

use bleidhvan::raw::{self, Answer, EVENTS, LINES, SLOT_BYTES};
use bleidhvan::{Bank, Counts, Event, Kind, Knobs, Refusal};
use std::arch::asm;
use std::env;
use std::os::unix::process::ExitStatusExt;
use std::process::Command;

/// MXCSR at the start of a process.
const DEFAULT: u32 = 0x1f80;
const FLUSH_TO_ZERO: u32 = 1 << 15;
const DENORMALS_ARE_ZERO: u32 = 1 << 6;
const DOWN: u32 = 1 << 13;
const UP: u32 = 2 << 13;
const TO_ZERO: u32 = 3 << 13;
/// The bits that keep the six exceptions from the caller.
const MASKS: u32 = 0x1f80;
/// The flags of the six exceptions.
const FLAGS: u32 = 0x3f;

/// Calls with MXCSR at a value, and gives MXCSR after the call. What is called computes no float of its own, and the test's own
/// MXCSR is restored in the same block.
fn in_environment<F: FnMut()>(mxcsr: u32, mut call: F) -> u32 {
    extern "C" fn run<F: FnMut()>(call: &mut F) {
        call();
    }
    let (mut own, mut value) = (0u32, mxcsr);
    unsafe {
        asm!(
            "stmxcsr [r12]",
            "ldmxcsr [r13]",
            "call {run}",
            "stmxcsr [r13]",
            "ldmxcsr [r12]",
            run = sym run::<F>,
            in("rdi") &mut call,
            in("r12") &mut own,
            in("r13") &mut value,
            clobber_abi("C"),
        );
    }
    value
}

/// Every way of rounding, with subnormal numbers and without, flags raised or not, and at the end the same with every exception unmasked.
fn environments() -> Vec<u32> {
    let mut all = vec![0];
    for [first, second] in [[0, FLUSH_TO_ZERO], [0, DENORMALS_ARE_ZERO], [0, FLAGS], [MASKS, 0]] {
        all = [first, second]
            .iter()
            .flat_map(|more| all.iter().map(move |bits| bits | more))
            .collect();
    }
    all.iter().flat_map(|bits| [0, DOWN, UP, TO_ZERO].map(|rounding| bits | rounding)).collect()
}

/// What is lent to a call.
#[derive(Clone)]
struct World {
    bank: Vec<u8>,
    lines: Vec<f32>,
    word: u32,
    buffers: [Vec<f32>; 4],
    answers: [Answer; EVENTS],
    slow: bool,
}

/// A call of the bank.
#[derive(Debug, Clone, Copy)]
enum Call {
    Open(usize, u32, f32),
    Reset(usize),
    Render(usize, Knobs),
    Play([raw::Event; 2]),
}

impl World {
    fn new(frames: usize, slow: bool) -> Self {
        let bank = vec![0; 8 * SLOT_BYTES];
        let buffers = [0; 4].map(|_| vec![0.0; frames]);
        let answers = [Answer::default(); EVENTS];
        World { bank, lines: vec![0.0; LINES], word: 33, buffers, answers, slow }
    }

    /// The call through the wrapper.
    fn guarded(&mut self, call: &Call) -> Answer {
        let World { bank, lines, word, buffers, answers, slow } = self;
        let counts = Counts::default();
        match *call {
            Call::Open(slot, kind, rate) => {
                Answer { number: raw::open(bank, lines, slot, kind, rate), counts }
            }
            Call::Reset(slot) => Answer { number: raw::reset(bank, lines, slot), counts },
            Call::Render(slot, ref knobs) => {
                let buffers = buffers.each_mut().map(|buffer| &mut buffer[..]);
                raw::render(bank, lines, word, slot, knobs, buffers, *slow)
            }
            Call::Play(ref sheet) => {
                let buffers = buffers.each_mut().map(|buffer| &mut buffer[..]);
                let number = raw::play(bank, lines, word, sheet, answers, buffers, *slow);
                Answer { number, counts }
            }
        }
    }

    /// The same without it, of what computes.
    fn unguarded(&mut self, call: &Call) -> Answer {
        let counts = Counts::default();
        let number = match *call {
            Call::Open(slot, kind, rate) => {
                let World { bank, lines, .. } = self;
                unsafe { raw::unguarded::open(bank, lines, slot, kind, rate) }
            }
            Call::Reset(_) => unreachable!("a reset computes no float"),
            Call::Render(slot, ref knobs) => {
                let World { bank, lines, word, buffers, slow, .. } = self;
                let buffers = buffers.each_mut().map(|buffer| &mut buffer[..]);
                return unsafe {
                    raw::unguarded::render(bank, lines, word, slot, knobs, buffers, *slow)
                };
            }
            Call::Play(ref sheet) => {
                let World { bank, lines, word, buffers, answers, slow } = self;
                let buffers = buffers.each_mut().map(|buffer| &mut buffer[..]);
                unsafe { raw::unguarded::play(bank, lines, word, sheet, answers, buffers, *slow) }
            }
        };
        Answer { number, counts }
    }

    /// Whether every bit is the same.
    fn is_same(&self, other: &World) -> bool {
        let same = |one: &[f32], other: &[f32]| {
            one.iter().map(|x| x.to_bits()).eq(other.iter().map(|x| x.to_bits()))
        };
        self.bank == other.bank
            && self.word == other.word
            && self.answers == other.answers
            && same(&self.lines, &other.lines)
            && self.buffers.iter().zip(&other.buffers).all(|(one, other)| same(one, other))
    }

    /// Whether one of the floats of a slot is subnormal: they begin behind the kind.
    fn has_subnormal(&self, slot: usize) -> bool {
        let words = self.bank[SLOT_BYTES * slot..][4..SLOT_BYTES - 1].chunks_exact(4);
        words.enumerate().any(|(k, word)| {
            let is_float = ![5, 6, 22].contains(&k);
            is_float && f32::from_le_bytes(word.try_into().expect("four bytes")).is_subnormal()
        })
    }
}

/// Frames of a block.
const FRAMES: usize = 1024;

fn opening(slot: usize) -> Call {
    Call::Open(slot, 1 + slot as u32, 44100.0)
}

/// A strike of the string in slot 0 or of the modal voice in slot 1, and blocks behind it until the voice is subnormal.
fn dying_away(slot: usize) -> Vec<Call> {
    let knobs = Knobs { f0: 0.05, damping: 0.2, ..Knobs::default() };
    (0..8).map(|k| Call::Render(slot, Knobs { trigger: k == 0, ..knobs })).collect()
}

/// A sheet of two events of a slot with the same knobs, at the first frame and at that one.
fn sheet(frame: u32, slot: usize, knobs: &Knobs) -> Call {
    Call::Play([0, frame].map(|frame| raw::Event::new(frame, slot as u32, knobs)))
}

/// The blocks of a voice that dies away, each by a sheet.
fn dying_away_by_sheets(slot: usize) -> Vec<Call> {
    let by_sheet = |call| match call {
        Call::Render(slot, knobs) => sheet(100, slot, &knobs),
        other => other,
    };
    dying_away(slot).into_iter().map(by_sheet).collect()
}

/// Both voices opened, struck until they are subnormal, sustained, and reset; and calls that are refused.
fn calls() -> Vec<Call> {
    let mut calls = vec![opening(0), opening(1)];
    for slot in [0, 1] {
        let sustained = Knobs { sustain: true, ..Knobs::default() };
        calls.extend(dying_away(slot));
        calls.extend(dying_away_by_sheets(slot));
        calls.extend([100, FRAMES as u32].map(|frame| sheet(frame, slot, &sustained)));
        calls.extend([Call::Reset(slot), Call::Render(slot, Knobs { f0: f32::NAN, ..sustained })]);
        calls.extend(
            [0.1, 0.9].map(|structure| Call::Render(slot, Knobs { structure, ..sustained })),
        );
    }
    calls.push(Call::Open(2, 3, 44100.0));
    calls
}

/// What each call leaves in the default environment.
fn in_default(slow: bool) -> Vec<(Call, Answer, World)> {
    let mut world = World::new(FRAMES, slow);
    let one = |call: Call| {
        let answer = world.guarded(&call);
        (call, answer, world.clone())
    };
    calls().into_iter().map(one).collect()
}

#[test]
fn every_environment_gives_the_same_bits_and_comes_back() {
    assert_eq!(environments().len(), 64);
    for slow in [false, true] {
        let expected = in_default(slow);
        for slot in [0, 1] {
            assert!(expected.iter().any(|(_, _, world)| world.has_subnormal(slot)), "slot {slot}");
        }
        for number in [0, 3, 6, 9, 16] {
            assert!(expected.iter().any(|(_, answer, _)| answer.number == number), "{number}");
        }
        for mxcsr in environments() {
            let mut world = World::new(FRAMES, slow);
            for (call, answer, after) in &expected {
                let mut given = Answer { number: u32::MAX, counts: Counts::default() };
                let left = in_environment(mxcsr, || given = world.guarded(call));
                assert_eq!(left, mxcsr, "MXCSR after {call:?}");
                assert_eq!(given, *answer, "{call:?} in {mxcsr:#06x}");
                assert!(world.is_same(after), "{call:?} in {mxcsr:#06x}: the bits differ");
            }
        }
    }
}

/// Whether a slot's renders differ where they are made without the guard, and the flags that they raise.
fn differs_unguarded(mxcsr: u32, slot: usize, slow: bool, calls: &[Call]) -> (bool, u32) {
    let mut expected = World::new(FRAMES, slow);
    assert_eq!(expected.guarded(&opening(slot)).number, 0);
    let (mut world, mut raised) = (expected.clone(), 0);
    for call in calls {
        assert_eq!(expected.guarded(call).number, 0);
        raised |= in_environment(mxcsr, || _ = world.unguarded(call)) & FLAGS;
    }
    (!world.is_same(&expected), raised)
}

#[test]
fn without_the_guard_the_bits_differ() {
    for (slow, slot) in [(false, 0), (false, 1), (true, 0), (true, 1)] {
        for calls in [dying_away(slot), dying_away_by_sheets(slot)] {
            for bits in [
                FLUSH_TO_ZERO,
                DENORMALS_ARE_ZERO,
                FLUSH_TO_ZERO | DENORMALS_ARE_ZERO,
                DOWN,
                UP,
                TO_ZERO,
            ] {
                let (differs, _) = differs_unguarded(DEFAULT | bits, slot, slow, &calls);
                assert!(differs, "slot {slot}, {bits:#06x}, slow {slow}, {:?}", calls[0]);
            }
            let (differs, raised) = differs_unguarded(DEFAULT, slot, slow, &calls);
            assert!(!differs, "slot {slot} in the default environment");
            assert_ne!(raised, 0, "slot {slot} raises flags");
        }
    }
    for rounding in [DOWN, UP, TO_ZERO] {
        let rates = [8000.0, 11025.0, 44100.0, 48000.0, 96000.0, 192000.0];
        let differs = rates.iter().any(|rate| {
            let call = Call::Open(0, 1, *rate);
            let (mut expected, mut world) = (World::new(1, false), World::new(1, false));
            expected.guarded(&call);
            in_environment(DEFAULT | rounding, || _ = world.unguarded(&call));
            !world.is_same(&expected)
        });
        assert!(differs, "an opening, {rounding:#06x}");
    }
}

/// What a child process of this test does.
const CHILD: &str = "BLEIDHVAN_ENVIRONMENT";

/// This test in a process of its own: whether it ended well, or by which signal.
fn child(name: &str, does: &str) -> Result<(), Option<i32>> {
    let program = env::current_exe().expect("the test has a path");
    let mut command = Command::new(program);
    let output = command.args(["--exact", name]).env(CHILD, does).output().expect("it runs");
    if output.status.success() { Ok(()) } else { Err(output.status.signal()) }
}

/// Every exception reaches the process that unmasks it, which it ends.
#[test]
fn an_unmasked_exception_ends_the_process_without_the_guard_alone() {
    let name = "an_unmasked_exception_ends_the_process_without_the_guard_alone";
    let (mut buffers, mut world) = ([0; 4].map(|_| vec![0.0; 64]), World::new(64, false));
    let mut bank = Bank::new(33);
    let strike = Knobs { trigger: true, ..Knobs::default() };
    match env::var(CHILD).as_deref() {
        Ok("guarded") => {
            let [mut opened, mut refused] = [Ok(()); 2];
            let mut rendered = Err(Refusal::Memory);
            let mut played = Err(Refusal::Memory);
            let left = in_environment(0, || {
                opened = bank.open(0, Kind::Modal, 48000.0);
                let buffers = buffers.each_mut().map(|buffer| &mut buffer[..]);
                let others = world.buffers.each_mut().map(|buffer| &mut buffer[..]);
                rendered = bank.render(0, &strike, buffers);
                played = bank.play(&[Event { frame: 9, slot: 0, knobs: strike }], others);
                refused = bank.reset(0);
            });
            assert_eq!((opened, refused), (Ok(()), Err(Refusal::NoReset { slot: 0 })));
            assert_eq!((rendered, left), (Ok(Counts::default()), 0));
            assert_eq!(played.map(|answers| answers.to_vec()), Ok(vec![Ok(Counts::default())]));
        }
        Ok(_) => {
            world.guarded(&Call::Open(1, 2, 48000.0));
            in_environment(0, || _ = world.unguarded(&dying_away(1)[0]));
        }
        Err(_) => {
            assert_eq!(child(name, "guarded"), Ok(()));
            assert_eq!(child(name, "unguarded"), Err(Some(8)), "a floating-point exception");
        }
    }
}
