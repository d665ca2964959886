//! The recorded sequences of each voice beside what the Rust does now.

mod modals;
mod strings;

use record::format::HEADER_BYTES;
use record::rows::ROW_BYTES;
use record::voices::format::{Call, Given, Kind, Render, from_bytes};

fn recorded(kind: Kind) -> Vec<u8> {
    std::fs::read(kind.path()).expect("the file of host/replay/data is read")
}

fn calls(kind: Kind) -> Vec<Call> {
    from_bytes(kind, &recorded(kind)).expect("the file is well formed")
}

fn renders(kind: Kind) -> Vec<Render> {
    let render = |call: &Call| match call.given {
        Given::Render(render) => Some(render),
        _ => None,
    };
    calls(kind).iter().filter_map(render).collect()
}

fn the_file_is_well_formed(kind: Kind) {
    let (bytes, calls) = (recorded(kind), calls(kind));
    let header = format!(
        "bleidhvan {} 1; mi-plaits-dsp-rs effe9864bb; seed 33; calls {}",
        kind.name,
        calls.len()
    );
    let line = std::str::from_utf8(&bytes[..HEADER_BYTES]).expect("the header is ASCII");
    assert_eq!(line.trim_end_matches([' ', '\n']), header);
    assert!(line.ends_with(" \n"));
    assert_eq!(bytes.len(), 128 + 256 * calls.len());
    assert!(bytes.len() < 400_000);
    assert!(calls.iter().all(|call| call.words()[57..] == [0; 7]));
}

fn every_play_is_recorded(kind: Kind) {
    let renders = renders(kind);
    for frames in [0, 1, 2, 3, 24, 64, 512, 4096] {
        assert!(renders.iter().any(|render| render.frames == frames), "{frames} frames");
    }
    for (sustain, trigger) in [(false, false), (false, true), (true, false), (true, true)] {
        let played = |render: &Render| render.sustain == sustain && render.trigger == trigger;
        assert!(renders.iter().any(played), "sustain {sustain}, trigger {trigger}");
    }
}

/// The ends of f0, and of the knobs; the highest structure is the voice's.
fn the_ends_are_recorded(kind: Kind, highest: f32) {
    let renders = renders(kind);
    let knobs: [(fn(&Render) -> f32, f32); 4] = [
        (|r| r.accent, 1.0),
        (|r| r.structure, highest),
        (|r| r.brightness, 1.0),
        (|r| r.damping, 1.0),
    ];
    for (knob, top) in knobs {
        for end in [0.0, -0.0, top] {
            assert!(renders.iter().any(|render| knob(render).to_bits() == end.to_bits()));
        }
    }
    for end in [2f32.powi(-20), 0.5] {
        assert!(renders.iter().any(|render| render.f0 == end));
    }
}

/// The number of calls that left such a float among words 15 to 34.
fn leaving(kind: Kind, is: fn(f32) -> bool) -> usize {
    let kept = |call: &&Call| call.words()[15..35].iter().any(|bits| is(f32::from_bits(*bits)));
    calls(kind).iter().filter(kept).count()
}

fn what_is_no_file_of_calls_is_refused(kind: Kind) {
    let bytes = recorded(kind);
    let refused = |bytes: &[u8]| from_bytes(kind, bytes).is_err();
    assert!(refused(&bytes[..100]));
    assert!(refused(&bytes[..bytes.len() - 1]));
    assert!(refused(&bytes[..bytes.len() - ROW_BYTES]));
    let first_render = calls(kind).iter().position(|call| matches!(call.given, Given::Render(_)));
    let at = HEADER_BYTES + ROW_BYTES * first_render.expect("a render");
    // An unknown kind, an unknown flag, too many frames, a rate of a render, and knobs outside their ranges.
    for (word, value) in [
        (0, 3),
        (1, 4),
        (2, 4097),
        (3, 1),
        (4, 1f32.next_up().to_bits()),
        (5, 0.5f32.next_up().to_bits()),
        (5, 2f32.powi(-20).next_down().to_bits()),
        (6, f32::NAN.to_bits()),
        (7, (-1e-45f32).to_bits()),
        (8, f32::INFINITY.to_bits()),
    ] {
        let mut changed = bytes.clone();
        changed[at + 4 * word..][..4].copy_from_slice(&value.to_le_bytes());
        assert!(refused(&changed), "word {word} as {value:#x}");
    }
}

#[cfg(not(no_plaits))]
mod beside_the_rust {
    use super::{calls, recorded};
    use record::format::same;
    use record::rows::ROW_WORDS;
    use record::voices::format::{Call, GIVEN_WORDS, Given, Render, to_bytes};
    use record::voices::player::Voice;
    use record::voices::{differences, record};

    /// The example of 01, but for the knobs that the ledger does not read.
    pub const EXAMPLE: Render = Render {
        sustain: false,
        trigger: true,
        frames: 8,
        accent: 0.5,
        f0: 1.0 / 2048.0,
        structure: 0.5,
        brightness: 0.5,
        damping: 0.5,
        word: 33,
        fill: 34,
    };

    pub const OPEN: Given = Given::Open { sample_rate: 48000.0 };

    /// The calls of a sequence that never halts.
    pub fn played<V: Voice>(sequence: &[Given]) -> Vec<Call> {
        let recorded = record::<V>(&[sequence.to_vec()]).expect("the sequence is accepted");
        assert_eq!(recorded.long_delays, 0);
        recorded.calls
    }

    pub fn the_file_is_what_record_makes<V: Voice>(sequences: &[Vec<Given>]) {
        let made = to_bytes(V::KIND, &record::<V>(sequences).expect("no other halt").calls);
        assert_eq!(same(&made, &recorded(V::KIND)), Ok(()));
    }

    /// The file stands, and a changed byte is one difference.
    pub fn a_changed_byte_is_one_difference<V: Voice>() {
        let bytes = recorded(V::KIND);
        assert_eq!(differences::<V>(&bytes), Ok(0));
        let calls = calls(V::KIND).len();
        for call in [0, calls / 2, calls - 1] {
            let mut changed = bytes.clone();
            changed[128 + 256 * call + 4 * 39] ^= 1;
            assert_eq!(differences::<V>(&changed), Ok(1), "call {call}");
        }
    }

    pub fn every_word_left_is_compared<V: Voice>(sequence: &[Given]) {
        let calls = played::<V>(sequence);
        assert_eq!(differences::<V>(&to_bytes(V::KIND, &calls)), Ok(0));
        for call in 0..calls.len() {
            for word in 0..ROW_WORDS - GIVEN_WORDS {
                let mut changed = calls.clone();
                changed[call].left[word] ^= 1 << (word % 32);
                let bytes = to_bytes(V::KIND, &changed);
                assert_eq!(differences::<V>(&bytes), Ok(1), "call {call}, word {word}");
            }
        }
    }

    /// Each change of a render is heard where it is the only one.
    pub fn every_change_is_heard<V: Voice>(render: Render, changes: &[fn(&mut Render)]) {
        let calls = played::<V>(&[OPEN, Given::Render(render)]);
        for (k, change) in changes.iter().enumerate() {
            let mut other = render;
            change(&mut other);
            let mut changed = calls.clone();
            changed[1].given = Given::Render(other);
            assert_eq!(differences::<V>(&to_bytes(V::KIND, &changed)), Ok(1), "change {k}");
        }
    }

    /// What every render is given, changed a little.
    pub const CHANGES: [fn(&mut Render); 9] = [
        |r| r.sustain = true,
        |r| r.trigger = false,
        |r| r.frames += 1,
        |r| r.accent = 0.51,
        |r| r.f0 = 0.021,
        |r| r.structure = 0.51,
        |r| r.brightness = 0.51,
        |r| r.damping = 0.51,
        |r| r.fill ^= 1,
    ];
}
