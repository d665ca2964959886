//! The wrapper as its users call it.

use bleidhvan::raw::{self, Answer, SLOT_BYTES};
use bleidhvan::{Bank, Buffer, Counts, Kind, Knob, Knobs, LoadError, Refusal};

/// A block of n frames of a slot: out, or why it was refused.
fn render(bank: &mut Bank, slot: usize, knobs: &Knobs, n: usize) -> Result<Vec<f32>, Refusal> {
    let [mut temp, mut temp_2, mut out, mut aux] = [0; 4].map(|_| vec![0.0; n]);
    bank.render(slot, knobs, [&mut temp, &mut temp_2, &mut out, &mut aux])?;
    Ok(out)
}

fn strike() -> Knobs {
    Knobs { trigger: true, ..Knobs::default() }
}

/// A string in slot 0 and a modal voice in slot 1.
fn both() -> Bank {
    let mut bank = Bank::new(33);
    bank.open(0, Kind::String, 48000.0).expect("a string is opened");
    bank.open(1, Kind::Modal, 48000.0).expect("a modal voice is opened");
    bank
}

#[test]
fn both_kinds_sound() {
    let mut bank = both();
    for slot in [0, 1] {
        let out = render(&mut bank, slot, &strike(), 512).expect("the render is accepted");
        assert!(out.iter().any(|sample| sample.abs() > 0.001), "slot {slot}");
    }
}

#[test]
fn the_scope_example_is_counted() {
    let mut bank = both();
    let knobs = Knobs { f0: 1.0 / 2048.0, ..strike() };
    let [mut temp, mut temp_2, mut out, mut aux] = [[0.0; 8]; 4];
    let counts = bank.render(0, &knobs, [&mut temp, &mut temp_2, &mut out, &mut aux]);
    assert_eq!(counts, Ok(Counts { burst: 8, dust: 0, dispersion: 3 }));
}

#[test]
fn every_refusal_names_what_was_at_fault() {
    let mut bank = both();
    let before = bank.to_saved();
    let refusals = [
        (2, bank.open(8, Kind::String, 48000.0).unwrap_err()),
        (4, bank.open(0, Kind::Modal, 7999.0).unwrap_err()),
        (5, bank.reset(7).unwrap_err()),
        (6, bank.reset(1).unwrap_err()),
        (8, render(&mut bank, 0, &strike(), 4097).unwrap_err()),
    ];
    for (number, refusal) in refusals {
        assert_eq!(refusal.number(), number, "{refusal}");
    }
    assert_eq!(refusals[1].1.to_string(), "the sample rate is 7999, and must be 8000 to 192000");
    assert!(before == bank.to_saved(), "a refusal changes nothing");
}

/// Buffers of those lengths, and why a render of them is refused.
fn refused_lengths(lengths: [usize; 4]) -> Refusal {
    let mut bank = both();
    let before = bank.to_saved();
    let mut buffers = lengths.map(|frames| vec![0.5; frames]);
    let lent = buffers.each_mut().map(|buffer| &mut buffer[..]);
    let refusal = bank.render(0, &strike(), lent).unwrap_err();
    assert!(before == bank.to_saved(), "{refusal}: the bank changed");
    assert!(buffers.iter().flatten().all(|sample| *sample == 0.5), "{refusal}: a buffer changed");
    refusal
}

#[test]
fn the_first_buffer_of_another_length_is_named_with_both_lengths() {
    for temp in [1, 24, 4096, 4097] {
        for (k, (buffer, number)) in Buffer::ALL.into_iter().zip([7, 17, 18]).enumerate() {
            for frames in [0, temp - 1, temp + 1] {
                let mut lengths = [temp; 4];
                lengths[1 + k] = frames;
                let expected = Refusal::Length { buffer, frames, temp };
                assert_eq!((refused_lengths(lengths), expected.number()), (expected, number));
                lengths[2 + k..].fill(temp + 7);
                assert_eq!(refused_lengths(lengths), expected, "{lengths:?}");
            }
        }
    }
    assert_eq!(
        refused_lengths([64, 64, 63, 0]).to_string(),
        "the length of out is 63 and that of temp is 64: give the four buffers one length"
    );
}

#[test]
fn every_knob_is_refused_beyond_its_range_and_accepted_at_its_ends() {
    for (number, knob) in (9..).zip(Knob::ALL) {
        let with = |value: f32| {
            let mut knobs = strike();
            match knob {
                Knob::F0 => knobs.f0 = value,
                Knob::Accent => knobs.accent = value,
                Knob::Structure => knobs.structure = value,
                Knob::Brightness => knobs.brightness = value,
                Knob::Damping => knobs.damping = value,
            }
            knobs
        };
        let (low, high) = knob.range().into_inner();
        for slot in [0, 1] {
            for value in [low, high] {
                assert!(render(&mut both(), slot, &with(value), 24).is_ok(), "{knob:?} {value}");
            }
            for value in [low.next_down(), high.next_up()] {
                let refusal = render(&mut both(), slot, &with(value), 24).unwrap_err();
                assert_eq!(refusal, Refusal::OutOfRange { knob, value });
                assert_eq!(refusal.number(), number);
            }
        }
    }
}

/// All that a call leaves: the answer, the bank, the generator's word, the bits of line memory and of the four buffers.
type Left = (Answer, Vec<u8>, u32, Vec<u32>, Vec<u32>);

/// What each block of 4,096 frames of a modal voice leaves, struck in the first one, until the sound is subnormal.
fn dying_away(slow_subnormals: bool) -> Vec<Left> {
    let bits = |floats: &[f32]| -> Vec<u32> { floats.iter().map(|x| x.to_bits()).collect() };
    let bank = both();
    let (mut bytes, mut lines, mut word) =
        (bank.bytes().to_vec(), bank.lines().to_vec(), bank.word());
    let block = |k| {
        let mut buffers = [0; 4].map(|_| vec![0.0; 4096]);
        let knobs = Knobs { trigger: k == 0, damping: 0.2, ..Knobs::default() };
        let lent = buffers.each_mut().map(|buffer| &mut buffer[..]);
        let answer =
            raw::render(&mut bytes, &mut lines, &mut word, 1, &knobs, lent, slow_subnormals);
        (answer, bytes.clone(), word, bits(&lines), bits(&buffers.concat()))
    };
    (0..64).map(block).collect()
}

/// Whether one of the modes in slot 1 has a subnormal number.
fn has_subnormal_mode(bank: &[u8]) -> bool {
    let modes = bank[SLOT_BYTES..][200..392].chunks(4);
    let mut floats = modes.map(|word| f32::from_le_bytes(word.try_into().expect("four bytes")));
    floats.any(|x| x.is_subnormal())
}

#[test]
fn slow_subnormals_changes_no_bit() {
    let [blocks, others] = [true, false].map(dying_away);
    for (k, (one, other)) in blocks.iter().zip(&others).enumerate() {
        let (answer, bank, ..) = one;
        assert_eq!(answer.number, 0, "block {k}");
        assert!(has_subnormal_mode(bank), "block {k}");
        assert!(one == other, "block {k}: the bits differ");
    }
    let (_, _, _, _, samples) = &blocks[63];
    assert!(samples.iter().any(|word| f32::from_bits(*word).is_subnormal()));
}

/// A bank with a string in slot 2, each of whose modal voice's words is the pattern.
fn string_beside(pattern: u32) -> (Vec<u8>, Vec<f32>) {
    let mut bytes = vec![0; raw::bank_bytes()];
    let mut lines = vec![0.0; raw::LINES];
    assert_eq!(raw::fresh(&mut bytes), 0);
    assert_eq!(raw::open(&mut bytes, &mut lines, 2, 1, 48000.0), 0);
    for word in bytes[2 * SLOT_BYTES..][..SLOT_BYTES - 1][4 * 24..].chunks_mut(4) {
        word.copy_from_slice(&pattern.to_le_bytes());
    }
    (bytes, lines)
}

/// The words of slot 2's modal voice.
fn at_rest(bytes: &[u8]) -> Vec<u32> {
    bytes[2 * SLOT_BYTES..][..SLOT_BYTES - 1][4 * 24..]
        .chunks(4)
        .map(|word| u32::from_le_bytes(word.try_into().expect("four bytes")))
        .collect()
}

#[test]
fn a_voice_at_rest_is_kept_but_a_nan() {
    let nan = 0x7fc0_0000;
    let kept = [0, 1, 0x8000_0000, 0x7f80_0000, 0xff80_0000, 0x3f80_0000, nan];
    let turned = [0x7f80_0001, 0xff80_0001, 0x7fff_ffff, 0xffc0_0000];
    for pattern in kept.into_iter().chain(turned) {
        let after = if turned.contains(&pattern) { nan } else { pattern };
        let (mut bytes, mut lines) = string_beside(pattern);
        assert_eq!(raw::reset(&mut bytes, &mut lines, 2), 0);
        assert_eq!(at_rest(&bytes), [after; 74], "{pattern:08x} after a reset");
        let (mut bytes, mut lines) = string_beside(pattern);
        let [mut temp, mut temp_2, mut out, mut aux] = [[0.0; 24]; 4];
        let lent: [&mut [f32]; 4] = [&mut temp, &mut temp_2, &mut out, &mut aux];
        let answer = raw::render(&mut bytes, &mut lines, &mut 33, 2, &strike(), lent, false);
        assert_eq!(answer.number, 0);
        assert_eq!(at_rest(&bytes), [after; 74], "{pattern:08x} after a render");
    }
}

#[test]
fn a_clone_goes_its_own_way() {
    let mut bank = both();
    let mut other = bank.clone();
    let first = render(&mut bank, 0, &strike(), 64);
    assert_ne!(bank.word(), 33);
    assert_eq!(other.word(), 33);
    assert_eq!(render(&mut other, 0, &strike(), 64), first);
    assert_eq!(bank.to_saved(), other.to_saved());
}

#[test]
fn a_saved_bank_goes_on_as_it_was() {
    let mut bank = both();
    render(&mut bank, 0, &strike(), 300).expect("the render is accepted");
    let folder = std::env::temp_dir().join(format!("bleidhvan-{}", std::process::id()));
    std::fs::create_dir_all(&folder).expect("a folder is made");
    let path = folder.join("a.bank");
    bank.save(&path).expect("the bank is saved");
    let mut loaded = Bank::load(&path).expect("the bank is loaded");
    assert_eq!(std::fs::read_dir(&folder).expect("the folder is read").count(), 1);
    std::fs::remove_dir_all(&folder).expect("the folder is removed");
    for slot in [0, 1] {
        let sound = render(&mut bank, slot, &Knobs::default(), 64);
        assert_eq!(render(&mut loaded, slot, &Knobs::default(), 64), sound);
    }
    assert!(matches!(Bank::load(&path), Err(LoadError::Unreadable(_))));
}

#[test]
fn another_file_is_a_clear_error() {
    let saved = both().to_saved();
    let error = |bytes: &[u8]| Bank::from_saved(bytes).unwrap_err().to_string();
    assert_eq!(error(b"RIFF"), "the file is not a saved bank");
    assert_eq!(error(&saved[..9]), "the file is not a saved bank");
    let length = saved.len();
    let short = format!("the file has {} bytes, where a saved bank has {length}", length - 1);
    assert_eq!(error(&saved[..length - 1]), short);
    let mut other = saved.clone();
    other[8] = 2;
    assert_eq!(error(&other), "the bank has layout 2, and this is for layout 1");
    for place in [12, 16, length / 2, length - 1] {
        let mut other = saved.clone();
        other[place] ^= 1;
        assert_eq!(error(&other), "the file was changed since it was saved", "byte {place}");
    }
}
