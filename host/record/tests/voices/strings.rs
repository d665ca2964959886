//! The string voice.

use crate::{
    calls, every_play_is_recorded, leaving, the_ends_are_recorded, the_file_is_well_formed,
    what_is_no_file_of_calls_is_refused,
};
use record::voices::format::{Call, Given, STRINGS};

#[test]
fn the_recorded_file_is_well_formed() {
    the_file_is_well_formed(STRINGS);
    what_is_no_file_of_calls_is_refused(STRINGS);
}

#[test]
fn the_kinds_of_calls_are_recorded() {
    let calls = calls(STRINGS);
    let rate = |rate: f32| {
        let opens = |call: &Call| call.given.words()[..4] == [0, 0, 0, rate.to_bits()];
        calls.iter().any(opens)
    };
    assert!([8000.0, 44100.0, 48000.0, 192000.0].into_iter().all(rate));
    assert!(calls.iter().any(|call| matches!(call.given, Given::Reset)));
    every_play_is_recorded(STRINGS);
    the_ends_are_recorded(STRINGS, 1.0);
}

#[test]
fn extreme_floats_are_left() {
    assert!(leaving(STRINGS, f32::is_nan) > 10);
    assert!(leaving(STRINGS, f32::is_infinite) > 0);
    assert!(leaving(STRINGS, f32::is_subnormal) > 50);
}

#[cfg(no_plaits)]
#[test]
#[ignore] // the Rust source was not found
fn the_recorded_file_is_what_record_makes() {}

#[cfg(not(no_plaits))]
mod beside_the_rust {
    use crate::beside_the_rust::{
        CHANGES, EXAMPLE, OPEN, a_changed_byte_is_one_difference, every_change_is_heard,
        every_word_left_is_compared, played, the_file_is_what_record_makes,
    };
    use crate::renders;
    use oracle::physical_modelling::string_voice::StringVoice;
    use record::draws::next;
    use record::voices::format::{Given, Render, STRINGS, to_bytes};
    use record::voices::player::{Halt, Player, caught};
    use record::voices::strings::sequences;
    use record::voices::{differences, record};

    #[test]
    fn the_recorded_file_is_what_record_makes() {
        the_file_is_what_record_makes::<StringVoice>(&sequences());
        a_changed_byte_is_one_difference::<StringVoice>();
    }

    #[test]
    fn every_word_left_is_seen() {
        let render = Given::Render(EXAMPLE);
        every_word_left_is_compared::<StringVoice>(&[OPEN, render, Given::Reset, render]);
    }

    #[test]
    fn every_word_given_is_heard() {
        // Long enough for the string to come round.
        let long = Render { frames: 512, f0: 0.02, ..EXAMPLE };
        every_change_is_heard::<StringVoice>(long, &CHANGES);
        every_change_is_heard::<StringVoice>(long, &[|r| r.word ^= 1]);
        let mut changed = played::<StringVoice>(&[OPEN, Given::Render(long)]);
        changed[0].given = Given::Open { sample_rate: 44100.0 };
        assert_eq!(differences::<StringVoice>(&to_bytes(STRINGS, &changed)), Ok(2));
    }

    #[test]
    fn the_example_of_the_ledger() {
        let calls = played::<StringVoice>(&[OPEN, Given::Render(EXAMPLE)]);
        let words = calls[1].words();
        // Eight words of burst and three of dispersion.
        assert_eq!(words[11], (0..11).fold(EXAMPLE.word, |w, _| next(w)));
        assert_eq!(words[14], 2040);
        let is_example = |r: &Render| {
            Given::Render(Render { word: 33, fill: 34, ..*r }).words()
                == Given::Render(EXAMPLE).words()
        };
        assert!(is_example(&renders(STRINGS)[0]));
    }

    #[test]
    fn an_empty_block_at_the_highest_pitch_sets_the_phase() {
        let empty = Render { frames: 0, f0: 0.5, trigger: false, ..EXAMPLE };
        let words = played::<StringVoice>(&[OPEN, Given::Render(empty)])[1].words();
        assert_eq!(words[31], 1f32.to_bits());
        assert_eq!(words[11], empty.word);
        assert_eq!(words[35..39], [2166136261; 4]);
    }

    #[test]
    fn a_sequence_ends_before_a_delay_of_2_to_the_64() {
        let sequences = sequences();
        let recorded = record::<StringVoice>(&sequences).expect("no other halt");
        let halts = |sequence: &&Vec<Given>| {
            let mut player = Player::<StringVoice>::default();
            let halts = sequence.iter().map(|given| player.call(given));
            halts.last() == Some(Err(Halt::LongDelay))
        };
        assert!(recorded.long_delays > 0);
        assert_eq!(sequences.iter().filter(halts).count(), recorded.long_delays);
        let chosen = sequences.iter().map(Vec::len).sum::<usize>();
        assert_eq!(recorded.calls.len(), chosen - recorded.long_delays);
    }

    #[test]
    fn any_other_halt_is_an_error() {
        let halt = caught(|| panic!("halted\nhere"));
        let Err(Halt::Other(message)) = halt else { panic!("{halt:?}") };
        assert!(message.ends_with("halted here"), "{message}");
        assert_eq!(caught(|| 1), Ok(1));
        let error = record::<StringVoice>(&[vec![Given::Reset]]).err();
        assert_eq!(error.as_deref(), Some("sequence 0, call 0: no voice is open"));
        let beyond = Given::Render(Render { frames: 4097, ..EXAMPLE });
        assert!(record::<StringVoice>(&[vec![OPEN, beyond]]).is_err());
    }
}
