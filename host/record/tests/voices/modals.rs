//! The modal voice.

use crate::{
    calls, every_play_is_recorded, leaving, the_ends_are_recorded, the_file_is_well_formed,
    what_is_no_file_of_calls_is_refused,
};
use record::voices::format::{Given, MODALS, from_bytes, to_bytes};

#[test]
fn the_recorded_file_is_well_formed() {
    the_file_is_well_formed(MODALS);
    what_is_no_file_of_calls_is_refused(MODALS);
    let mut calls = calls(MODALS);
    calls[1].given = Given::Reset;
    assert!(from_bytes(MODALS, &to_bytes(MODALS, &calls)).is_err(), "a reset");
}

#[test]
fn the_kinds_of_calls_are_recorded() {
    every_play_is_recorded(MODALS);
    the_ends_are_recorded(MODALS, 1f32.next_down());
}

#[test]
fn the_smallest_floats_are_left() {
    assert!(leaving(MODALS, f32::is_subnormal) > 50);
}

#[cfg(no_plaits)]
#[test]
#[ignore] // the Rust source was not found
fn the_recorded_file_is_what_record_makes() {}

#[cfg(not(no_plaits))]
mod beside_the_rust {
    use crate::beside_the_rust::{
        CHANGES, EXAMPLE, OPEN, a_changed_byte_is_one_difference, every_change_is_heard,
        every_word_left_is_compared, played, the_file_is_what_record_makes,
    };
    use oracle::physical_modelling::modal_voice::ModalVoice;
    use record::voices::format::{Given, Render};
    use record::voices::modals::sequences;
    use record::voices::record;

    #[test]
    fn the_recorded_file_is_what_record_makes() {
        the_file_is_what_record_makes::<ModalVoice>(&sequences());
        a_changed_byte_is_one_difference::<ModalVoice>();
    }

    #[test]
    fn every_word_left_is_seen() {
        let struck = Given::Render(EXAMPLE);
        let sustained = Given::Render(Render { sustain: true, ..EXAMPLE });
        every_word_left_is_compared::<ModalVoice>(&[OPEN, struck, sustained, struck]);
    }

    #[test]
    fn every_word_given_is_heard() {
        every_change_is_heard::<ModalVoice>(EXAMPLE, &CHANGES);
        let sustained = Render { sustain: true, brightness: 0.9, ..EXAMPLE };
        every_change_is_heard::<ModalVoice>(sustained, &[|r| r.word ^= 1 << 31]);
    }

    /// The last two departures of docs/DIFFERENCES.md.
    #[test]
    fn what_halts_the_rust_is_an_error() {
        let halts = |render: Render| {
            let error = record::<ModalVoice>(&[vec![OPEN, Given::Render(render)]]).err();
            error.is_some_and(|message| message.contains("index out of bounds"))
        };
        assert!(halts(Render { structure: 1.0, ..EXAMPLE }));
        assert!(halts(Render { structure: 1.0, trigger: false, frames: 0, ..EXAMPLE }));
        assert!(halts(Render { frames: 0, ..EXAMPLE }));
        assert!(!halts(Render { frames: 0, sustain: true, ..EXAMPLE }));
        assert!(!halts(EXAMPLE));
    }

    #[test]
    fn a_strike_draws_nothing_and_sustain_a_word_a_frame() {
        let word = |render| played::<ModalVoice>(&[OPEN, Given::Render(render)])[1].words()[11];
        assert_eq!(word(EXAMPLE), EXAMPLE.word);
        let sustained = Render { sustain: true, ..EXAMPLE };
        let drawn = (0..8).fold(EXAMPLE.word, |w, _| record::draws::next(w));
        assert_eq!(word(sustained), drawn);
    }
}
