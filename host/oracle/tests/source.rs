//! The Rust source is built as it is, with overflow checks.

#[cfg(no_plaits)]
#[test]
#[ignore] // the Rust source was not found
fn the_source_is_built() {}

#[cfg(not(no_plaits))]
mod built {
    use oracle::debug::Tree;
    use oracle::physical_modelling::{modal_voice::ModalVoice, string_voice::StringVoice};
    use oracle::resources::stiffness::LUT_STIFFNESS;
    use oracle::utils::delay_line::DelayLine;
    use oracle::utils::interpolate;

    #[test]
    fn a_line_gives_the_sample_written() {
        let mut line = DelayLine::<f32, 1024>::new();
        line.write(1.0);
        let read = [1.0, 1.5, 2.0].map(|delay| line.read_hermite(delay));
        assert_eq!(read, [1.0, 0.5625, 0.0]);
    }

    #[test]
    fn the_allpass_of_a_fresh_line() {
        let mut line = DelayLine::<f32, 256>::new();
        assert_eq!(line.allpass(1.0, 4, 0.5), -0.5);
    }

    #[test]
    #[should_panic(expected = "overflow")]
    fn a_delay_that_overflows_panics() {
        let line = DelayLine::<f32, 1024>::new();
        std::hint::black_box(line.read_hermite(std::hint::black_box(f32::INFINITY)));
    }

    #[test]
    #[should_panic(expected = "out of bounds")]
    fn structure_1_panics() {
        std::hint::black_box(interpolate(&LUT_STIFFNESS, 1.0, 64.0));
    }

    #[test]
    fn the_private_fields_of_a_voice_are_read() {
        let mut voice = StringVoice::new();
        voice.init(48000.0);
        let text = format!("{voice:?}");
        let tree = Tree::read(&text);
        let string = tree.field("string");
        assert_eq!(string.field("delay").float(), 100.0);
        assert_eq!(string.field("string").field("line").items().len(), 1024);
        assert_eq!(string.field("stretch").field("line").items().len(), 256);
        assert_eq!(tree.field("remaining_noise_samples").index(), 0);

        let mut voice = ModalVoice::new();
        voice.init();
        let text = format!("{voice:?}");
        let resonator = Tree::read(&text);
        let resonator = resonator.field("resonator");
        assert_eq!(resonator.field("resolution").index(), 24);
        assert_eq!(resonator.field("mode_amplitude").items().len(), 24);
    }
}
