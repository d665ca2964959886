//! The generator, the shapes, the buffers and the digests, on values worked out by hand.

use record::draws::{buffer, canonical, case, digest, digest_of_buffer, next, previous};
use record::draws::{shaped, shapes, unit};

#[test]
fn the_generator_goes_both_ways() {
    assert_eq!(next(33), 1068833548);
    assert_eq!(next(0), 1013904223);
    for w in (0..=u32::MAX).step_by(65521) {
        assert_eq!(previous(next(w)), w);
    }
}

#[test]
fn a_word_becomes_a_float_of_0_to_1() {
    assert_eq!(unit(0), 0.0);
    assert_eq!(unit(0x8000_0000), 0.5);
    assert_eq!(unit(0xffff_ff7f), 1.0 - 2f32.powi(-24));
    assert_eq!(unit(0xffff_ff80), 1.0);
}

#[test]
fn the_shapes_of_a_word() {
    let s = 0xc000_0001;
    let floats = [(3, 0.75), (4, 0.5), (5, 1536.0), (6, 60.0), (11, 0.375), (12, 75.5)];
    for (shape, x) in floats {
        assert_eq!(shaped(shape, s), f32::to_bits(x), "shape {shape}");
    }
    // 0x60000000 leaves 0x800000 by 0x5f800000; 2^24 leaves 1 by 4097, so s leaves 192 + 1.
    let words = [(0, 0), (1, s), (2, 0x8080_0000), (7, 1), (8, 1), (9, 973), (10, 193)];
    for (shape, word) in words {
        assert_eq!(shaped(shape, s), word, "shape {shape}");
    }
}

#[test]
fn a_case_draws_a_word_for_every_input() {
    let (inputs, after) = case(shapes(&[0, 1, 7]), 33);
    assert_eq!(shapes(&[0, 1, 7]), 0x710);
    let second = next(next(33));
    assert_eq!(inputs, [0, second, next(second) % 2, 0, 0, 0, 0, 0]);
    assert_eq!(after, (0..8).fold(33, |w, _| next(w)));
}

#[test]
fn a_buffer_has_any_floats_where_its_seed_is_7_modulo_8() {
    let plain = buffer(3, 8);
    assert_eq!(plain[0], 2.0 * unit(next(8)) - 1.0);
    assert_eq!(plain[2], 2.0 * unit(next(next(next(8)))) - 1.0);
    let any = buffer(2, 15);
    assert_eq!(any[1].to_bits(), next(next(15)));
    assert_eq!(buffer(0, 7), []);
}

#[test]
fn changed_signs_do_not_cancel_in_a_digest() {
    for n in 1..64 {
        assert_ne!(digest_of_buffer(&vec![0.0; n]), digest_of_buffer(&vec![-0.0; n]));
        assert_ne!(digest_of_buffer(&vec![0.0; n]), digest_of_buffer(&vec![1.0; n]));
    }
}

#[test]
fn a_digest_takes_every_word_in_its_order() {
    assert_eq!(digest([]), 2166136261);
    assert_eq!(digest([5]), 84697648);
    assert_ne!(digest([0, 1]), digest([1, 0]));
    assert_ne!(digest([0]), digest([0, 0]));
    let nan = f32::from_bits(0xff80_0001);
    assert_eq!(canonical(nan), 0x7fc0_0000);
    assert_eq!(canonical(-0.0), 0x8000_0000);
    assert_eq!(digest_of_buffer(&[-0.0, nan]), digest([0x8000_0000, 0x7fc0_0000]));
}
