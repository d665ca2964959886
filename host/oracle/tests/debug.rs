//! The text of a derived `Debug` gives every field back.

use oracle::debug::Tree;

#[derive(Debug)]
#[allow(dead_code)]
struct Inner {
    state: [f32; 2],
}

#[derive(Debug)]
#[allow(dead_code)]
struct Outer<'a> {
    place: usize,
    kept: &'a mut f32,
    inner: [Inner; 2],
    state: f32,
    none: [f32; 0],
}

/// Bits of every exponent with few and many digits, of both signs.
fn sample_of_bits() -> impl Iterator<Item = u32> {
    let by_exponent = (0..256u32).flat_map(|exponent| {
        [0, 1, 2, 0x0040_0000, 0x0055_5555, 0x007f_fffe, 0x007f_ffff]
            .map(|digits| exponent << 23 | digits)
    });
    let spread = (0..0x8000_0000u32).step_by(9973);
    by_exponent.chain(spread).flat_map(|bits| [bits, bits | 0x8000_0000])
}

#[test]
fn every_float_reads_back() {
    for bits in sample_of_bits() {
        let x = f32::from_bits(bits);
        let text = format!("{:?}", Inner { state: [x, 0.0] });
        let read = Tree::read(&text).field("state").items()[0].float();
        if x.is_nan() {
            assert!(read.is_nan(), "{bits:#010x} reads back as {read}");
        } else {
            assert_eq!(read.to_bits(), bits, "{text}");
        }
    }
}

#[test]
fn the_named_limits_read_back() {
    for (text, bits) in [
        ("-0.0", 0x8000_0000),
        ("1e-45", 1),
        ("1.1754942e-38", 0x007f_ffff),
        ("3.4028235e38", 0x7f7f_ffff),
        ("inf", 0x7f80_0000),
        ("-inf", 0xff80_0000),
    ] {
        assert_eq!(Tree::read(text).float().to_bits(), bits);
        assert_eq!(format!("{:?}", f32::from_bits(bits)), text);
    }
    assert!(Tree::read("NaN").float().is_nan());
}

#[test]
fn fields_are_found_at_their_own_depth() {
    let outer = Outer {
        place: 1023,
        kept: &mut 0.1,
        inner: [Inner { state: [1.0, 2.0] }, Inner { state: [3.0, -4.5] }],
        state: f32::NEG_INFINITY,
        none: [],
    };
    let text = format!("{outer:?}");
    let tree = Tree::read(&text);
    assert_eq!(tree.field("place").index(), 1023);
    assert_eq!(tree.field("kept").float(), 0.1);
    assert_eq!(tree.field("state").float(), f32::NEG_INFINITY);
    assert_eq!(tree.field("none").floats(), []);
    assert_eq!(tree.field("inner").items()[1].field("state").floats(), [3.0, -4.5]);
}

#[test]
#[should_panic(expected = "no field stat")]
fn a_part_of_a_name_is_no_field() {
    let text = format!("{:?}", Inner { state: [0.0; 2] });
    Tree::read(&text).field("stat");
}
