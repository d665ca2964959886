//! A port of which one leaf is wrong in one bit, once, is reported: one record of that function differs.

mod common;

use common::{recorded, replayed, rows};
use replay::File::Leaves;
use replay::{Libraries, Port, replay};

/// Turns a bit of the first finite number other than 0 that comes by.
#[derive(Default)]
struct Once {
    done: bool,
}

trait Number: Copy {
    /// The number with a bit turned, none where it is not finite or 0.
    fn turned(self) -> Option<Self>;
}

impl Number for f32 {
    fn turned(self) -> Option<f32> {
        let fits = self.is_finite() && self != 0.0;
        fits.then_some(f32::from_bits(self.to_bits() ^ 1))
    }
}

impl Number for u32 {
    fn turned(self) -> Option<u32> {
        (self != 0).then_some(self ^ 1)
    }
}

impl Number for usize {
    fn turned(self) -> Option<usize> {
        (self != 0).then_some(self ^ 1)
    }
}

impl Once {
    fn turn<T: Number>(&mut self, x: T) -> T {
        match x.turned() {
            Some(turned) if !self.done => {
                self.done = true;
                turned
            }
            _ => x,
        }
    }

    /// The same of the number at a place of a slice, where there is one.
    fn turn_at<T: Number>(&mut self, slice: &mut [T], place: usize) {
        if let Some(x) = slice.get_mut(place) {
            *x = self.turn(*x);
        }
    }
}

/// One raw record differs, and it asks that function.
fn one_record_differs(function: &str, port: &mut dyn Port) {
    let rows = rows(Leaves);
    let raw = rows.partition_point(|record| record[0] < 65536);
    let report = replayed(Leaves, &rows[..raw], port);
    assert_eq!(report.differ, 1, "{report}");
    let of = format!(" of {function}");
    assert!(report.differences.iter().all(|found| found.field.ends_with(&of)), "{report}");
    let functions = report.compared.iter().filter(|line| line.contains(" by digest, "));
    let differing: Vec<_> = functions.filter(|line| !line.ends_with(" 0 differ")).collect();
    assert!(differing.len() == 1, "{report}");
    assert!(differing[0].starts_with(&format!("{function}: ")), "{report}");
}

/// For each function a port whose first answer of it is wrong in one bit; behind it the name under which it is recorded.
macro_rules! wrong_answers {
    ($($function:ident($($given:ident: $type:ty),*) -> $answer:ty, $name:literal;)*) => {$(
        #[test]
        fn $function() {
            struct Wrong(Once);
            impl Port for Wrong {
                fn $function(&mut self, $($given: $type),*) -> $answer {
                    self.0.turn(Libraries.$function($($given),*))
                }
            }
            one_record_differs($name, &mut Wrong(Once::default()));
        }
    )*};
}

/// The same of a number that a function leaves in a slice; before the name the slice and the number's place.
macro_rules! wrong_slices {
    ($(
        $function:ident($($given:ident: $type:ty),*) -> $answer:ty,
        $slice:ident[$place:expr], $name:literal;
    )*) => {$(
        #[test]
        fn $function() {
            struct Wrong(Once);
            impl Port for Wrong {
                fn $function(&mut self, $($given: $type),*) -> $answer {
                    let answer = Libraries.$function($($given),*);
                    self.0.turn_at($slice, $place);
                    answer
                }
            }
            one_record_differs($name, &mut Wrong(Once::default()));
        }
    )*};
}

mod one_answer {
    use super::{Libraries, Once, Port, one_record_differs};

    wrong_answers! {
        whole_part(x: f32) -> usize, "whole_part";
        fraction(x: f32) -> f32, "fraction";
        min(x: f32, y: f32) -> f32, "min";
        clamp(x: f32, lo: f32, hi: f32) -> f32, "clamp";
        abs(x: f32) -> f32, "abs";
        get_word(word: u32) -> u32, "random";
        get_float(word: u32) -> f32, "random";
        noise(word: u32) -> f32, "random";
        dust(frequency: f32, word: &mut [u32]) -> f32, "dust";
        interpolate(index: f32) -> f32, "interpolate";
        one_pole(out: f32, in_: f32, coefficient: f32) -> f32, "one_pole";
        crossfade(a: f32, b: f32, fade: f32) -> f32, "crossfade";
        tan(f: f32, dirty: bool) -> f32, "tan";
        svf_process(svf: &mut [f32], in_: f32) -> f32, "svf_process";
        line_write(line: &mut [f32], write_ptr: usize, sample: f32) -> usize, "delay_line_reads";
        read_with_delay_frac(line: &[f32], write_ptr: usize, delay: f32) -> f32, "delay_line_reads";
        read_hermite(line: &[f32], write_ptr: usize, delay: f32) -> f32, "delay_line_reads";
        allpass(line: &mut [f32], write_ptr: &mut [usize], sample: f32, delay: usize, coefficient: f32) -> f32, "allpass";
        oscillator_next(oscillator: &mut [f32]) -> f32, "cosine_oscillator";
        ratio(semitones: f32) -> f32, "semitones_to_ratio";
        table(which: u32, i: usize) -> f32, "tables";
    }
}

mod one_number_in_a_slice {
    use super::{Libraries, Once, Port, one_record_differs};

    wrong_slices! {
        dust(frequency: f32, word: &mut [u32]) -> f32, word[0], "dust";
        interpolator_new(state: f32, new_value: f32, size: usize, interpolator: &mut [f32]) -> (), interpolator[1], "parameter_interpolator";
        interpolator_next(interpolator: &mut [f32]) -> (), interpolator[0], "parameter_interpolator";
        dc_blocker_init(pole: f32, blocker: &mut [f32]) -> (), blocker[0], "dc_blocker";
        dc_blocker_process(blocker: &mut [f32], in_out: &mut [f32]) -> (), in_out[2], "dc_blocker";
        svf_set_f_q(svf: &mut [f32], f: f32, resonance: f32, dirty: bool) -> (), svf[1], "svf_process";
        svf_process(svf: &mut [f32], in_: f32) -> f32, svf[1], "svf_process";
        svf_process_buffer(svf: &mut [f32], in_: &[f32], out: &mut [f32]) -> (), out[0], "svf_process_buffer";
        line_write(line: &mut [f32], write_ptr: usize, sample: f32) -> usize, line[0], "delay_line_reads";
        allpass(line: &mut [f32], write_ptr: &mut [usize], sample: f32, delay: usize, coefficient: f32) -> f32, write_ptr[0], "allpass";
        oscillator_init(frequency: f32, oscillator: &mut [f32]) -> (), oscillator[2], "cosine_oscillator";
        oscillator_next(oscillator: &mut [f32]) -> f32, oscillator[1], "cosine_oscillator";
        amplitudes(position: f32, amplitudes: &mut [f32]) -> (), amplitudes[0], "amplitudes";
    }
}

/// The libraries, but that a filter is not made new or not set, or that a line is not cleared.
#[derive(Default)]
struct Forgets {
    new: bool,
    init: bool,
    reset: bool,
}

impl Port for Forgets {
    fn svf_new(&mut self, svf: &mut [f32]) {
        if !self.new {
            Libraries.svf_new(svf);
        }
    }

    fn svf_init(&mut self, svf: &mut [f32]) {
        if !self.init {
            Libraries.svf_init(svf);
        }
    }

    fn line_reset(&mut self, line: &mut [f32]) -> usize {
        if self.reset { 0 } else { Libraries.line_reset(line) }
    }
}

/// The functions that differ where that is forgotten, each with as many records.
fn differing(mut port: Forgets) -> Vec<String> {
    let report = replay(Leaves, &recorded(Leaves), &mut port).expect("the file is well formed");
    let functions = report.compared.iter().filter(|line| line.contains(" by digest, "));
    let differing = functions.filter(|line| !line.ends_with(" 0 differ"));
    differing.map(|line| line.split(": ").next().expect("a name").to_string()).collect()
}

#[test]
fn what_a_leaf_sets() {
    let none = Forgets::default;
    assert!(differing(none()).is_empty());
    let both = ["svf_process", "svf_process_buffer"];
    assert_eq!(differing(Forgets { new: true, ..none() }), both);
    assert_eq!(differing(Forgets { init: true, ..none() }), ["svf_process"]);
    assert_eq!(differing(Forgets { reset: true, ..none() }), ["reset"]);
}
