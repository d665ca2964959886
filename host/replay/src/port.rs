//! The exported functions of the bank and of the leaves, each as a method that calls it.
#![allow(unsafe_code)]

use bleidhvan::raw::{self, Answer};
use bleidhvan::{Buffers, Knobs};

/// The leaves as they are exported; a slice crosses as pointer and length.
mod exported {
    unsafe extern "C" {
        pub safe fn leaves_whole_part(x: f32) -> usize;
        pub safe fn leaves_fraction(x: f32) -> f32;
        pub safe fn leaves_min(x: f32, y: f32) -> f32;
        pub safe fn leaves_clamp(x: f32, lo: f32, hi: f32) -> f32;
        pub safe fn leaves_abs(x: f32) -> f32;
        pub safe fn leaves_get_word(word: u32) -> u32;
        pub safe fn leaves_get_float(word: u32) -> f32;
        pub safe fn leaves_noise(word: u32) -> f32;
        pub fn leaves_dust(frequency: f32, word: *mut u32, word_len: usize) -> f32;
        pub safe fn leaves_interpolate(index: f32) -> f32;
        pub safe fn leaves_one_pole(out: f32, in_: f32, coefficient: f32) -> f32;
        pub safe fn leaves_crossfade(a: f32, b: f32, fade: f32) -> f32;
        pub fn leaves_interpolator_new(
            state: f32,
            new_value: f32,
            size: usize,
            interpolator: *mut f32,
            interpolator_len: usize,
        );
        pub fn leaves_interpolator_next(interpolator: *mut f32, interpolator_len: usize);
        pub safe fn leaves_tan(f: f32, dirty: bool) -> f32;
        pub fn leaves_dc_blocker_init(pole: f32, blocker: *mut f32, blocker_len: usize);
        pub fn leaves_dc_blocker_process(
            blocker: *mut f32,
            blocker_len: usize,
            in_out: *mut f32,
            in_out_len: usize,
        );
        pub fn leaves_svf_new(svf: *mut f32, svf_len: usize);
        pub fn leaves_svf_init(svf: *mut f32, svf_len: usize);
        pub fn leaves_svf_set_f_q(
            svf: *mut f32,
            svf_len: usize,
            f: f32,
            resonance: f32,
            dirty: bool,
        );
        pub fn leaves_svf_process(svf: *mut f32, svf_len: usize, in_: f32) -> f32;
        pub fn leaves_svf_process_buffer(
            svf: *mut f32,
            svf_len: usize,
            in_: *const f32,
            in_len: usize,
            out: *mut f32,
            out_len: usize,
        );
        pub fn leaves_line_write(
            line: *mut f32,
            line_len: usize,
            write_ptr: usize,
            sample: f32,
        ) -> usize;
        pub fn leaves_line_reset(line: *mut f32, line_len: usize) -> usize;
        pub fn leaves_read_with_delay_frac(
            line: *const f32,
            line_len: usize,
            write_ptr: usize,
            delay: f32,
        ) -> f32;
        pub fn leaves_read_hermite(
            line: *const f32,
            line_len: usize,
            write_ptr: usize,
            delay: f32,
        ) -> f32;
        pub fn leaves_allpass(
            line: *mut f32,
            line_len: usize,
            write_ptr: *mut usize,
            write_ptr_len: usize,
            sample: f32,
            delay: usize,
            coefficient: f32,
        ) -> f32;
        pub fn leaves_oscillator_init(frequency: f32, oscillator: *mut f32, oscillator_len: usize);
        pub fn leaves_oscillator_next(oscillator: *mut f32, oscillator_len: usize) -> f32;
        pub fn leaves_amplitudes(position: f32, amplitudes: *mut f32, amplitudes_len: usize);
        pub safe fn leaves_ratio(semitones: f32) -> f32;
        pub safe fn leaves_table(which: u32, i: usize) -> f32;
    }
}

/// What the replay asks. A port that is wrong somewhere overrides one method.
///
/// In every unsafe call each slice is lent whole, and to nobody else.
pub trait Port {
    fn fresh(&mut self, bank: &mut [u8]) -> u32 {
        raw::fresh(bank)
    }

    fn open(
        &mut self,
        bank: &mut [u8],
        lines: &mut [f32],
        slot: usize,
        kind: u32,
        sample_rate_hz: f32,
    ) -> u32 {
        raw::open(bank, lines, slot, kind, sample_rate_hz)
    }

    fn reset(&mut self, bank: &mut [u8], lines: &mut [f32], slot: usize) -> u32 {
        raw::reset(bank, lines, slot)
    }

    #[allow(clippy::too_many_arguments)] // those of the exported call
    fn render(
        &mut self,
        bank: &mut [u8],
        lines: &mut [f32],
        word: &mut u32,
        slot: usize,
        knobs: &Knobs,
        buffers: Buffers<'_>,
        slow_subnormals: bool,
    ) -> Answer {
        raw::render(bank, lines, word, slot, knobs, buffers, slow_subnormals)
    }

    fn whole_part(&mut self, x: f32) -> usize {
        exported::leaves_whole_part(x)
    }

    fn fraction(&mut self, x: f32) -> f32 {
        exported::leaves_fraction(x)
    }

    fn min(&mut self, x: f32, y: f32) -> f32 {
        exported::leaves_min(x, y)
    }

    fn clamp(&mut self, x: f32, lo: f32, hi: f32) -> f32 {
        exported::leaves_clamp(x, lo, hi)
    }

    fn abs(&mut self, x: f32) -> f32 {
        exported::leaves_abs(x)
    }

    fn get_word(&mut self, word: u32) -> u32 {
        exported::leaves_get_word(word)
    }

    fn get_float(&mut self, word: u32) -> f32 {
        exported::leaves_get_float(word)
    }

    fn noise(&mut self, word: u32) -> f32 {
        exported::leaves_noise(word)
    }

    fn dust(&mut self, frequency: f32, word: &mut [u32]) -> f32 {
        unsafe { exported::leaves_dust(frequency, word.as_mut_ptr(), word.len()) }
    }

    fn interpolate(&mut self, index: f32) -> f32 {
        exported::leaves_interpolate(index)
    }

    fn one_pole(&mut self, out: f32, in_: f32, coefficient: f32) -> f32 {
        exported::leaves_one_pole(out, in_, coefficient)
    }

    fn crossfade(&mut self, a: f32, b: f32, fade: f32) -> f32 {
        exported::leaves_crossfade(a, b, fade)
    }

    fn interpolator_new(
        &mut self,
        state: f32,
        new_value: f32,
        size: usize,
        interpolator: &mut [f32],
    ) {
        let (pointer, len) = (interpolator.as_mut_ptr(), interpolator.len());
        unsafe { exported::leaves_interpolator_new(state, new_value, size, pointer, len) }
    }

    fn interpolator_next(&mut self, interpolator: &mut [f32]) {
        unsafe { exported::leaves_interpolator_next(interpolator.as_mut_ptr(), interpolator.len()) }
    }

    fn tan(&mut self, f: f32, dirty: bool) -> f32 {
        exported::leaves_tan(f, dirty)
    }

    fn dc_blocker_init(&mut self, pole: f32, blocker: &mut [f32]) {
        unsafe { exported::leaves_dc_blocker_init(pole, blocker.as_mut_ptr(), blocker.len()) }
    }

    fn dc_blocker_process(&mut self, blocker: &mut [f32], in_out: &mut [f32]) {
        let (pointer, len) = (in_out.as_mut_ptr(), in_out.len());
        unsafe {
            exported::leaves_dc_blocker_process(blocker.as_mut_ptr(), blocker.len(), pointer, len)
        }
    }

    fn svf_new(&mut self, svf: &mut [f32]) {
        unsafe { exported::leaves_svf_new(svf.as_mut_ptr(), svf.len()) }
    }

    fn svf_init(&mut self, svf: &mut [f32]) {
        unsafe { exported::leaves_svf_init(svf.as_mut_ptr(), svf.len()) }
    }

    fn svf_set_f_q(&mut self, svf: &mut [f32], f: f32, resonance: f32, dirty: bool) {
        unsafe { exported::leaves_svf_set_f_q(svf.as_mut_ptr(), svf.len(), f, resonance, dirty) }
    }

    fn svf_process(&mut self, svf: &mut [f32], in_: f32) -> f32 {
        unsafe { exported::leaves_svf_process(svf.as_mut_ptr(), svf.len(), in_) }
    }

    fn svf_process_buffer(&mut self, svf: &mut [f32], in_: &[f32], out: &mut [f32]) {
        let (from, to) = (in_.as_ptr(), out.as_mut_ptr());
        let (svf, svf_len) = (svf.as_mut_ptr(), svf.len());
        unsafe { exported::leaves_svf_process_buffer(svf, svf_len, from, in_.len(), to, out.len()) }
    }

    fn line_write(&mut self, line: &mut [f32], write_ptr: usize, sample: f32) -> usize {
        unsafe { exported::leaves_line_write(line.as_mut_ptr(), line.len(), write_ptr, sample) }
    }

    fn line_reset(&mut self, line: &mut [f32]) -> usize {
        unsafe { exported::leaves_line_reset(line.as_mut_ptr(), line.len()) }
    }

    fn read_with_delay_frac(&mut self, line: &[f32], write_ptr: usize, delay: f32) -> f32 {
        let (pointer, len) = (line.as_ptr(), line.len());
        unsafe { exported::leaves_read_with_delay_frac(pointer, len, write_ptr, delay) }
    }

    fn read_hermite(&mut self, line: &[f32], write_ptr: usize, delay: f32) -> f32 {
        unsafe { exported::leaves_read_hermite(line.as_ptr(), line.len(), write_ptr, delay) }
    }

    fn allpass(
        &mut self,
        line: &mut [f32],
        write_ptr: &mut [usize],
        sample: f32,
        delay: usize,
        coefficient: f32,
    ) -> f32 {
        let (line, line_len) = (line.as_mut_ptr(), line.len());
        let (place, place_len) = (write_ptr.as_mut_ptr(), write_ptr.len());
        unsafe {
            exported::leaves_allpass(line, line_len, place, place_len, sample, delay, coefficient)
        }
    }

    fn oscillator_init(&mut self, frequency: f32, oscillator: &mut [f32]) {
        let (pointer, len) = (oscillator.as_mut_ptr(), oscillator.len());
        unsafe { exported::leaves_oscillator_init(frequency, pointer, len) }
    }

    fn oscillator_next(&mut self, oscillator: &mut [f32]) -> f32 {
        unsafe { exported::leaves_oscillator_next(oscillator.as_mut_ptr(), oscillator.len()) }
    }

    fn amplitudes(&mut self, position: f32, amplitudes: &mut [f32]) {
        let (pointer, len) = (amplitudes.as_mut_ptr(), amplitudes.len());
        unsafe { exported::leaves_amplitudes(position, pointer, len) }
    }

    fn ratio(&mut self, semitones: f32) -> f32 {
        exported::leaves_ratio(semitones)
    }

    fn table(&mut self, which: u32, i: usize) -> f32 {
        exported::leaves_table(which, i)
    }
}

/// The functions as the libraries have them.
#[derive(Debug, Clone, Copy)]
pub struct Libraries;

impl Port for Libraries {}
