//! The string voice: blocks of a new voice, one after the other, the same buffers and the same bits on both sides.

use std::hint::black_box;

use oracle::physical_modelling::string_voice::StringVoice;
use oracle::utils::random;

use crate::buffers::{Buffers, Setting, same, silent};
use crate::ratio::compare;

unsafe extern "C" {
    fn strings_render(
        sample_rate_hz: f32,
        sustain: bool,
        trigger: bool,
        accent: f32,
        f0: f32,
        structure: f32,
        brightness: f32,
        damping: f32,
        blocks: usize,
        lines: *mut f32,
        lines_len: usize,
        temp: *mut f32,
        temp_len: usize,
        temp_2: *mut f32,
        temp_2_len: usize,
        out: *mut f32,
        out_len: usize,
        aux: *mut f32,
        aux_len: usize,
        word: u32,
    ) -> u32;
}

pub const SETTINGS: [Setting; 5] = [
    Setting("bridge", false, 0.0073, 0.1),
    Setting("dispersion", false, 0.0073, 0.8),
    Setting("dispersion, sustained", true, 0.0073, 0.8),
    Setting("low pitch, bridge", false, 0.0003, 0.1),
    Setting("low pitch, dispersion", false, 0.0003, 0.8),
];

#[inline(never)]
pub fn rust(setting: Setting, blocks: usize, word: u32, buffers: &mut Buffers) {
    let Setting(_, sustain, f0, structure) = setting;
    let [temp, temp_2, out, aux] = buffers;
    let mut voice = StringVoice::new();
    voice.init(48000.0);
    random::seed(word);
    for _ in 0..blocks {
        voice.render(sustain, true, 0.5, f0, structure, 0.5, 0.6, temp, temp_2, out, aux);
    }
}

#[inline(never)]
fn port(
    setting: Setting,
    blocks: usize,
    word: u32,
    lines: &mut [f32],
    buffers: &mut Buffers,
) -> u32 {
    let Setting(_, sustain, f0, structure) = setting;
    let [temp, temp_2, out, aux] = buffers;
    unsafe {
        strings_render(
            48000.0,
            sustain,
            true,
            0.5,
            f0,
            structure,
            0.5,
            0.6,
            blocks,
            lines.as_mut_ptr(),
            lines.len(),
            temp.as_mut_ptr(),
            temp.len(),
            temp_2.as_mut_ptr(),
            temp_2.len(),
            out.as_mut_ptr(),
            out.len(),
            aux.as_mut_ptr(),
            aux.len(),
            word,
        )
    }
}

fn setting(setting: Setting, frames: usize) {
    let blocks = 16384 / frames;
    let (mut a, mut b, mut lines) = (silent(frames), silent(frames), vec![0.0; 1280]);
    rust(setting, blocks, 33, &mut a);
    port(setting, blocks, 33, &mut lines, &mut b);
    assert!(same(&a, &b), "the bits differ");
    compare(
        &format!("string, {}, blocks of {frames}", setting.0),
        || rust(black_box(setting), blocks, 33, &mut a),
        || _ = black_box(port(black_box(setting), blocks, 33, &mut lines, &mut b)),
    );
}

pub fn all() {
    for frames in [24, 64, 512, 4096] {
        SETTINGS.iter().for_each(|&one| setting(one, frames));
    }
}
