//! The modal voice: blocks of a new voice, one after the other, the same buffers and the same bits on both sides.

use std::hint::black_box;

use oracle::physical_modelling::modal_voice::ModalVoice;
use oracle::utils::random;

use crate::buffers::{Buffers, Setting, same, silent};
use crate::ratio::compare;

unsafe extern "C" {
    fn modals_render(
        sustain: bool,
        trigger: bool,
        accent: f32,
        f0: f32,
        structure: f32,
        brightness: f32,
        damping: f32,
        blocks: usize,
        temp: *mut f32,
        temp_len: usize,
        temp_2: *mut f32,
        temp_2_len: usize,
        out: *mut f32,
        out_len: usize,
        aux: *mut f32,
        aux_len: usize,
        word: u32,
        slow_subnormals: bool,
    ) -> u32;
}

pub const SETTINGS: [Setting; 2] =
    [Setting("struck", false, 0.0073, 0.4), Setting("sustained", true, 0.0073, 0.4)];

#[inline(never)]
pub fn rust(setting: Setting, blocks: usize, word: u32, buffers: &mut Buffers) {
    let Setting(_, sustain, f0, structure) = setting;
    let [temp, temp_2, out, aux] = buffers;
    let mut voice = ModalVoice::new();
    voice.init();
    random::seed(word);
    for _ in 0..blocks {
        voice.render(sustain, true, 0.5, f0, structure, 0.5, 0.6, temp, temp_2, out, aux);
    }
}

#[inline(never)]
fn port(setting: Setting, blocks: usize, word: u32, buffers: &mut Buffers) -> u32 {
    let Setting(_, sustain, f0, structure) = setting;
    let [temp, temp_2, out, aux] = buffers;
    unsafe {
        modals_render(
            sustain,
            true,
            0.5,
            f0,
            structure,
            0.5,
            0.6,
            blocks,
            temp.as_mut_ptr(),
            temp.len(),
            temp_2.as_mut_ptr(),
            temp_2.len(),
            out.as_mut_ptr(),
            out.len(),
            aux.as_mut_ptr(),
            aux.len(),
            word,
            bleidhvan::slow_subnormals(),
        )
    }
}

fn setting(setting: Setting, frames: usize) {
    let blocks = 16384 / frames;
    let (mut a, mut b) = (silent(frames), silent(frames));
    rust(setting, blocks, 33, &mut a);
    port(setting, blocks, 33, &mut b);
    assert!(same(&a, &b), "the bits differ");
    compare(
        &format!("modal, {}, blocks of {frames}", setting.0),
        || rust(black_box(setting), blocks, 33, &mut a),
        || _ = black_box(port(black_box(setting), blocks, 33, &mut b)),
    );
}

pub fn all() {
    for frames in [24, 64, 512, 4096] {
        SETTINGS.iter().for_each(|&one| setting(one, frames));
    }
}
