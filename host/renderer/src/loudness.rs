//! Loudness through libebur128.

#![allow(unsafe_code)]

use std::ffi::{c_int, c_uint, c_ulong, c_void};
use std::io;

#[link(name = "ebur128")]
unsafe extern "C" {
    fn ebur128_init(channels: c_uint, rate: c_ulong, mode: c_int) -> *mut c_void;
    fn ebur128_destroy(state: *mut *mut c_void);
    fn ebur128_add_frames_float(state: *mut c_void, samples: *const f32, frames: usize) -> c_int;
    fn ebur128_loudness_global(state: *mut c_void, loudness: *mut f64) -> c_int;
}

/// Integrated loudness, by a histogram, so that memory does not grow with the note.
const MODE: c_int = 1 << 2 | 1 | 1 << 6;

pub struct Meter {
    state: *mut c_void,
    channels: usize,
}

impl Meter {
    pub fn new(channels: usize, rate: u32) -> io::Result<Self> {
        // SAFETY: the numbers are in the ranges that the library takes.
        let state = unsafe { ebur128_init(channels as c_uint, rate.into(), MODE) };
        if state.is_null() {
            return Err(io::ErrorKind::OutOfMemory.into());
        }
        Ok(Meter { state, channels })
    }

    /// Adds frames.
    pub fn add(&mut self, samples: &[f32]) {
        let frames = samples.len() / self.channels;
        // SAFETY: the state is open, and there are so many frames. Its answer is about memory, of which it needs no more.
        unsafe { ebur128_add_frames_float(self.state, samples.as_ptr(), frames) };
    }

    /// The loudness of all frames in LUFS; none of silence, nor of less than 0.4 seconds.
    pub fn loudness(&self) -> Option<f64> {
        let mut loudness = f64::NAN;
        // SAFETY: the state is open, and the number is written over.
        let answer = unsafe { ebur128_loudness_global(self.state, &mut loudness) };
        Some(loudness).filter(|loudness| answer == 0 && loudness.is_finite())
    }
}

impl Drop for Meter {
    fn drop(&mut self) {
        // SAFETY: the state is open, and nothing uses it behind this.
        unsafe { ebur128_destroy(&mut self.state) };
    }
}
