//! The exported leaves, safe to call.

mod raw {
    unsafe extern "C" {
        pub fn leaves_process_buffer(
            f: f32,
            q: f32,
            in_: *const f32,
            in_len: usize,
            out: *mut f32,
            out_len: usize,
        ) -> f32;
        pub fn leaves_get_floats(word: u32, out: *mut f32, out_len: usize) -> u32;
        pub fn leaves_semitones_to_ratio(
            semitones: *const f32,
            semitones_len: usize,
            out: *mut f32,
            out_len: usize,
        );
        pub fn leaves_read_hermites(
            line: *const f32,
            line_len: usize,
            write_ptr: usize,
            delays: *const f32,
            delays_len: usize,
            out: *mut f32,
            out_len: usize,
        );
    }
}

pub fn process_buffer(f: f32, q: f32, in_: &[f32], out: &mut [f32]) -> f32 {
    unsafe {
        raw::leaves_process_buffer(f, q, in_.as_ptr(), in_.len(), out.as_mut_ptr(), out.len())
    }
}

pub fn get_floats(word: u32, out: &mut [f32]) -> u32 {
    unsafe { raw::leaves_get_floats(word, out.as_mut_ptr(), out.len()) }
}

pub fn semitones_to_ratio(semitones: &[f32], out: &mut [f32]) {
    let (from, to) = (semitones, out);
    unsafe { raw::leaves_semitones_to_ratio(from.as_ptr(), from.len(), to.as_mut_ptr(), to.len()) }
}

pub fn read_hermite(line: &[f32], write_ptr: usize, delays: &[f32], out: &mut [f32]) {
    let (from, to) = (delays, out);
    unsafe {
        raw::leaves_read_hermites(
            line.as_ptr(),
            line.len(),
            write_ptr,
            from.as_ptr(),
            from.len(),
            to.as_mut_ptr(),
            to.len(),
        )
    }
}
