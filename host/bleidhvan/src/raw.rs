//! The exported calls on numbers and slices, as the proved library has them: any bytes, any lengths, any numbers.
//!
//! What the library leaves to its caller, that no pointer is null and no two overlap, the types here give: every slice is lent
//! by itself.
//!
//! The proofs take floats as a process has them at its start: rounded to nearest, with subnormal numbers. Audio hosts often set the
//! processor otherwise. So [`open`], [`reset`], [`render`] and [`play`] set aside the caller's MXCSR, work in that of a process at
//! its start, and restore the whole register, with the flags of its exceptions: they give the same bits in every setting, and leave
//! no trace in it. [`fresh`] has no floats. [`exported`] has the functions with no such guard.

use crate::bank::{Buffers, Counts, Knobs};
use std::mem::{offset_of, size_of};

/// The numbers of line memory that a bank accepts.
pub const LINES: usize = 10240;

/// The bytes of a slot of a bank.
pub const SLOT_BYTES: usize = 393;

/// The most events of a sheet, and the answers that are lent to [`play`].
pub const EVENTS: usize = 64;

/// The answer of a render: the table's number, 0 where it was accepted, and the words that it drew. It is `bleidhvan_answer` of C.
#[derive(Debug, Clone, Copy, Default, PartialEq, Eq)]
#[repr(C)]
pub struct Answer {
    /// 0, or why the call was refused.
    pub number: u32,
    /// Zeros where the call was refused.
    pub counts: Counts,
}

const _: () = assert!(size_of::<Answer>() == 32 && offset_of!(Answer, counts) == 8);
const _: () = assert!(offset_of!(Counts, dust) == 8 && offset_of!(Counts, dispersion) == 16);

/// An event of a sheet as it crosses: `bleidhvan_event` of C.
#[derive(Debug, Clone, Copy, Default, PartialEq)]
#[repr(C)]
pub struct Event {
    /// The frame of the block at which the event's render begins.
    pub frame: u32,
    /// The slot that it renders.
    pub slot: u32,
    /// 1 where the voice is struck, and else 0; any other number is 1 of the table.
    pub trigger: u32,
    /// 1 where the voice is excited all along, and else 0; any other number is 1 of the table.
    pub sustain: u32,
    /// The pitch over the sample rate.
    pub f0: f32,
    /// How hard a strike is.
    pub accent: f32,
    /// The non-linearity of the string, the stiffness of the modes.
    pub structure: f32,
    /// The brightness of the excitation.
    pub brightness: f32,
    /// How long the sound rings.
    pub damping: f32,
}

const _: () = assert!(size_of::<Event>() == 36 && offset_of!(Event, damping) == 32);

impl Event {
    /// The event of a frame and a slot with a render's knobs.
    pub fn new(frame: u32, slot: u32, knobs: &Knobs) -> Self {
        let Knobs { sustain, trigger, accent, f0, structure, brightness, damping } = *knobs;
        let [trigger, sustain] = [trigger, sustain].map(u32::from);
        Event { frame, slot, trigger, sustain, f0, accent, structure, brightness, damping }
    }
}

/// The functions of the library themselves, with nothing around them.
///
/// What they ask of a caller stands in docs/ABI.md: that each pointer has what its length says and nothing is lent twice, and the
/// floating-point environment of a process at its start.
#[allow(unsafe_code)]
pub mod exported {
    use super::{Answer, Event};

    unsafe extern "C" {
        /// The length of a bank in bytes.
        pub safe fn bleidhvan_bank_bytes() -> usize;

        /// The bytes become a fresh bank.
        pub fn bleidhvan_fresh(bank: *mut u8, bank_len: usize) -> u32;

        /// A slot is opened.
        pub fn bleidhvan_open(
            bank: *mut u8,
            bank_len: usize,
            lines: *mut f32,
            lines_len: usize,
            slot: usize,
            kind: u32,
            sample_rate_hz: f32,
        ) -> u32;

        /// A string slot is reset.
        pub fn bleidhvan_reset(
            bank: *mut u8,
            bank_len: usize,
            lines: *mut f32,
            lines_len: usize,
            slot: usize,
        ) -> u32;

        /// A block of a slot's voice.
        pub fn bleidhvan_render(
            bank: *mut u8,
            bank_len: usize,
            lines: *mut f32,
            lines_len: usize,
            word: &mut u32,
            slot: usize,
            sustain: bool,
            trigger: bool,
            accent: f32,
            f0: f32,
            structure: f32,
            brightness: f32,
            damping: f32,
            temp: *mut f32,
            temp_len: usize,
            temp_2: *mut f32,
            temp_2_len: usize,
            out: *mut f32,
            out_len: usize,
            aux: *mut f32,
            aux_len: usize,
            burst: &mut usize,
            dust: &mut usize,
            dispersion: &mut usize,
            slow_subnormals: bool,
        ) -> u32;

        /// A block of several slots, by the events of a sheet.
        pub fn bleidhvan_play(
            bank: *mut u8,
            bank_len: usize,
            lines: *mut f32,
            lines_len: usize,
            word: &mut u32,
            sheet: *const Event,
            sheet_len: usize,
            answers: *mut Answer,
            answers_len: usize,
            temp: *mut f32,
            temp_len: usize,
            temp_2: *mut f32,
            temp_2_len: usize,
            out: *mut f32,
            out_len: usize,
            aux: *mut f32,
            aux_len: usize,
            slow_subnormals: bool,
        ) -> u32;
    }
}

/// The functions of the library over slices, with nothing around them.
#[allow(unsafe_code)]
pub mod unguarded {
    use super::exported::{bleidhvan_open, bleidhvan_play, bleidhvan_render, bleidhvan_reset};
    use super::{Answer, Buffers, Counts, Event, Knobs};

    /// Opens a slot, and gives the table's number.
    ///
    /// # Safety
    ///
    /// The floating-point environment is that of a process at its start.
    #[inline(always)]
    pub unsafe fn open(
        bank: &mut [u8],
        lines: &mut [f32],
        slot: usize,
        kind: u32,
        sample_rate_hz: f32,
    ) -> u32 {
        let (bytes, size) = (bank.as_mut_ptr(), bank.len());
        let (numbers, count) = (lines.as_mut_ptr(), lines.len());
        // Each slice is lent whole, and to nobody else.
        unsafe { bleidhvan_open(bytes, size, numbers, count, slot, kind, sample_rate_hz) }
    }

    /// Resets a string, and gives the table's number.
    ///
    /// # Safety
    ///
    /// The floating-point environment is that of a process at its start.
    #[inline(always)]
    pub unsafe fn reset(bank: &mut [u8], lines: &mut [f32], slot: usize) -> u32 {
        // Each slice is lent whole, and to nobody else.
        unsafe {
            bleidhvan_reset(bank.as_mut_ptr(), bank.len(), lines.as_mut_ptr(), lines.len(), slot)
        }
    }

    /// Renders a block of a slot's voice; the word is the generator's.
    ///
    /// # Safety
    ///
    /// The floating-point environment is that of a process at its start.
    #[inline(always)]
    pub unsafe fn render(
        bank: &mut [u8],
        lines: &mut [f32],
        word: &mut u32,
        slot: usize,
        knobs: &Knobs,
        buffers: Buffers<'_>,
        slow_subnormals: bool,
    ) -> Answer {
        let Knobs { sustain, trigger, accent, f0, structure, brightness, damping } = *knobs;
        let [temp, temp_2, out, aux] = buffers;
        let Counts { mut burst, mut dust, mut dispersion } = Counts::default();
        // Each slice and each number is lent whole, and to nobody else.
        let number = unsafe {
            bleidhvan_render(
                bank.as_mut_ptr(),
                bank.len(),
                lines.as_mut_ptr(),
                lines.len(),
                word,
                slot,
                sustain,
                trigger,
                accent,
                f0,
                structure,
                brightness,
                damping,
                temp.as_mut_ptr(),
                temp.len(),
                temp_2.as_mut_ptr(),
                temp_2.len(),
                out.as_mut_ptr(),
                out.len(),
                aux.as_mut_ptr(),
                aux.len(),
                &mut burst,
                &mut dust,
                &mut dispersion,
                slow_subnormals,
            )
        };
        Answer { number, counts: Counts { burst, dust, dispersion } }
    }

    /// Plays a sheet over a block, and gives the sheet's number.
    ///
    /// # Safety
    ///
    /// The floating-point environment is that of a process at its start.
    #[inline(always)]
    pub unsafe fn play(
        bank: &mut [u8],
        lines: &mut [f32],
        word: &mut u32,
        sheet: &[Event],
        answers: &mut [Answer],
        buffers: Buffers<'_>,
        slow_subnormals: bool,
    ) -> u32 {
        let [temp, temp_2, out, aux] = buffers;
        // Each slice and the number is lent whole, and to nobody else.
        unsafe {
            bleidhvan_play(
                bank.as_mut_ptr(),
                bank.len(),
                lines.as_mut_ptr(),
                lines.len(),
                word,
                sheet.as_ptr(),
                sheet.len(),
                answers.as_mut_ptr(),
                answers.len(),
                temp.as_mut_ptr(),
                temp.len(),
                temp_2.as_mut_ptr(),
                temp_2.len(),
                out.as_mut_ptr(),
                out.len(),
                aux.as_mut_ptr(),
                aux.len(),
                slow_subnormals,
            )
        }
    }
}

#[allow(unsafe_code)]
mod guarded {
    use super::exported::{bleidhvan_bank_bytes, bleidhvan_fresh};
    use super::{Answer, Buffers, Event, Knobs, unguarded};
    use std::arch::asm;

    /// MXCSR at the start of a process: round to nearest, subnormal numbers as they are, no exception unmasked, none raised.
    const DEFAULT: u32 = 0x1f80;

    /// The caller's MXCSR, which is restored where this is dropped.
    struct SetAside(u32);

    impl SetAside {
        fn new() -> Self {
            let mut caller = 0u32;
            // The register is written to a number that is ours.
            unsafe { asm!("stmxcsr [{}]", in(reg) &mut caller, options(nostack, preserves_flags)) };
            load(DEFAULT);
            SetAside(caller)
        }
    }

    impl Drop for SetAside {
        fn drop(&mut self) {
            load(self.0);
        }
    }

    /// Sets MXCSR, to the default or to what it was.
    fn load(mxcsr: u32) {
        // Both are values that the processor takes, and the second is the one that the caller's code was made for.
        unsafe { asm!("ldmxcsr [{}]", in(reg) &mxcsr, options(nostack)) };
    }

    /// Calls in the environment that the proofs take. Whoever uses it is a function of its own, so that no float of the caller's is
    /// computed in it.
    pub(crate) fn in_default_environment<R>(call: impl FnOnce() -> R) -> R {
        let _restored = SetAside::new();
        call()
    }

    /// The bytes of a bank.
    pub fn bank_bytes() -> usize {
        bleidhvan_bank_bytes()
    }

    /// Makes the bytes a bank whose every slot is empty; gives 1 where they are not as many as a bank has.
    pub fn fresh(bank: &mut [u8]) -> u32 {
        // The slice is lent whole, and to nobody else.
        unsafe { bleidhvan_fresh(bank.as_mut_ptr(), bank.len()) }
    }

    /// Opens a slot, and gives the table's number.
    #[inline(never)]
    pub fn open(
        bank: &mut [u8],
        lines: &mut [f32],
        slot: usize,
        kind: u32,
        sample_rate_hz: f32,
    ) -> u32 {
        // The environment is the one that is asked for.
        in_default_environment(|| unsafe {
            unguarded::open(bank, lines, slot, kind, sample_rate_hz)
        })
    }

    /// Resets a string, and gives the table's number.
    #[inline(never)]
    pub fn reset(bank: &mut [u8], lines: &mut [f32], slot: usize) -> u32 {
        // The environment is the one that is asked for.
        in_default_environment(|| unsafe { unguarded::reset(bank, lines, slot) })
    }

    /// Renders a block of a slot's voice; the word is the generator's.
    ///
    /// `slow_subnormals` is whether this processor takes long over subnormal numbers, as [`slow_subnormals`] finds out: either value
    /// gives the same bits.
    ///
    /// [`slow_subnormals`]: crate::slow_subnormals
    #[inline(never)]
    pub fn render(
        bank: &mut [u8],
        lines: &mut [f32],
        word: &mut u32,
        slot: usize,
        knobs: &Knobs,
        buffers: Buffers<'_>,
        slow_subnormals: bool,
    ) -> Answer {
        // The environment is the one that is asked for.
        in_default_environment(|| unsafe {
            unguarded::render(bank, lines, word, slot, knobs, buffers, slow_subnormals)
        })
    }

    /// Plays a sheet over a block, and gives the sheet's number: 0 where it is played, and else every answer has it, and nothing else
    /// has changed.
    ///
    /// The answers are [`EVENTS`], an event's own at its place and zeros behind the last; any other length is 1 of the table, and
    /// leaves them as they are.
    ///
    /// [`EVENTS`]: super::EVENTS
    #[inline(never)]
    pub fn play(
        bank: &mut [u8],
        lines: &mut [f32],
        word: &mut u32,
        sheet: &[Event],
        answers: &mut [Answer],
        buffers: Buffers<'_>,
        slow_subnormals: bool,
    ) -> u32 {
        // The environment is the one that is asked for.
        in_default_environment(|| unsafe {
            unguarded::play(bank, lines, word, sheet, answers, buffers, slow_subnormals)
        })
    }
}

pub(crate) use guarded::in_default_environment;
pub use guarded::{bank_bytes, fresh, open, play, render, reset};
