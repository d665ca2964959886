//! A bank of eight string and modal voices, whose every call is proved.
//!
//! The calls are those of a library in Rattle: each is proved never to halt, to change nothing where it refuses, and to give the
//! very samples of mi-plaits-dsp-rs. This crate wraps them in types; [`raw`] has them as they are, on numbers and slices.
//!
//! ```
//! use bleidhvan::{Bank, Kind, Knobs};
//!
//! let mut bank = Bank::new(33);
//! bank.open(0, Kind::String, 48000.0)?;
//! let [mut temp, mut temp_2, mut out, mut aux] = [[0.0; 64]; 4];
//! let strike = Knobs { trigger: true, f0: 220.0 / 48000.0, ..Knobs::default() };
//! let counts = bank.render(0, &strike, [&mut temp, &mut temp_2, &mut out, &mut aux])?;
//! assert_eq!(counts.burst, 64);
//! assert!(out.iter().any(|sample| *sample != 0.0));
//! # Ok::<(), bleidhvan::Refusal>(())
//! ```
//!
//! [`Bank::play`] makes a block of several slots at once, by a sheet of events that begin on frames of their own.

#![deny(unsafe_code)]
#![warn(missing_docs)]

mod bank;
pub mod layout;
pub mod raw;
mod refusal;
mod saved;
mod sheet;
mod subnormal;

pub use bank::{Bank, Buffers, Counts, Kind, Knobs};
pub use refusal::{Buffer, Knob, Refusal};
pub use saved::LoadError;
pub use sheet::{Answers, Event};
pub use subnormal::slow_subnormals;

/// The README, whose example is tested as it stands.
#[cfg(doctest)]
#[doc = include_str!("../../../README.md")]
struct Readme;
