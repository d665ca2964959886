//! The unchanged Rust of mi-plaits-dsp-rs, as far as the string and modal voices need it.
//!
//! The modules `noise`, `physical_modelling`, `resources` and `utils` stand here as in the Rust crate.
//! They are absent where the build script found no source.

pub mod debug;

#[cfg(not(no_plaits))]
include!(concat!(env!("OUT_DIR"), "/modules.rs"));

/// The folder of the Rust source that was built, none where it was not found.
pub const SOURCE: Option<&str> = option_env!("PLAITS_FOUND");
