//! Lists of calls in the exported bank and, voice by voice, in the Rust, and sheets beside the renders that they stand for.

#[cfg(not(no_plaits))]
pub mod list;
#[cfg(not(no_plaits))]
pub mod run;
mod same;
pub mod sheets;
