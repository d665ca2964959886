//! The recorded answers of the Rust, asked of the exported functions again.
//!
//! docs/RECORD.md describes the files; nothing here needs the Rust's source. Every exported call goes through a [`Port`].

#![deny(unsafe_code)]

mod bank;
mod banks;
mod buffers;
mod draws;
mod fields;
mod file;
mod leaves;
mod port;
mod report;
mod voices;

pub use file::File;
pub use port::{Libraries, Port};
pub use report::{Difference, Report};

/// Asks all that a file of these bytes asks, or says what is wrong with the file.
pub fn replay(file: File, bytes: &[u8], port: &mut dyn Port) -> Result<Report, String> {
    let rows = file.rows(bytes)?;
    Ok(match file {
        File::Leaves => leaves::replay(&rows, port),
        File::Strings => voices::replay(&voices::STRINGS, &rows, port),
        File::Modals => voices::replay(&voices::MODALS, &rows, port),
        File::Banks => banks::replay(&rows, port),
    })
}
