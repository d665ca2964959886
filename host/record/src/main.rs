//! Writes the records to their places in the repository.

use std::process::ExitCode;

#[cfg(no_plaits)]
fn main() -> ExitCode {
    eprintln!(
        "record: the Rust source was not found, so there is nothing to record; PLAITS_SRC names its folder"
    );
    ExitCode::FAILURE
}

#[cfg(not(no_plaits))]
fn main() -> ExitCode {
    match write_all() {
        Ok(()) => ExitCode::SUCCESS,
        Err(error) => {
            eprintln!("record: {error}");
            ExitCode::FAILURE
        }
    }
}

/// Makes all records before it writes any.
#[cfg(not(no_plaits))]
fn write_all() -> Result<(), String> {
    use oracle::physical_modelling::{modal_voice::ModalVoice, string_voice::StringVoice};
    use record::voices::{format, modals, record, strings};
    use record::{banks, rows};
    let leaves = record::leaves();
    let strings = record::<StringVoice>(&strings::sequences())?;
    let modals = record::<ModalVoice>(&modals::sequences())?;
    let banks = banks::record(&banks::lists())?;
    let bytes = record::format::to_bytes(&leaves);
    write(&record::leaves_path(), &bytes)?;
    summary(&leaves);
    println!("{} records, {} bytes", leaves.len(), bytes.len());
    for (kind, recorded) in [(format::STRINGS, strings), (format::MODALS, modals)] {
        let bytes = format::to_bytes(kind, &recorded.calls);
        write(&kind.path(), &bytes)?;
        println!("{}: {}", kind.name, recorded.summary());
        println!("{} calls, {} bytes", recorded.calls.len(), bytes.len());
    }
    let bytes = rows::to_bytes(banks::NAME, &banks.rows);
    write(&rows::path(banks::NAME), &bytes)?;
    println!("{}: {}", banks::NAME, banks.summary());
    println!("{} calls, {} bytes", banks.rows.len(), bytes.len());
    Ok(())
}

#[cfg(not(no_plaits))]
fn write(path: &std::path::Path, bytes: &[u8]) -> Result<(), String> {
    std::fs::write(path, bytes).map_err(|error| format!("{}: {error}", path.display()))
}

/// Prints the number of records of each kind, function by function.
#[cfg(not(no_plaits))]
fn summary(records: &[record::format::Record]) {
    use record::format::Kind;
    for function in &record::functions::FUNCTIONS {
        let own = || records.iter().filter(|r| r.function == function.number);
        let raw = own().filter(|r| matches!(r.kind, Kind::Raw { .. })).count();
        let digests = own().count() - raw;
        println!("{:2} {:24}{raw:5} raw{digests:4} digests", function.number, function.name);
    }
}
