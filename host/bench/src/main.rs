//! Times the port's leaves, voices and exported calls beside the Rust's, the wrapper's guard beside none, and sheets beside their renders: both built for release, alternated in
//! one run, the ratio of each pair taken.

use std::process::ExitCode;

#[cfg(not(any(no_plaits, no_leaves)))]
mod banks;
#[cfg(not(any(no_plaits, no_leaves)))]
mod buffers;
#[cfg(not(any(no_plaits, no_leaves)))]
mod guard;
#[cfg(not(any(no_plaits, no_leaves)))]
mod keyboard;
#[cfg(not(any(no_plaits, no_leaves)))]
mod leaves;
#[cfg(not(any(no_plaits, no_leaves)))]
mod modals;
#[cfg(not(any(no_plaits, no_leaves)))]
mod ratio;
#[cfg(not(any(no_plaits, no_leaves)))]
mod run;
#[cfg(not(any(no_plaits, no_leaves)))]
mod sheets;
#[cfg(not(any(no_plaits, no_leaves)))]
mod strings;
#[cfg(not(any(no_plaits, no_leaves)))]
mod whole_notes;

/// What is timed, by the names that the command line takes.
#[cfg(not(any(no_plaits, no_leaves)))]
const PARTS: [(&str, fn()); 8] = [
    ("leaves", run::all),
    ("strings", strings::all),
    ("modals", modals::all),
    ("banks", banks::all),
    ("keyboard", keyboard::all),
    ("whole_notes", whole_notes::all),
    ("guard", guard::all),
    ("sheets", sheets::all),
];

#[cfg(not(any(no_plaits, no_leaves)))]
fn main() -> ExitCode {
    let asked: Vec<String> = std::env::args().skip(1).collect();
    let names = PARTS.map(|(name, _)| name);
    if let Some(unknown) = asked.iter().find(|name| !names.contains(&name.as_str())) {
        eprintln!(
            "bench: there is no part {unknown}: name some of {}, or none for all",
            names.join(", ")
        );
        return ExitCode::from(2);
    }
    let slow = if bleidhvan::slow_subnormals() { "yes" } else { "no" };
    println!("subnormal products are slow on this processor: {slow}");
    for (name, part) in PARTS {
        if asked.is_empty() || asked.iter().any(|it| it == name) {
            part();
        }
    }
    ExitCode::SUCCESS
}

#[cfg(any(no_plaits, no_leaves))]
fn main() -> ExitCode {
    eprintln!(
        "bench: the Rust source or a library of target/staticlib is missing; run `make bench`"
    );
    ExitCode::FAILURE
}
