//! Compares the exported bank with the Rust over so many blocks, and the exported player with single renders and the Rust over so many sheets.

use std::process::ExitCode;

#[cfg_attr(no_plaits, allow(dead_code))]
const USAGE: &str = "usage: compare [--seed N] [--blocks N] [--sheets N]
  --seed N     the run's number, from which all lists are drawn (1)
  --blocks N   so many blocks are heard on both sides at least (200000)
  --sheets N   so many sheets are played or refused at least (5000)";

#[cfg(no_plaits)]
fn main() -> ExitCode {
    println!("compare: skipped: the Rust source was not found; PLAITS_SRC names its folder");
    ExitCode::SUCCESS
}

#[cfg(not(no_plaits))]
fn main() -> ExitCode {
    match read(std::env::args().skip(1)) {
        Ok(asked) => compare(asked),
        Err(message) => {
            eprintln!("compare: {message}\n{USAGE}");
            ExitCode::from(2)
        }
    }
}

/// What the command line asks for.
#[cfg_attr(no_plaits, allow(dead_code))]
struct Asked {
    seed: u32,
    blocks: u64,
    sheets: u64,
}

#[cfg_attr(no_plaits, allow(dead_code))]
fn read(mut words: impl Iterator<Item = String>) -> Result<Asked, String> {
    let mut asked = Asked { seed: 1, blocks: 200_000, sheets: 5_000 };
    while let Some(word) = words.next() {
        let value = words.next().ok_or(format!("{word} has no number after it"))?;
        let wrong = |_| format!("{word} takes a whole number, and not '{value}'");
        match &word[..] {
            "--seed" => asked.seed = value.parse().map_err(wrong)?,
            "--blocks" => asked.blocks = value.parse().map_err(wrong)?,
            "--sheets" => asked.sheets = value.parse().map_err(wrong)?,
            _ => return Err(format!("'{word}' is unknown")),
        }
    }
    Ok(asked)
}

#[cfg(not(no_plaits))]
fn compare(asked: Asked) -> ExitCode {
    let blocks = if asked.blocks > 0 { blocks(&asked) } else { Ok(()) };
    match blocks.and_then(|()| if asked.sheets > 0 { sheets(&asked) } else { Ok(()) }) {
        Ok(()) => {
            println!("compare: 0 differ");
            ExitCode::SUCCESS
        }
        Err(message) => {
            println!("compare: seed {}, {message}", asked.seed);
            ExitCode::FAILURE
        }
    }
}

#[cfg(not(no_plaits))]
fn blocks(asked: &Asked) -> Result<(), String> {
    use compare::{list::List, run};
    let &Asked { seed, blocks, .. } = asked;
    let mut tally = run::Tally::default();
    let mut number = 0;
    while tally.heard < blocks {
        run::run(List::new(seed, number), &mut tally).map_err(|difference| {
            let run::Difference { call, text } = difference;
            format!("list {number}, call {call}: {text}\ncompare: {tally:?}")
        })?;
        number += 1;
    }
    let run::Tally { lists, calls, refused, blocks, heard, samples, .. } = tally;
    let run::Tally { non_finite, denormal, departures: [first, second, third], .. } = tally;
    println!("compare: seed {seed}: {lists} lists of {calls} calls, {refused} of them refused");
    println!(
        "compare: {blocks} blocks of {samples} samples, {heard} of them heard on both sides; {non_finite} with numbers that are not finite, {denormal} with denormal ones"
    );
    println!("compare: voices stopped at departures 1, 2 and 3: {first}, {second}, {third}");
    Ok(())
}

#[cfg(not(no_plaits))]
fn sheets(asked: &Asked) -> Result<(), String> {
    use compare::sheets::tally::{ENOUGH, Tally};
    use compare::sheets::{self, list::List, rust::Voices};
    let mut tally = Tally::default();
    let mut number = 0;
    while tally.sheets < asked.sheets {
        let list = List::new(asked.seed, number);
        let mut voices = Voices::new(!list.foreign);
        let done = sheets::run(list, bleidhvan::raw::play, &mut voices, &mut tally);
        done.map_err(|sheets::Difference { sheet, text }| {
            format!("list {number}, sheet {sheet}: {text}")
        })?;
        number += 1;
    }
    for line in tally.lines(asked.seed) {
        println!("compare: {line}");
    }
    let missing = tally.missing();
    if tally.sheets >= ENOUGH && !missing.is_empty() {
        return Err(format!("of these cases there was none: {}", missing.join("; ")));
    }
    Ok(())
}
