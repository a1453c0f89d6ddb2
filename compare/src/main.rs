//! Compares the static library and the program `verdict` with the second implementation of documents
//! 01 and 02 on random cases. See `USAGE`.
//!
//! Each case has its own generator, made of the seed and the case's number, so it can be run alone.

mod about;
mod cases;
mod characters;
mod corners;
mod decisions;
mod delivery;
mod delivery_edges;
mod edges;
mod editions;
mod expressions;
mod find;
mod find_edges;
mod inputs;
mod many;
mod many_edges;
mod mend;
mod mend_bytes;
mod mend_edges;
mod meter_corners;
mod meters;
mod more;
mod more_edges;
mod notices;
mod operands;
mod operations;
mod pattern_cases;
mod patterns;
mod pointed;
mod program;
mod quorum;
mod quorum_edges;
mod random;
mod regex;
mod regex_corners;
mod regexes;
mod shift_edges;
mod shifts;
mod size;
mod size_corners;
mod spellings;
mod store;
mod store_edges;
mod stores;
mod subscriptions;
mod tables;
mod tally;
mod texts;
mod ubf;
mod ubf_edges;
mod ubf_texts;
mod undecided;
mod undecided_edges;
mod wildcard;
mod wildcard_corners;
mod words;

use cases::{kind_of, Case};
use random::Random;
use std::ops::Range;
use std::panic::{catch_unwind, AssertUnwindSafe};
use std::process::ExitCode;
use tally::Tally;

const USAGE: &str =
    "compare [--seed S] [--from K] [--cases N] [--program PATH]   cases K to K + N - 1
compare [--seed S] --case K [--program PATH]                 one case
Without words: seed 1, from 0, 100000 cases, the program target/bin/verdict.";

/// A run of so many cases must have met every number, op, verdict, limit and corner.
const MANY: u64 = 50_000;

struct Options {
    seed: u64,
    from: u64,
    cases: u64,
    program: String,
}

/// The options, or none if a word is unknown or its value is no number.
fn options(mut words: impl Iterator<Item = String>) -> Option<Options> {
    let mut options = Options {
        seed: 1,
        from: 0,
        cases: 100_000,
        program: "target/bin/verdict".into(),
    };
    while let Some(word) = words.next() {
        let value = words.next()?;
        match word.as_str() {
            "--seed" => options.seed = value.parse().ok()?,
            "--from" => options.from = value.parse().ok()?,
            "--cases" => options.cases = value.parse().ok()?,
            "--case" => (options.from, options.cases) = (value.parse().ok()?, 1),
            "--program" => options.program = value,
            _ => return None,
        }
    }
    Some(options)
}

/// Runs one case; the difference found, if any.
fn difference(options: &Options, number: u64, tally: &mut Tally) -> Option<String> {
    let random = Random::of_case(options.seed, number);
    let mut case = Case {
        random,
        tally,
        program: &options.program,
    };
    match catch_unwind(AssertUnwindSafe(|| case.run(kind_of(number)))) {
        Ok(outcome) => outcome.err(),
        Err(_) => Some("panicked, as said above".into()),
    }
}

/// The numbers of the cases.
fn numbers(options: &Options) -> Range<u64> {
    options.from..options.from.saturating_add(options.cases)
}

/// All cases up to the first difference, with that one's number.
fn first_difference(options: &Options, tally: &mut Tally) -> Option<(u64, String)> {
    numbers(options).find_map(|number| Some((number, difference(options, number, tally)?)))
}

/// Why the program cannot be run, if a case runs it.
fn without_program(options: &Options) -> Option<String> {
    let runs = numbers(options).any(|number| kind_of(number) == "program");
    runs.then(|| program::started(&options.program).err())?
}

fn main() -> ExitCode {
    let Some(options) = options(std::env::args().skip(1)) else {
        eprintln!("{USAGE}");
        return ExitCode::from(2);
    };
    if let Some(why) = without_program(&options) {
        eprintln!("compare: {why}");
        return ExitCode::from(2);
    }
    let mut tally = Tally::default();
    if let Some((number, difference)) = first_difference(&options, &mut tally) {
        println!(
            "compare: DIFFERENCE at seed {} case {number}, kind {}",
            options.seed,
            kind_of(number)
        );
        println!("{difference}");
        println!("again: compare --seed {} --case {number}", options.seed);
        return ExitCode::FAILURE;
    }
    tally
        .lines()
        .iter()
        .for_each(|line| println!("compare: {line}"));
    let missing = if options.cases >= MANY {
        tally.missing()
    } else {
        Vec::new()
    };
    if !missing.is_empty() {
        println!("compare: never met: {}", missing.join(", "));
        return ExitCode::FAILURE;
    }
    println!(
        "compare: seed {}, {} cases from {}: no difference",
        options.seed, options.cases, options.from
    );
    ExitCode::SUCCESS
}
