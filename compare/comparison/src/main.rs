//! Holds the proved library against the unchanged original, case by case and number by number; what the original doesn't have, against its rules.
//! Each case is asked with no output first, then with one place less than the answer needs and with just enough, some with another room too.
//!
//! - `comparison quick`: the directed and exhaustive cases and a fixed count of random ones, by a fixed seed.
//! - `comparison long [MINUTESm | CASES] [SEED]`: the same, and random cases for so many minutes, or so many of them.
//!
//! A disagreement is shrunk and printed, and the exit status tells of it.

mod asking;
mod case;
mod checks;
mod cleared;
mod directed;
mod draw;
mod exhaustive;
mod job;
mod lent;
mod library;
mod raw;
mod record;
mod report;
mod reshape;
#[cfg(test)]
mod room_tests;
mod run;
mod shrink;
mod surface;
mod tensor;
mod tensor_cases;
#[cfg(test)]
mod tests;

use library::Proved;
use run::Limit;
use std::process::ExitCode;
use std::time::{Duration, Instant};

const SEED: u64 = 0x4d53_4620_0002;
const QUICK_CASES: u64 = 1_750_000;
const LONG_MINUTES: u64 = 10;

/// What the command line asks for: how long to draw random cases, and from which seed.
fn asked(arguments: &[String]) -> Option<(Limit, u64)> {
    let minutes = |count: u64| Limit::Until(Instant::now() + Duration::from_secs(60 * count));
    match arguments {
        [command] if command == "quick" => Some((Limit::Cases(QUICK_CASES), SEED)),
        [command, rest @ ..] if command == "long" && rest.len() <= 2 => {
            let limit = match rest.first() {
                None => minutes(LONG_MINUTES),
                Some(text) => match text.strip_suffix('m') {
                    Some(count) => minutes(count.parse().ok()?),
                    None => Limit::Cases(text.parse().ok()?),
                },
            };
            let seed = match rest.get(1) {
                None => SEED,
                Some(text) => text.parse().ok()?,
            };
            Some((limit, seed))
        }
        _ => None,
    }
}

fn main() -> ExitCode {
    let arguments: Vec<String> = std::env::args().skip(1).collect();
    let Some((limit, seed)) = asked(&arguments) else {
        eprintln!("comparison quick | comparison long [MINUTESm | CASES] [SEED]");
        return ExitCode::FAILURE;
    };
    let start = Instant::now();
    let report = run::run(&Proved, limit, seed);
    println!("{report}");
    println!(
        "seed {seed}, {} cases, {} disagreements, {:.1} seconds",
        report.cases(),
        report.disagreements(),
        start.elapsed().as_secs_f64()
    );
    if report.disagreements() == 0 {
        ExitCode::SUCCESS
    } else {
        ExitCode::FAILURE
    }
}
