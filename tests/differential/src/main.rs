//! Compares the static library of the proved code with `paper`, a separate
//! reading of document 01, on inputs made at random.
//!
//!     differential [-v] SEED COUNT [CASE]
//!
//! Exit code 0 and one line if all agree; 1 and the first difference if not.
//! With CASE only that case of the seed is run; -v prints how often each
//! answer came.

mod cases;
mod compare;
mod register;
mod rooms;
mod slices;
mod stray;

use compare::{Comparison, Go, Stop};
use inputs::random::Random;
use std::process::exit;

fn usage() -> ! {
    eprintln!("usage: differential [-v] SEED COUNT [CASE]");
    exit(2)
}

fn number(text: &str) -> u64 {
    text.parse().unwrap_or_else(|_| usage())
}

/// What is the same for each seed: the version, the limits, numbers of each form.
fn once(comparison: &mut Comparison) -> Go {
    comparison.version()?;
    comparison.limits()?;
    cases::numbers(comparison)
}

/// These, then cases until there are enough comparisons.
fn compare(comparison: &mut Comparison, seed: u64, only: Option<u64>) {
    let first = only.unwrap_or(0);
    for case in first.. {
        let once = if case == first { once(comparison) } else { Ok(()) };
        match once.and_then(|()| cases::run(&mut Random::of_case(seed, case), comparison)) {
            Ok(()) if only.is_some() => return,
            Ok(()) => {}
            Err(Stop::Enough) => return,
            Err(Stop::Difference(what)) => {
                println!("difference, seed {seed}, case {case}: {what}");
                println!("{} comparisons, 1 difference, seed {seed}", comparison.done + 1);
                exit(1);
            }
        }
    }
}

fn main() {
    let mut words: Vec<String> = std::env::args().skip(1).collect();
    let told = words.len();
    words.retain(|w| w != "-v");
    let verbose = words.len() < told;
    let (seed, count, only) = match &words[..] {
        [seed, count] => (number(seed), number(count), None),
        [seed, count, case] => (number(seed), number(count), Some(number(case))),
        _ => usage(),
    };
    if !library::LINKED {
        eprintln!("differential: the static library was not there when this was built");
        exit(2);
    }
    if count == 0 {
        usage();
    }
    let mut comparison = Comparison::new(count);
    compare(&mut comparison, seed, only);
    if verbose {
        for (answer, count) in &comparison.census {
            println!("{count:9} {answer}");
        }
    }
    let stub = if library::STUB { " (of the stub)" } else { "" };
    println!("{} comparisons, 0 differences, seed {seed}{stub}", comparison.done);
}
