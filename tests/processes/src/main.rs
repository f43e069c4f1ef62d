//! Runs the built programs as processes and compares what they print with
//! `paper`'s, byte for byte.
//!
//!     processes [-v] BIN SEED COUNT [CASE]                until COUNT lines are compared, and all fixed cases
//!     processes [-v] BIN vectors FOLDER [AMENDED ...]     on a folder of vectors
//!
//! BIN is the folder of `checker`, `asker` and `export`. Exit code 0 and one line if all
//! agree; 1 and the first difference if not. With CASE only that case of the
//! seed is run; -v prints how often each line was to be printed.

mod cases;
mod vectors;

use inputs::random::Random;
use processes::compare::{Bench, Difference, Go};
use std::path::{absolute, PathBuf};
use std::process::exit;

fn usage() -> ! {
    eprintln!(
        "usage: processes [-v] BIN SEED COUNT [CASE]\n       processes [-v] BIN vectors FOLDER [AMENDED ...]"
    );
    exit(2)
}

fn number(text: &str) -> u64 {
    text.parse().unwrap_or_else(|_| usage())
}

fn folder(text: &str) -> PathBuf {
    absolute(text).unwrap_or_else(|_| usage())
}

/// Run cases until the fixed ones are through and there are enough lines, or the only one.
fn compare(bench: &mut Bench, seed: u64, count: u64, only: Option<u64>) -> Go {
    for case in only.unwrap_or(0).. {
        let done = cases::run(case, &mut Random::of_case(seed, case), bench);
        done.map_err(|Difference(what)| Difference(format!("seed {seed}, case {case}: {what}")))?;
        if only.is_some() || case + 1 >= cases::FIXED && bench.lines >= count {
            break;
        }
    }
    Ok(())
}

fn main() {
    let told: Vec<String> = std::env::args().skip(1).collect();
    let words: Vec<&str> = told.iter().map(String::as_str).filter(|w| *w != "-v").collect();
    let [bin, rest @ ..] = &words[..] else { usage() };
    let mut bench = Bench::new(folder(bin));
    let (done, of) = match rest {
        ["vectors", path, amended @ ..] => {
            (vectors::run(&mut bench, &folder(path), amended), "vectors".to_string())
        }
        [seed, count] => (compare(&mut bench, number(seed), number(count), None), format!("seed {seed}")),
        [seed, count, case] => {
            let only = Some(number(case));
            (compare(&mut bench, number(seed), number(count), only), format!("seed {seed}"))
        }
        _ => usage(),
    };
    if words.len() < told.len() {
        for (line, count) in &bench.census {
            println!("{count:9} {line}");
        }
    }
    let differences = usize::from(done.is_err());
    match done {
        Ok(()) => bench.remove_folder(),
        Err(Difference(what)) => println!("difference, {what}"),
    }
    let word = if differences == 1 { "difference" } else { "differences" };
    println!("{} lines, {} files, {differences} {word}, {of}", bench.lines, bench.files);
    exit(differences as i32);
}
