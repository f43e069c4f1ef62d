//! Holds the library, `paper` and the programs to a folder of vectors.
//!
//!     delivered BIN FOLDER
//!
//! BIN is the folder of `checker`, `asker` and `export`. Each kind of vectors that the
//! folder has is tried; one that is not known is a difference. Exit code 1 at a
//! difference, or if there are no vectors.

mod calculations;
mod exports;
mod files;
mod questions;
mod registers;
mod score;

use processes::compare::Bench;
use score::{entries, Score};
use std::path::{absolute, Path, PathBuf};
use std::process::exit;

fn folder(text: &str) -> PathBuf {
    absolute(text).unwrap_or_else(|e| fail(&format!("{text}: {e}")))
}

fn fail(what: &str) -> ! {
    println!("{what}");
    exit(1)
}

/// The vectors of one kind.
fn run(kind: &str, path: &Path, bench: &mut Bench, score: &mut Score) {
    match kind {
        "calc" => calculations::run(path, score),
        "check" => files::check(path, bench, score),
        "table" => files::table(path, score),
        "decide" => questions::run(path, score),
        "asker" | "ask" => questions::asker(path, bench, score),
        "register" => registers::run(path, score),
        "export" => exports::run(path, score),
        _ => score.stray(path, "a kind of vectors that is not known"),
    }
}

fn main() {
    let words: Vec<String> = std::env::args().skip(1).collect();
    let [bin, from] = &words[..] else { fail("usage: delivered BIN FOLDER") };
    if !library::LINKED {
        fail("the static library was not there when this was built");
    }
    let from = folder(from);
    if !from.is_dir() {
        fail(&format!("{}: no folder", from.display()));
    }
    let mut bench = Bench::new(folder(bin));
    let mut score = Score::default();
    for path in entries(&from).into_iter().filter(|path| !path.ends_with("README.md")) {
        let kind = path.file_name().unwrap_or_default().to_string_lossy().into_owned();
        let (before, wrong) = (score.vectors, score.differences);
        run(&kind, &path, &mut bench, &mut score);
        if score.vectors == before && score.differences == wrong {
            score.stray(&path, "no vectors");
        }
        println!("{kind}: {}", score.vectors - before);
    }
    if score.vectors == 0 {
        score.stray(&from, "no vectors");
    }
    if score.differences == 0 {
        bench.remove_folder();
    }
    let word = if score.differences == 1 { "difference" } else { "differences" };
    println!("{} vectors, {} {word}", score.vectors, score.differences);
    exit((score.differences > 0).into());
}
