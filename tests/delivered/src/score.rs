//! How many vectors there were, and how many differ; and how files are read.

use std::fmt::Debug;
use std::path::{Path, PathBuf};

#[derive(Default)]
pub struct Score {
    pub vectors: u64,
    pub differences: u64,
}

/// What is wrong with a vector: nothing if all agrees.
pub type Verdict = Result<(), String>;

impl Score {
    /// One vector.
    pub fn vector(&mut self, name: &str, verdict: Verdict) {
        self.vectors += 1;
        if let Err(what) = verdict {
            self.differences += 1;
            println!("{name}: {what}");
        }
    }

    /// What is no vector and should not be there.
    pub fn stray(&mut self, path: &Path, what: &str) {
        self.differences += 1;
        println!("{}: {what}", path.display());
    }
}

pub fn same<T: PartialEq + Debug>(what: &str, expected: T, found: T) -> Verdict {
    if expected == found {
        return Ok(());
    }
    Err(format!("{what}: expected {expected:?}, found {found:?}"))
}

pub fn bytes(path: &Path) -> Result<Vec<u8>, String> {
    std::fs::read(path).map_err(|e| format!("{}: {e}", path.display()))
}

pub fn text(path: &Path) -> Result<String, String> {
    String::from_utf8(bytes(path)?).map_err(|e| format!("{}: {e}", path.display()))
}

/// By name.
pub fn entries(folder: &Path) -> Vec<PathBuf> {
    let listed = std::fs::read_dir(folder).into_iter().flatten();
    let mut paths: Vec<PathBuf> = listed.flatten().map(|entry| entry.path()).collect();
    paths.sort();
    paths
}

pub fn has_extension(path: &Path, wanted: &str) -> bool {
    path.extension().is_some_and(|e| e == wanted)
}

/// The vectors of a folder by the file that makes each; a file that belongs to
/// none is a difference.
pub fn of_extension(folder: &Path, main: &str, others: &[&str], score: &mut Score) -> Vec<PathBuf> {
    let (vectors, rest): (Vec<PathBuf>, Vec<PathBuf>) =
        entries(folder).into_iter().partition(|path| has_extension(path, main));
    for path in rest {
        if !others.iter().any(|e| has_extension(&path, e)) || !path.with_extension(main).exists() {
            score.stray(&path, "it belongs to no vector");
        }
    }
    vectors
}
