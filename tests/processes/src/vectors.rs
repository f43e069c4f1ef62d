//! The two programs on a folder of vectors: its `check` and its `ask`.

use paper::programs::{self, agrees};
use processes::compare::{Bench, Go, Rules};
use processes::process::How;
use std::ffi::OsStr;
use std::path::{Path, PathBuf};

fn bytes(path: &Path) -> Vec<u8> {
    std::fs::read(path).unwrap_or_else(|e| panic!("{}: {e}", path.display()))
}

fn entries(folder: &Path) -> Vec<PathBuf> {
    let listed = std::fs::read_dir(folder).unwrap_or_else(|e| panic!("{}: {e}", folder.display()));
    let mut paths: Vec<PathBuf> = listed.map(|entry| entry.expect("a folder's entry").path()).collect();
    paths.sort();
    paths
}

/// An amended one, named `check/NAME` or `ask/NAME`, is held to `paper`; so are the
/// answers of one that has no letters and else agrees.
pub fn run(bench: &mut Bench, folder: &Path, amended: &[&str]) -> Go {
    let is_amended = |kind: &str, name: Option<&OsStr>| {
        amended.contains(&&*format!("{kind}/{}", name.unwrap_or_default().to_string_lossy()))
    };
    for path in entries(&folder.join("check")) {
        if path.extension().is_some_and(|e| e == "acf") {
            let (file, mut output) = (bytes(&path), bytes(&path.with_extension("out")));
            if is_amended("check", path.file_stem()) {
                output = programs::check(&file).into_bytes();
            }
            bench.check(&file, &How::Pipe, &output)?;
        }
    }
    for path in entries(&folder.join("ask")) {
        let (input, mut output) = (bytes(&path.join("stdin")), bytes(&path.join("stdout")));
        let rules = std::fs::read(path.join("rules.acf")).unwrap_or_default();
        let printed = programs::ask(&rules, &input);
        if is_amended("ask", path.file_name()) || agrees(&String::from_utf8_lossy(&output), &printed) {
            output = printed.into_bytes();
        }
        bench.ask(Rules::In(&path), &input, &How::Pipe, &output)?;
    }
    Ok(())
}
