//! Holds `paper` to a folder of test vectors: `vectors FOLDER [AMENDED ...]`.
//! Prints a line for each difference and one with the counts; exit code 1 on a
//! difference. Where an answer has no letter, being older than document 02's fifth
//! request, the rest is compared. AMENDED are the vectors, as `check/NAME`, `ask/NAME` or `calc/LINE`,
//! whose answers a request has changed: one of these that agrees, or is not there,
//! is a difference.

use paper::calculation::{agrees, holds, parse, result};
use paper::{programs, script, Reading, Readings, TABLE_BYTES};
use std::path::{Path, PathBuf};

#[derive(Default)]
struct Score {
    same: usize,
    different: usize,
    amended: usize,
    /// The names of those not come to yet.
    awaited: Vec<String>,
}

impl Score {
    fn is_amended(&self, name: &str) -> bool {
        self.awaited.iter().any(|awaited| awaited == name)
    }

    /// A vector that a request may have amended.
    fn compare_named(&mut self, name: &str, what: &str, agrees: bool) {
        if !self.is_amended(name) {
            return self.compare(what, agrees);
        }
        self.awaited.retain(|awaited| awaited != name);
        if agrees {
            self.compare(&format!("{name} agrees, though amended"), false);
        } else {
            self.amended += 1;
        }
    }

    fn compare(&mut self, what: &str, agrees: bool) {
        if agrees {
            self.same += 1;
        } else {
            self.different += 1;
            println!("differs: {what}");
        }
    }
}

fn bytes(path: &Path) -> Vec<u8> {
    std::fs::read(path).unwrap_or_else(|e| panic!("{}: {e}", path.display()))
}

fn text(path: &Path) -> String {
    String::from_utf8(bytes(path)).expect("a vector's text is UTF-8")
}

fn entries(folder: &Path) -> Vec<PathBuf> {
    let listed = std::fs::read_dir(folder).unwrap_or_else(|e| panic!("{}: {e}", folder.display()));
    let mut paths: Vec<PathBuf> = listed.map(|entry| entry.expect("a folder's entry").path()).collect();
    paths.sort();
    paths
}

/// The checker's output, and what the load writes if no request has amended it.
fn check(folder: &Path, score: &mut Score) {
    for path in entries(&folder.join("check")) {
        if path.extension().is_none_or(|e| e != "acf") {
            continue;
        }
        let file = bytes(&path);
        let output = text(&path.with_extension("out"));
        let name = format!("check/{}", path.file_stem().unwrap_or_default().to_string_lossy());
        let amended = score.is_amended(&name);
        let agrees = programs::check(&file) == output;
        score.compare_named(&name, &format!("output of {}", path.display()), agrees);
        if !amended {
            load(&path, &file, &output, score);
        }
    }
}

/// The table, the length and the number of warnings; the bytes behind the table
/// stay; a buffer one byte short is refused.
fn load(path: &Path, file: &[u8], output: &str, score: &mut Score) {
    let stored = path.with_extension("table");
    let mut lent = vec![0xa5; TABLE_BYTES];
    match paper::load(file, &mut lent) {
        Ok(loaded) => {
            let table = bytes(&stored);
            let same = loaded.length == table.len()
                && loaded.warnings == output.lines().count()
                && lent[..loaded.length] == table[..]
                && lent[loaded.length..].iter().all(|b| *b == 0xa5);
            score.compare(&format!("table of {}", path.display()), same);
            let short = paper::load(file, &mut lent[..table.len() - 1]);
            let refusal = paper::Refusal { number: 11, place: table.len() };
            score.compare(&format!("refusal 11 of {}", path.display()), short == Err(refusal));
        }
        Err(_) => {
            let untouched = lent.iter().all(|b| *b == 0xa5);
            score.compare(&format!("no table of {}", path.display()), untouched && !stored.exists());
        }
    }
}

fn ask(folder: &Path, score: &mut Score) {
    for path in entries(&folder.join("ask")) {
        let rules = std::fs::read(path.join("rules.acf")).unwrap_or_default();
        let output = programs::ask(&rules, &bytes(&path.join("stdin")));
        let name = format!("ask/{}", path.file_name().unwrap_or_default().to_string_lossy());
        let agrees = programs::agrees(&text(&path.join("stdout")), &output);
        score.compare_named(&name, &format!("answers of {}", path.display()), agrees);
    }
}

fn table(folder: &Path, score: &mut Score) {
    let folder = folder.join("table");
    for line in text(&folder.join("index")).lines() {
        let (name, verdict) = line.split_once(' ').expect("a name and a verdict");
        let slice = bytes(&folder.join(format!("{name}.bin")));
        score.compare(&format!("table {name}"), paper::is_table(&slice) == (verdict == "table"));
    }
}

/// Whether a line is as this implementation would have it.
fn is_right(line: &str) -> bool {
    let fields: Vec<&str> = line.split('\t').collect();
    let tree = parse(&script::text(fields[0]).expect("a text in hexadecimal"));
    match (tree, &fields[1..]) {
        (None, ["refused"]) => true,
        (Some(tree), ["allowed", given, truth, heard]) => {
            let heard: Option<Vec<Reading>> = heard.split(' ').map(script::reading).collect();
            let readings: Readings = heard.expect("readings").try_into().expect("21 of them");
            agrees(given, result(&tree, &readings)) && *truth == holds(&tree, &readings).to_string()
        }
        _ => false,
    }
}

fn calculations(folder: &Path, score: &mut Score) {
    for (number, line) in text(&folder.join("calc")).lines().enumerate() {
        let name = format!("calc/{}", number + 1);
        score.compare_named(&name, &format!("{name}: {line}"), is_right(line));
    }
}

fn main() {
    let Some(folder) = std::env::args_os().nth(1).or_else(|| std::env::var_os("VECTORS")) else {
        eprintln!("usage: vectors FOLDER [AMENDED ...]");
        std::process::exit(2);
    };
    let folder = PathBuf::from(folder);
    let mut score = Score { awaited: std::env::args().skip(2).collect(), ..Score::default() };
    check(&folder, &mut score);
    ask(&folder, &mut score);
    table(&folder, &mut score);
    calculations(&folder, &mut score);
    for name in std::mem::take(&mut score.awaited) {
        score.compare(&format!("{name} is not there"), false);
    }
    println!("{} agree, {} amended, {} differ", score.same, score.amended, score.different);
    if score.different > 0 {
        std::process::exit(1);
    }
}
