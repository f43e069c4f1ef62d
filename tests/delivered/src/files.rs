//! `check`: loads, warnings, the checker, and `export`, held to `paper`. `table`: the check of a slice.

use crate::score::{bytes, entries, has_extension, of_extension, same, text, Score, Verdict};
use paper::{programs, TABLE_BYTES};
use processes::compare::{Bench, Difference};
use processes::process::How;
use std::path::Path;

const PATTERN: u8 = 0xa5;

pub fn check(folder: &Path, bench: &mut Bench, score: &mut Score) {
    for path in of_extension(folder, "acf", &["out", "table"], score) {
        score.vector(&path.display().to_string(), check_one(&path, bench));
    }
}

fn check_one(path: &Path, bench: &mut Bench) -> Verdict {
    let (file, output) = (bytes(path)?, text(&path.with_extension("out"))?);
    same("paper", &output, &programs::check(&file))?;
    bench.check(&file, &How::Pipe, output.as_bytes()).map_err(|Difference(what)| what)?;
    bench.export(Some(&file), &programs::export(&file)).map_err(|Difference(what)| what)?;
    same("warnings", &output, &listed(&file))?;
    let stored = path.with_extension("table");
    let table = if stored.exists() { Some(bytes(&stored)?) } else { None };
    loaded(&file, &output, table.as_deref())
}

/// What the checker prints, from the library's list.
fn listed(file: &[u8]) -> String {
    let (mut numbers, mut places) = (vec![0; file.len()], vec![0; file.len()]);
    let list = library::list_warnings(file, 0, &mut numbers, &mut places);
    if list.refusal > 0 {
        return format!("refusal {} at {}\n", list.refusal, list.place);
    }
    let warnings = numbers.iter().zip(&places).take(list.count as usize);
    warnings.map(|(number, place)| format!("warning {number} at {place}\n")).collect()
}

/// The load's answer and every byte of the buffer.
fn loaded(file: &[u8], output: &str, table: Option<&[u8]>) -> Verdict {
    let mut expected = vec![PATTERN; TABLE_BYTES];
    let mut lent = expected.clone();
    let load = library::load(file, &mut lent);
    let said = match table {
        Some(table) => {
            expected[..table.len()].copy_from_slice(table);
            same("length", table.len() as u64, load.length)?;
            same("is a table", true, library::is_table(table))?;
            same("number of warnings", output.lines().count() as u64, load.warnings)?;
            String::new()
        }
        None => output.to_string(),
    };
    let refusal = format!("refusal {} at {}\n", load.refusal, load.place);
    same("load", said, if load.refusal > 0 { refusal } else { String::new() })?;
    same("bytes of the table", true, expected == lent && load.agrees)
}

pub fn table(folder: &Path, score: &mut Score) {
    let index = match text(&folder.join("index")) {
        Ok(index) => index,
        Err(what) => return score.stray(folder, &what),
    };
    for line in index.lines() {
        score.vector(&format!("table {line}"), table_one(folder, line));
    }
    let listed = index.lines().count();
    let slices = entries(folder).iter().filter(|path| has_extension(path, "bin")).count();
    if listed != slices {
        score.stray(folder, &format!("{listed} lines in the index, {slices} slices"));
    }
}

fn table_one(folder: &Path, line: &str) -> Verdict {
    let expected = match line.split_once(' ') {
        Some((_, "table")) => true,
        Some((_, "no")) => false,
        _ => return Err("neither `table` nor `no`".to_string()),
    };
    let name = line.split(' ').next().unwrap_or_default();
    let slice = bytes(&folder.join(format!("{name}.bin")))?;
    same("paper", expected, paper::is_table(&slice))?;
    same("library", expected, library::is_table(&slice))
}
