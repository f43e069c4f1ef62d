//! `export`: tables written back as text.

use crate::score::{bytes, entries, same, text, Score, Verdict};
use std::path::Path;

const PATTERN: u8 = 0xa5;

/// Each line of the index is a vector; a slice may have several, and a text that none
/// of them writes is a difference.
pub fn run(folder: &Path, score: &mut Score) {
    let index = match text(&folder.join("index")) {
        Ok(index) => index,
        Err(what) => return score.stray(folder, &what),
    };
    for line in index.lines() {
        score.vector(&format!("export {line}"), one(folder, line));
    }
    for path in entries(folder) {
        let name = path.file_stem().unwrap_or_default().to_string_lossy().into_owned();
        let lines = || index.lines().filter(|line| line.split(' ').next() == Some(&name));
        let listed = match path.extension().and_then(|e| e.to_str()) {
            Some("bin") => lines().count() > 0,
            Some("export") => lines().any(|line| line.contains(" ok ")),
            _ => path.ends_with("index"),
        };
        if !listed {
            score.stray(&path, "it belongs to no vector");
        }
    }
}

/// The answer, and every byte of the buffer.
fn one(folder: &Path, line: &str) -> Verdict {
    let words: Vec<&str> = line.split(' ').collect();
    let [name, "export", lent, answer @ ..] = &words[..] else { return Err("not a line of export".into()) };
    let lent: usize = lent.parse().map_err(|_| format!("{lent} is no length"))?;
    let answer = answer.join(" ");
    let table = bytes(&folder.join(format!("{name}.bin")))?;
    let mut expected = vec![PATTERN; lent];
    if let Some(length) = answer.strip_prefix("ok ") {
        let text = bytes(&folder.join(format!("{name}.export")))?;
        same("length of the text", length, &text.len().to_string())?;
        expected.get_mut(..text.len()).ok_or("no room for the text")?.copy_from_slice(&text);
    }
    let mut by_paper = vec![PATTERN; lent];
    let said = match paper::export(&table, &mut by_paper) {
        Ok(length) => format!("ok {length}"),
        Err(refusal) => format!("refused {} {}", refusal.number, refusal.place),
    };
    same("paper", &answer, &said)?;
    same("paper's bytes", true, expected == by_paper)?;
    let (mut stored, mut by_library) = (table.clone(), vec![PATTERN; lent]);
    let export = library::export(&mut stored, &mut by_library);
    let said = match export.refusal {
        0 => format!("ok {}", export.length),
        number => format!("refused {number} {}", export.needed),
    };
    same("library", (&answer, true), (&said, export.agrees))?;
    same("library's bytes", true, expected == by_library && stored == table)
}
