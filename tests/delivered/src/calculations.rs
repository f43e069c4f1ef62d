//! `calc`: which texts are calculations, their truth, and their values: `paper`'s
//! to the bit, the library's by rules that compare it with a letter. These cannot
//! tell -0 from 0: what is divided by either is bad.

use crate::questions::{all_readings, as_lent};
use crate::score::{same, text, Score, Verdict};
use library::{Asked, Decision};
use paper::calculation::{self, agrees, bad_letter, holds, parse, written};
use paper::{script, Reading, Readings, CALCULATION_BYTES, LETTERS, TABLE_BYTES};
use std::path::Path;

/// Each line is a vector.
pub fn run(path: &Path, score: &mut Score) {
    match text(path) {
        Ok(lines) => {
            for (number, line) in lines.lines().enumerate() {
                score.vector(&format!("calculation {}", number + 1), one(line));
            }
        }
        Err(what) => score.stray(path, &what),
    }
}

fn one(line: &str) -> Verdict {
    let fields: Vec<&str> = line.split('\t').collect();
    let calculation = script::text(fields[0]).ok_or("not in hexadecimal")?;
    match fields[..] {
        [_, "refused"] => {
            same("paper", false, paper::allowed(&calculation))?;
            same("library", false, library::allowed(&calculation))
        }
        [_, "allowed", result, truth, readings] => {
            same("paper", true, paper::allowed(&calculation))?;
            same("library", true, library::allowed(&calculation))?;
            let readings = all_readings(readings, ' ')?;
            by_paper(&calculation, result, truth, &readings)?;
            by_library(&calculation, result, truth, &readings)
        }
        _ => Err(format!("not a line of calc: {line}")),
    }
}

fn by_paper(calculation: &[u8], given: &str, truth: &str, readings: &Readings) -> Verdict {
    let tree = parse(calculation).ok_or("paper refuses it")?;
    let found = calculation::result(&tree, readings);
    if !agrees(given, found) {
        same("paper's result", given, &written(found))?;
    }
    same("paper's truth", truth, &holds(&tree, readings).to_string())
}

/// The truth, the letter that makes it bad, and the value: that of a text is the
/// one that it equals.
fn by_library(calculation: &[u8], result: &str, truth: &str, readings: &Readings) -> Verdict {
    let letter = bad_by(calculation, readings);
    let answer = decided(calculation, readings).ok_or("the library refuses it")?;
    same("library's truth", truth == "true", answer.access == 2)?;
    same("library's letter", letter.map_or(0, |l| b'A' + l), answer.letter)?;
    if result.starts_with("bad") {
        return is_bad(calculation, readings);
    }
    let Some(letter) = unused(calculation) else { return Ok(()) };
    let bits = u64::from_str_radix(result, 16).map_err(|_| format!("{result} is no value"))?;
    let mut readings = *readings;
    readings[letter] = Reading::Value(f64::from_bits(bits));
    let behind = format!(")={}", char::from(b'A' + letter as u8));
    fits("library's value", true, &around("(", calculation, &behind), &readings)
}

fn around(before: &str, calculation: &[u8], behind: &str) -> Vec<u8> {
    [before.as_bytes(), calculation, behind.as_bytes()].concat()
}

/// What holds of each value, or of each but some, holds of none that is bad. In
/// the branch not chosen a bad letter counts, bad arithmetic not.
fn is_bad(calculation: &[u8], readings: &Readings) -> Verdict {
    let any = [("(", ")<1"), ("(", ")>=1"), ("(", ")=0"), ("(", ")#0"), ("!(", ")"), ("(", ")?1:1")];
    let sides = [("1||(", ")"), ("(", ")||1"), ("!(0&&(", "))"), ("!((", ")&&0)")];
    for (before, behind) in any.into_iter().chain(sides) {
        fits("library's value", false, &around(before, calculation, behind), readings)?;
    }
    let heard = bad_by(calculation, readings).is_none();
    for (before, behind) in [("1?1:(", ")"), ("0?", ":1")] {
        fits("library's branch not chosen", heard, &around(before, calculation, behind), readings)?;
    }
    Ok(())
}

/// The letter that makes it bad, by `paper`, which agrees with what is given.
fn bad_by(calculation: &[u8], readings: &Readings) -> Option<u8> {
    bad_letter(&parse(calculation)?, readings)
}

/// A text that is too long to be asked says nothing.
fn fits(what: &str, expected: bool, calculation: &[u8], readings: &Readings) -> Verdict {
    if calculation.len() > CALCULATION_BYTES {
        return Ok(());
    }
    same(what, Some(expected), decided(calculation, readings).map(|answer| answer.access == 2))
}

/// A letter that a calculation does not name.
fn unused(calculation: &[u8]) -> Option<usize> {
    (0..LETTERS).find(|l| !calculation.iter().any(|b| b.to_ascii_uppercase() == b'A' + *l as u8))
}

/// What one rule with this calculation gives; nothing if no file has it.
fn decided(calculation: &[u8], readings: &Readings) -> Option<Decision> {
    let inputs: String = ('A'..='U').map(|letter| format!("INP{letter}(x)")).collect();
    let before = format!("ASG(DEFAULT){{{inputs}RULE(1,WRITE){{CALC(\"");
    let file = [before.as_bytes(), calculation, b"\")}}"].concat();
    let mut table = vec![0; TABLE_BYTES];
    if library::load(&file, &mut table).refusal > 0 {
        return None;
    }
    let (states, values) = as_lent(readings);
    let asked =
        Asked { group: b"", user: b"", host: b"", roles: &[], level: 1, states: &states, values: &values };
    Some(library::decide(&table, &asked))
}
