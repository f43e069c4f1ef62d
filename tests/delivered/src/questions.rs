//! `decide`: questions to the library. `asker`: the program.

use crate::score::{bytes, entries, same, text, Score, Verdict};
use library::Asked;
use paper::calculation::capital;
use paper::{programs, script, Access, Question, Reading, LETTERS, TABLE_BYTES};
use processes::compare::{Bench, Difference, Rules};
use processes::process::How;
use std::path::Path;

pub fn asker(folder: &Path, bench: &mut Bench, score: &mut Score) {
    for path in entries(folder) {
        score.vector(&path.display().to_string(), asker_one(&path, bench));
    }
}

fn asker_one(path: &Path, bench: &mut Bench) -> Verdict {
    let rules = std::fs::read(path.join("rules.acf")).unwrap_or_default();
    let (input, output) = (bytes(&path.join("stdin"))?, text(&path.join("stdout"))?);
    let printed = programs::ask(&rules, &input);
    agrees(&output, &printed)?;
    let done = bench.ask(Rules::In(path), &input, &How::Pipe, printed.as_bytes());
    done.map_err(|Difference(what)| what)
}

/// What is given by `paper`, its letters aside if none are given.
fn agrees(given: &str, by_paper: &str) -> Verdict {
    if programs::agrees(given, by_paper) {
        return Ok(());
    }
    same("paper", given, by_paper)
}

/// Each line is a vector.
pub fn run(folder: &Path, score: &mut Score) {
    for path in entries(folder) {
        let read = || {
            Ok((
                bytes(&path.join("rules.acf"))?,
                text(&path.join("questions"))?,
                text(&path.join("answers"))?,
            ))
        };
        let (rules, questions, answers) = match read() {
            Ok(texts) => texts,
            Err(what) => {
                let what: String = what;
                score.stray(&path, &what);
                continue;
            }
        };
        let mut table = vec![0; TABLE_BYTES];
        library::load(&rules, &mut table);
        if questions.lines().count() != answers.lines().count() {
            score.stray(&path, "not as many answers as questions");
        }
        for (number, (line, answer)) in questions.lines().zip(answers.lines()).enumerate() {
            let name = format!("{} line {}", path.display(), number + 1);
            score.vector(&name, decide_one(&table, line, answer));
        }
    }
}

fn decide_one(table: &[u8], line: &str, answer: &str) -> Verdict {
    let words: Vec<&str> = line.split(' ').collect();
    let [group, user, host, level, readings, roles] = words[..] else { return Err("not six parts".into()) };
    let bytes = |word| script::text(word).ok_or_else(|| format!("{word} is no text"));
    let (group, user, host) = (bytes(group)?, bytes(user)?, bytes(host)?);
    let level: u32 = level.parse().map_err(|_| format!("{level} is no level"))?;
    let readings = all_readings(readings, ',')?;
    let roles = match roles {
        "none" => Vec::new(),
        _ => roles.split(',').map(bytes).collect::<Result<_, _>>()?,
    };
    let question = Question { group: &group, user: &user, host: &host, roles: &roles, level, readings };
    let paper = match paper::decide(table, &question) {
        Ok(answer) => said(answer.access as u64, answer.trap, capital(answer.letter)),
        Err(number) => format!("refused {number}"),
    };
    agrees(answer, &paper)?;
    let (states, values) = as_lent(&readings);
    let (group, user, host) = (&group[..], &user[..], &host[..]);
    let asked = Asked { group, user, host, roles: &roles, level, states: &states, values: &values };
    same("library", (&*paper, true), by_library(library::decide(table, &asked)).as_parts())?;
    if !library::is_table(table) {
        return Ok(());
    }
    // SAFETY: the library has just said so of these bytes.
    let checked = unsafe { library::decide_checked(table, &asked) };
    same("library, checked", (&*paper, true), by_library(checked).as_parts())
}

/// An answer in words, and whether the proved function's number says the same.
struct Said(String, bool);

impl Said {
    fn as_parts(&self) -> (&str, bool) {
        (&self.0, self.1)
    }
}

fn by_library(decision: library::Decision) -> Said {
    let text = match decision.refusal {
        0 => said(decision.access, decision.trap, word(decision.letter)),
        number => format!("refused {number}"),
    };
    Said(text, decision.agrees)
}

/// A letter of C's; `-` for none.
fn word(letter: u8) -> char {
    if letter == 0 {
        '-'
    } else {
        letter.into()
    }
}

fn said(access: u64, trap: bool, letter: char) -> String {
    let names = [(Access::None, "NONE"), (Access::Read, "READ"), (Access::Write, "WRITE")];
    let name = names.iter().find(|(a, _)| *a as u64 == access).map_or("?", |(_, name)| name);
    format!("{name} {} {letter}", if trap { "TRAPWRITE" } else { "NOTRAPWRITE" })
}

/// 21 readings parted by a byte.
pub fn all_readings(text: &str, parting: char) -> Result<[Reading; LETTERS], String> {
    let read = |word| script::reading(word).ok_or_else(|| format!("{word} is no reading"));
    let readings = text.split(parting).map(read).collect::<Result<Vec<Reading>, String>>()?;
    readings.try_into().map_err(|r: Vec<Reading>| format!("{} readings", r.len()))
}

/// The readings as the library is lent them.
pub fn as_lent(readings: &[Reading; LETTERS]) -> ([u8; LETTERS], [f64; LETTERS]) {
    let state = |reading: &Reading| match reading {
        Reading::NeverHeard => 0,
        Reading::Invalid => 1,
        Reading::Value(_) => 2,
    };
    let value = |reading: &Reading| if let Reading::Value(value) = reading { *value } else { 0.0 };
    (std::array::from_fn(|i| state(&readings[i])), std::array::from_fn(|i| value(&readings[i])))
}
