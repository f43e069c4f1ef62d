//! The programs: what they print for what they read.

use crate::calculation::{capital, number, Reading, Readings};
use crate::question::{decide, Access, Question};
use crate::{load, read, text_of, Refusal, LETTERS, TABLE_BYTES};

const LINE_BYTES: usize = 255;

/// What the checker prints for a text.
pub fn check(text: &[u8]) -> String {
    match read(text) {
        Err(refusal) => refusal_line(refusal),
        Ok(file) => {
            let lines = file.warnings().into_iter();
            lines.map(|w| format!("warning {} at {}\n", w.number, w.place)).collect()
        }
    }
}

fn refusal_line(refusal: Refusal) -> String {
    format!("refusal {} at {}\n", refusal.number, refusal.place)
}

/// What `export` prints, given `rules.acf` (empty if missing): its text, or why there
/// is none.
pub fn export(rules: &[u8]) -> Vec<u8> {
    let mut table = vec![0; TABLE_BYTES];
    match load(rules, &mut table) {
        Err(refusal) => refusal_line(refusal).into_bytes(),
        Ok(_) => text_of(&table).unwrap_or_else(|number| format!("refused {number}\n").into_bytes()),
    }
}

/// What the asker prints, given `rules.acf` (empty if missing) and its lines.
pub fn ask(rules: &[u8], input: &[u8]) -> String {
    let mut table = vec![0; TABLE_BYTES];
    if let Err(refusal) = load(rules, &mut table) {
        return refusal_line(refusal);
    }
    lines(input).into_iter().map(|line| answer_line(&table, line)).collect()
}

/// Nothing behind the last newline is no line.
pub fn lines(input: &[u8]) -> Vec<&[u8]> {
    let mut lines: Vec<&[u8]> = input.split(|b| *b == b'\n').collect();
    if lines.last().is_some_and(|l| l.is_empty()) {
        lines.pop();
    }
    lines
}

/// What the asker prints for a line.
pub fn answer_line(table: &[u8], line: &[u8]) -> String {
    let Some(question) = question(line) else { return "refused line\n".to_string() };
    match decide(table, &question) {
        Err(number) => format!("refused {number}\n"),
        Ok(answer) => {
            let access = match answer.access {
                Access::None => "NONE",
                Access::Read => "READ",
                Access::Write => "WRITE",
            };
            let log = if answer.trap { "TRAPWRITE" } else { "NOTRAPWRITE" };
            format!("{access} {log} {}\n", capital(answer.letter))
        }
    }
}

/// Whether an output, given by document 01 or by a request, is what is printed
/// now. Before document 02's fifth request an answer had no third word.
pub fn agrees(given: &str, printed: &str) -> bool {
    given == printed || given == without_letters(printed)
}

/// The third words taken off.
fn without_letters(printed: &str) -> String {
    let line = |line: &str| match line.rsplit_once(' ') {
        Some((answer, _)) if answer.ends_with("TRAPWRITE") => answer.to_string(),
        _ => line.to_string(),
    };
    let parts: Vec<String> = printed.split('\n').map(line).collect();
    parts.join("\n")
}

/// The question of a line, if it has the form.
pub fn question(line: &[u8]) -> Option<Question<'_>> {
    if line.len() > LINE_BYTES {
        return None;
    }
    let parts: Vec<&[u8]> = line.split(|b| *b == b' ').collect();
    let [group, user, host, level, given @ ..] = &parts[..] else { return None };
    if parts.iter().any(|part| part.is_empty()) {
        return None;
    }
    let [digit @ b'0'..=b'9'] = level else { return None };
    Some(Question {
        group: if *group == b"-" { b"" } else { group },
        user,
        host,
        roles: &[],
        level: (digit - b'0').into(),
        readings: readings(given)?,
    })
}

/// A letter may be named once.
fn readings(parts: &[&[u8]]) -> Option<Readings> {
    let mut readings = [None; LETTERS];
    for part in parts {
        let [letter @ b'A'..=b'U', b':', text @ ..] = part else { return None };
        let place = &mut readings[usize::from(letter - b'A')];
        if place.is_some() {
            return None;
        }
        *place = Some(reading(text)?);
    }
    Some(readings.map(|r| r.unwrap_or(Reading::NeverHeard)))
}

fn reading(text: &[u8]) -> Option<Reading> {
    match text {
        b"inv" => Some(Reading::Invalid),
        b"nan" => Some(Reading::Value(f64::NAN)),
        b"inf" => Some(Reading::Value(f64::INFINITY)),
        b"-inf" => Some(Reading::Value(f64::NEG_INFINITY)),
        [b'-', digits @ ..] => Some(Reading::Value(-number(digits)?)),
        _ => Some(Reading::Value(number(text)?)),
    }
}
