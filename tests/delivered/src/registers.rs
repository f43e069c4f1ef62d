//! `register`: scripts of calls, by `paper` and by the header, with and without
//! the check of the table.

use crate::score::{of_extension, same, text, Score, Verdict};
use library::register::{How, Outcome, Register, Right};
use paper::register::{changed, Rights};
use paper::script::{self, Call, Done};
use paper::{Access, Answer, Loaded, Refusal, TABLE_BYTES};
use std::path::Path;

pub fn run(folder: &Path, score: &mut Score) {
    for path in of_extension(folder, "script", &["out"], score) {
        score.vector(&path.display().to_string(), script_one(&path));
    }
}

fn script_one(path: &Path) -> Verdict {
    let (script, output) = (text(path)?, text(&path.with_extension("out"))?);
    let mut table = vec![0; TABLE_BYTES];
    let printed = script::run(&script, &mut table).map_err(|line| format!("no call: {line}"))?;
    by_lines("paper", &output, &printed)?;
    by_lines("library", &output, &by_library(&script, false)?)?;
    by_lines("library, checked", &output, &by_library(&script, true)?)
}

/// The first line that differs.
fn by_lines(what: &str, expected: &str, found: &str) -> Verdict {
    for (number, (expected, found)) in expected.lines().zip(found.lines()).enumerate() {
        same(&format!("{what}, line {}", number + 1), expected, found)?;
    }
    same(what, expected, found)
}

/// What the script prints by the library; the letters, which it does not print, are
/// `paper`'s, and the changed places those whose rights are others.
fn by_library(text: &str, checked: bool) -> Result<String, String> {
    let mut register = Register::empty();
    let mut table = vec![0; TABLE_BYTES];
    let (mut paper, mut lent) = (paper::Register::empty(), table.clone());
    let mut printed = String::new();
    for line in text.lines() {
        let call = script::call(line).ok_or_else(|| format!("no call: {line}"))?;
        let before = rights(&register);
        let how = How { checked: checked && library::is_table(&table), invalid: 1 };
        // SAFETY: if it is checked, the library has just said so of these bytes.
        let outcome = unsafe { register.call(&mut table, &call, how) };
        let after = rights(&register);
        same(&format!("changed places of {line}"), changed(&before, &after), outcome.changed)?;
        printed += &format!("{}\n", script::line(&call, answer(&call, outcome), &after));
        let _ = paper.call(&mut lent, &call);
        let letters = |rights: &Rights| rights.map(|right| right.letter);
        same(&format!("letters after {line}"), letters(&paper.rights(&lent)), letters(&after))?;
    }
    Ok(printed)
}

fn rights(register: &Register) -> Rights {
    std::array::from_fn(|place| {
        let Right { access, trap, letter } = register.right(place);
        let access = match access {
            0 => Access::None,
            1 => Access::Read,
            _ => Access::Write,
        };
        Answer { access, trap, letter: (letter != 0).then(|| letter.wrapping_sub(b'A')) }
    })
}

fn answer(call: &Call, outcome: Outcome) -> Result<Done, Refusal> {
    let Outcome { refusal, place, needed, warnings, length, .. } = outcome;
    if refusal > 0 {
        return Err(Refusal { number: refusal as u8, place: (place + needed) as usize });
    }
    Ok(match call {
        Call::Load(_) => Done::Loaded(Loaded { length: length as usize, warnings: warnings as usize }),
        Call::Add(_) => Done::At(place as usize),
        _ => Done::Nothing,
    })
}
