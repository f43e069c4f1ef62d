//! The cases: a file for the checker or for `export`, or rules and lines for the
//! asker.

use inputs::question::Names;
use inputs::random::Random;
use inputs::{every, export, file, lines};
use paper::{programs, FILE_BYTES, TABLE_BYTES};
use processes::compare::{Bench, Go, Rules};
use processes::process::How;

/// The paper's example.
const RULES: &[u8] =
    b"ASG(DEFAULT) {INPA(B1:PGA) RULE(1,READ) RULE(1,WRITE,TRAPWRITE) {CALC(\"A>0.3?0:1\")}}";

const QUESTION: &[u8] = b"- ann pc1 1 A:0.25\n";

/// How many cases are the same for each seed.
pub const FIXED: u64 = 9;

/// The first cases are the same for each seed; the others are made.
pub fn run(case: u64, random: &mut Random, bench: &mut Bench) -> Go {
    match case {
        0 => asked(Some(RULES), &every::lines(), bench),
        1 => asked(None, QUESTION, bench),
        2 => asked(Some(&every::long_file()), QUESTION, bench),
        3 => checked(&every::long_file(), &How::Pipe, bench),
        4 => checked(&every::warned_file(), &How::Pipe, bench),
        5 => spelt(bench),
        6 => asked(Some(RULES), b"", bench),
        7 => exports(bench),
        8 => {
            let (rules, lines) = every::read_places();
            asked(Some(&rules), &lines, bench)
        }
        _ => made(random, bench),
    }
}

/// No rules, none that can be written, rules that are too long, and some whose text is
/// about as long as a file may be.
fn exports(bench: &mut Bench) -> Go {
    bench.export(None, &programs::export(b""))?;
    for file in [RULES, b"FOO()", &every::long_file(), &every::warned_file()] {
        exported(file, bench)?;
    }
    for length in FILE_BYTES - 1..=FILE_BYTES + 1 {
        exported(&export::of_text_length(length), bench)?;
    }
    exported(&every::lengthened_file(), bench)
}

fn exported(rules: &[u8], bench: &mut Bench) -> Go {
    bench.export(Some(rules), &programs::export(rules))
}

/// The checker and the asker on a group that is defined, and on one that is not.
fn spelt(bench: &mut Bench) -> Go {
    for file in every::spelt_files() {
        checked(&file, &How::Pipe, bench)?;
        asked(Some(&file), QUESTION, bench)?;
    }
    Ok(())
}

fn asked(rules: Option<&[u8]>, input: &[u8], bench: &mut Bench) -> Go {
    let expected = programs::ask(rules.unwrap_or_default(), input);
    bench.ask(Rules::Text(rules), input, &How::Pipe, expected.as_bytes())
}

fn checked(text: &[u8], how: &How, bench: &mut Bench) -> Go {
    bench.check(text, how, programs::check(text).as_bytes())
}

/// A run of the asker takes many lines, so there are more of the others.
fn made(random: &mut Random, bench: &mut Bench) -> Go {
    match random.below(100) {
        0..=11 => of_lines(random, bench),
        12..=29 => exported(&inputs::register::text(random), bench),
        _ => of_file(random, bench),
    }
}

fn of_file(random: &mut Random, bench: &mut Bench) -> Go {
    let text = match random.below(50) {
        0 => Vec::new(),
        1 => lines::huge_file(random),
        _ => file::any(random),
    };
    checked(&text, &how(random, &text), bench)
}

fn of_lines(random: &mut Random, bench: &mut Bench) -> Go {
    let rules = lines::rules(random);
    let text = rules.as_deref().unwrap_or_default();
    let names = Names::of(&table_of(text));
    let count = if random.percent(40) { random.between(1, 30) } else { random.between(500, 4000) };
    let input = lines::input(random, &names, count);
    let how = how(random, &input);
    let expected = programs::ask(text, &input);
    bench.ask(Rules::Text(rules.as_deref()), &input, &how, expected.as_bytes())
}

/// The table that `paper` makes of a text; no bytes if it refuses.
fn table_of(text: &[u8]) -> Vec<u8> {
    let mut lent = vec![0; TABLE_BYTES];
    let length = paper::load(text, &mut lent).map_or(0, |loaded| loaded.length);
    lent.truncate(length);
    lent
}

/// Pieces end anywhere: in a line, just before or behind a newline.
fn how(random: &mut Random, input: &[u8]) -> How {
    match random.below(10) {
        0..=4 => How::Pipe,
        5..=6 => How::File,
        7 if input.len() <= 60 => How::Pieces((1..input.len()).collect()),
        _ => {
            let mut ends: Vec<usize> = (0..random.between(1, 12)).map(|_| piece_end(random, input)).collect();
            ends.sort();
            How::Pieces(ends)
        }
    }
}

fn piece_end(random: &mut Random, input: &[u8]) -> usize {
    let place = random.below(input.len() + 1);
    let newline = input[place..].iter().position(|b| *b == b'\n').map_or(input.len(), |n| place + n);
    match random.below(6) {
        0 => newline,
        1 => input.len().min(newline + 1),
        2 => input.len() - input.len().min(random.below(4)),
        3 => input.len().min(random.below(600)),
        _ => place,
    }
}
