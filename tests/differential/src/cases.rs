//! The cases: what is made, and what is asked of it.

use crate::compare::{Comparison, Go};
use crate::{register, stray};
use inputs::question::{all_good, Names, Owned};
use inputs::random::Random;
use inputs::{calculation, every, export, file, letters, question, table};
use paper::calculation::{parse, value};
use paper::{text_of, FILE_BYTES, LETTERS, TABLE_BYTES, TEXT_BYTES};

/// One case, of a kind chosen at random.
pub fn run(random: &mut Random, comparison: &mut Comparison) -> Go {
    match random.below(34) {
        0..=11 => of_file(random, comparison),
        12..=15 => of_table(random, comparison),
        16 | 17 => of_calculation(random, comparison),
        18..=21 => of_values(random, comparison),
        22 | 23 => of_roles(random, comparison),
        24..=27 => of_letters(random, comparison),
        28 | 29 => of_walk(random, comparison),
        30..=32 => of_export(random, comparison),
        _ => of_register(random, comparison),
    }
}

/// A sequence of calls on a register, over a room that holds no table yet, or a
/// table, or nearly one.
fn of_register(random: &mut Random, comparison: &mut Comparison) -> Go {
    let mut room = match random.below(10) {
        0..=5 => table_of(&inputs::register::text(random)).unwrap_or_default(),
        6 => table::free(random),
        _ => Vec::new(),
    };
    if random.percent(15) {
        table::undefine(random, &mut room);
    }
    if random.percent(10) {
        table::damage(random, &mut room);
    }
    let most = if random.percent(85) { TABLE_BYTES } else { random.below(1500) };
    room.resize(room.len().max(most), 0);
    if random.percent(25) {
        stray::run(random, comparison, room)
    } else {
        register::run(random, comparison, room)
    }
}

/// The table that `paper` makes of a text, if it accepts it.
fn table_of(text: &[u8]) -> Option<Vec<u8>> {
    let mut lent = vec![0; TABLE_BYTES];
    let loaded = paper::load(text, &mut lent).ok()?;
    lent.truncate(loaded.length);
    Some(lent)
}

/// A file: loads into buffers of several lengths, its warnings, its table.
fn of_file(random: &mut Random, comparison: &mut Comparison) -> Go {
    let text = file::any(random);
    let table = table_of(&text);
    for _ in 0..2 {
        let length = lent_length(random, table.as_ref().map_or(100, Vec::len));
        comparison.load(random, &text, length)?;
    }
    let count = paper::warnings(&text).map_or(3, |w| w.len());
    for _ in 0..random.between(1, 2) {
        let skip = match random.below(20) {
            0 => usize::MAX - random.below(3),
            1 => random.bits() as usize,
            2..=9 => 0,
            _ => random.below(count + 3),
        };
        let lengths = (random.below(count + 4), random.below(count + 4));
        comparison.list(random, &text, skip, lengths)?;
    }
    let Some(mut table) = table else { return Ok(()) };
    of_slice(random, comparison, &table, 2)?;
    if random.percent(20) {
        table::undefine(random, &mut table);
        of_slice(random, comparison, &table, 2)?;
    }
    Ok(())
}

/// About the length that is needed, or any.
fn lent_length(random: &mut Random, needed: usize) -> usize {
    match random.below(10) {
        0 => needed,
        1 => needed.saturating_sub(1),
        2 => needed + 1,
        3 => random.below(40),
        4 => random.below(needed + 1),
        5 => TABLE_BYTES,
        6 => TABLE_BYTES + random.below(1000) + 65_536 * usize::from(random.percent(5)),
        _ => needed + random.below(300),
    }
}

/// A table: of a file, damaged, made by itself, or any bytes.
fn of_table(random: &mut Random, comparison: &mut Comparison) -> Go {
    let mut slice = match random.below(10) {
        0..=4 => match table_of(&file::right(random)) {
            Some(table) => table,
            None => return Ok(()),
        },
        5..=8 => table::free(random),
        _ => {
            let length = random.below(120);
            random.bytes(length)
        }
    };
    if random.percent(30) {
        table::undefine(random, &mut slice);
    }
    if random.percent(60) {
        table::damage(random, &mut slice);
    }
    of_slice(random, comparison, &slice, 3)
}

/// The check, questions, look-ups, groups by number, a walk, and an export.
fn of_slice(random: &mut Random, comparison: &mut Comparison, slice: &[u8], questions: usize) -> Go {
    comparison.is_table(slice)?;
    comparison.groups(random, slice)?;
    if random.percent(25) {
        comparison.walk(random, slice)?;
    }
    if random.percent(15) {
        exported(random, comparison, slice)?;
    }
    let names = Names::of(slice);
    for _ in 0..questions {
        let question = question::any(random, &names);
        comparison.decide(slice, &question)?;
        if random.percent(30) {
            comparison.pool(random, slice, &question)?;
        }
    }
    for _ in 0..questions.div_ceil(2) {
        let (group, letter) = names.input(random);
        comparison.find_input(slice, &group, letter)?;
        if random.percent(30) {
            let byte = b'A'.wrapping_add(letter as u8);
            let other = *random.pick(&[0, 0, b'@', b'V', b'a', b'u', 1, 20, 255]);
            comparison.stopping_input(slice, &group, if random.percent(70) { byte } else { other })?;
        }
    }
    Ok(())
}

/// A file whose members decide.
fn of_roles(random: &mut Random, comparison: &mut Comparison) -> Go {
    let table = table_of(&inputs::roles::text(random)).expect("it is a right file");
    of_slice(random, comparison, &table, 6)
}

/// A file whose rules are stopped by letters. A table that a load made has the input
/// that an answer blames.
fn of_letters(random: &mut Random, comparison: &mut Comparison) -> Go {
    let table = table_of(&letters::text(random)).expect("it is a right file");
    for _ in 0..6 {
        let question = letters::question(random);
        comparison.decide(&table, &question)?;
        let blamed = paper::decide(&table, &question.question()).ok().and_then(|answer| answer.letter);
        if let Some(letter) = blamed {
            comparison.stopping_input(&table, &question.group, b'A' + letter)?;
        }
    }
    Ok(())
}

/// A table of several groups, of which some get the name of another, or none.
fn of_walk(random: &mut Random, comparison: &mut Comparison) -> Go {
    let Some(mut table) = table_of(&inputs::register::text(random)) else { return Ok(()) };
    if random.percent(50) {
        table::rename(random, &mut table);
    }
    comparison.is_table(&table)?;
    comparison.groups(random, &table)?;
    comparison.walk(random, &table)
}

/// A table to be written back: one that no load makes, damaged or not, or one that a
/// load made, which must come back.
fn of_export(random: &mut Random, comparison: &mut Comparison) -> Go {
    if random.percent(60) {
        let mut slice = export::table(random);
        if random.percent(20) {
            table::damage(random, &mut slice);
        }
        comparison.is_table(&slice)?;
        return exported(random, comparison, &slice);
    }
    let text = match random.below(20) {
        0 => export::of_text_length(random.between(FILE_BYTES - 3, FILE_BYTES + 3)),
        1..=4 => letters::text(random),
        5..=8 => inputs::register::text(random),
        9..=11 => file::any(random),
        _ => file::right(random),
    };
    let Some(table) = table_of(&text) else { return Ok(()) };
    comparison.round_trip(&table)?;
    exported(random, comparison, &table)
}

/// Into buffers of several lengths.
fn exported(random: &mut Random, comparison: &mut Comparison, slice: &[u8]) -> Go {
    let needed = text_of(slice).map_or(random.below(200), |text| text.len());
    for _ in 0..2 {
        let length = match random.below(10) {
            0..=2 => needed,
            3 => needed.saturating_sub(1),
            4 => needed + 1,
            5 => random.below(needed + 1),
            6 => *random.pick(&[0, FILE_BYTES, 65_535, 65_536, TEXT_BYTES]),
            _ => needed + random.below(300),
        };
        comparison.export(random, slice, length)?;
    }
    Ok(())
}

/// A file with one rule of this calculation, and all inputs.
fn rule_of(text: &[u8]) -> Vec<u8> {
    let mut file = b"ASG(DEFAULT){".to_vec();
    for letter in b'A'..=b'U' {
        file.extend([b'I', b'N', b'P', letter, b'(', b'x', b')']);
    }
    file.extend(b"RULE(1,WRITE){CALC(\"");
    file.extend(text);
    file.extend(b"\")}}");
    file
}

/// Any text as a calculation: allowed, in a file, and asked.
fn of_calculation(random: &mut Random, comparison: &mut Comparison) -> Go {
    let text = calculation::any(random);
    comparison.allowed(&text)?;
    let file = rule_of(&text);
    comparison.load(random, &file, 1000)?;
    let Some(table) = table_of(&file) else { return Ok(()) };
    let names = Names::of(&table);
    for _ in 0..3 {
        comparison.decide(&table, &question::any(random, &names))?;
    }
    Ok(())
}

/// Rules that tell the value of a calculation between these: U reads it. The sign
/// of a zero they cannot tell: what is divided by it is bad.
const TOLD: [(&str, &str); 9] = [
    ("(", ")=U"),
    ("(", ")=U"),
    ("(", ")>=U"),
    ("(", ")<=U"),
    ("(", ")#U"),
    ("0/(", ")=0"),
    ("!(", ")"),
    ("(", ")&&1"),
    ("(", ")?1:0"),
];

/// Rules that are true of each value, or of nearly each, and of no bad one; in the
/// last two it is not evaluated.
const SWALLOWED: [(&str, &str); 9] = [
    ("(", ")?1:1"),
    ("1||(", ")"),
    ("(", ")||1"),
    ("!(0&&(", "))"),
    ("!((", ")&&0)"),
    ("0*(", ")=0"),
    ("!((", ")>1&&0)"),
    ("1?1:(", ")"),
    ("0?", ":1"),
];

/// A calculation's value, by rules that compare it: U reads the value that it
/// should have, or one next to it.
fn of_values(random: &mut Random, comparison: &mut Comparison) -> Go {
    let inner = calculation::right(random, &(0..20).collect::<Vec<u8>>(), 65);
    let mut values = all_good(random);
    let tree = parse(&inner).expect("a right one");
    let result = value(&tree, &all_heard(&values).readings());
    comparison.count(format!("calculation {}", class(result)));
    for _ in 0..2 {
        let shapes = if random.percent(60) { &TOLD } else { &SWALLOWED };
        let (before, behind) = random.pick(shapes);
        let text = [before.as_bytes(), &inner, behind.as_bytes()].concat();
        let table = table_of(&rule_of(&text)).expect("it is short enough");
        values[LETTERS - 1] = result.unwrap_or(0.0);
        comparison.decide(&table, &all_heard(&values))?;
        values[LETTERS - 1] = f64::from_bits(values[LETTERS - 1].to_bits() ^ 1);
        comparison.decide(&table, &all_heard(&values))?;
    }
    Ok(())
}

/// Each number's value to the bit: a rule compares it with U, which reads that value,
/// and then the one next to it.
pub fn numbers(comparison: &mut Comparison) -> Go {
    for number in every::numbers() {
        let text = [&number, &b"=U"[..]].concat();
        let table = table_of(&rule_of(&text)).expect("it is short enough");
        let value = paper::calculation::number(&number).expect("15 digits at most");
        for bits in [value.to_bits(), value.to_bits() ^ 1] {
            comparison.decide(&table, &all_heard(&[f64::from_bits(bits); LETTERS]))?;
        }
    }
    Ok(())
}

/// For the count of answers.
fn class(result: Option<f64>) -> &'static str {
    match result {
        None => "bad by arithmetic",
        Some(v) if 0.99 < v && v < 1.01 => "true",
        Some(_) => "false",
    }
}

/// Whoever asks, with good readings.
fn all_heard(values: &[f64]) -> Owned {
    Owned {
        group: Vec::new(),
        user: b"u".to_vec(),
        host: b"h".to_vec(),
        roles: Vec::new(),
        level: 1,
        states: vec![2; LETTERS],
        values: values.to_vec(),
    }
}
