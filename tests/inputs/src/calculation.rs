//! Calculations: right ones of all shapes, damaged ones, and symbols at random.

use super::{arithmetic, damage_bytes, with_byte};
use crate::random::Random;
use paper::{CALCULATION_BYTES, LETTERS};

const ALPHABET: &[u8] = b"0123456789..ABCKUVTabtuv+-*/<>=#!&|?:() \t,%^~e_\"\\";

const BINARY: [&str; 14] = ["||", "&&", "<", "<=", ">", ">=", "=", "==", "#", "!=", "+", "-", "*", "/"];

const BYTE_TEMPLATES: [&str; 11] =
    ["@", "A@B", "@A", "A@", "1@2", "1@", "A@=B", "(A)@@(B)", "A?1@0", ".@5", "A @-B"];

/// A text of any kind.
pub fn any(random: &mut Random) -> Vec<u8> {
    match random.below(12) {
        0..=4 => right(random, &all_letters(), 79),
        5..=7 => {
            let mut text = right(random, &all_letters(), 79);
            damage_bytes(random, &mut text, ALPHABET);
            text
        }
        8 if random.percent(30) => {
            let digits = random.between(14, 18);
            digits_and_point(random, digits)
        }
        8 => symbols(random),
        9 | 10 => with_byte(random, &BYTE_TEMPLATES),
        _ => at_the_limit(random),
    }
}

pub fn all_letters() -> Vec<u8> {
    (0..LETTERS as u8).collect()
}

/// A calculation of these letters, at most `most` bytes long.
pub fn right(random: &mut Random, letters: &[u8], most: usize) -> Vec<u8> {
    let mut depth = random.between(0, 5);
    if random.percent(50) {
        return arithmetic::whole(random, letters);
    }
    loop {
        let mut text = Vec::new();
        expression(random, letters, depth, &mut text);
        if text.len() <= most {
            return text;
        }
        depth = depth.saturating_sub(1);
    }
}

fn expression(random: &mut Random, letters: &[u8], depth: usize, text: &mut Vec<u8>) {
    space(random, text);
    if depth == 0 {
        operand(random, letters, text);
    } else {
        compound(random, letters, depth - 1, text);
    }
    space(random, text);
}

fn compound(random: &mut Random, letters: &[u8], depth: usize, text: &mut Vec<u8>) {
    let inner = |random: &mut Random, text: &mut Vec<u8>| {
        let depth = if random.percent(30) { 0 } else { depth };
        expression(random, letters, depth, text)
    };
    match random.below(14) {
        0 | 1 => {
            inner(random, text);
            text.push(b'?');
            inner(random, text);
            text.push(b':');
            inner(random, text);
        }
        2 | 3 => {
            text.push(b'(');
            inner(random, text);
            text.push(b')');
        }
        4 => {
            text.push(b'-');
            inner(random, text);
        }
        5 => {
            text.push(b'!');
            inner(random, text);
        }
        6 | 7 => text.extend([b"(", &arithmetic::whole(random, letters)[..], b")"].concat()),
        _ => {
            inner(random, text);
            text.extend(random.pick(&BINARY).bytes());
            inner(random, text);
        }
    }
}

fn space(random: &mut Random, text: &mut Vec<u8>) {
    if random.percent(4) {
        text.push(*random.pick(b" \t"));
    }
}

fn operand(random: &mut Random, letters: &[u8], text: &mut Vec<u8>) {
    if random.percent(2) {
        text.extend(b"(-0)");
    } else if random.percent(3) {
        text.extend([b"(", &arithmetic::part(random, letters)[..], b")"].concat());
    } else if !letters.is_empty() && random.percent(50) {
        let letter = *random.pick(letters);
        text.push(if random.percent(70) { b'A' } else { b'a' } + letter);
    } else {
        text.extend(number(random));
    }
}

/// A number of each form.
fn number(random: &mut Random) -> Vec<u8> {
    let plain: [&str; 16] = [
        "0", "1", "2", "10", "0.5", ".5", "0.3", "0.1", "0.2", "0.99", "1.01", "1.0", "100", "00", "3", "0.0",
    ];
    if random.percent(75) {
        return random.pick(&plain).bytes().collect();
    }
    let digits = if random.percent(30) { random.between(14, 15) } else { random.between(1, 15) };
    digits_and_point(random, digits)
}

/// So many digits, mostly with a point before one of them.
pub fn digits_and_point(random: &mut Random, digits: usize) -> Vec<u8> {
    let mut text: Vec<u8> = (0..digits).map(|_| b'0' + random.below(10) as u8).collect();
    if random.percent(60) {
        text.insert(random.below(digits), b'.');
    }
    text
}

fn symbols(random: &mut Random) -> Vec<u8> {
    let length = random.below(8);
    (0..length).map(|_| *random.pick(ALPHABET)).collect()
}

/// 77 to 82 bytes, now and then more: filled by spaces, prefixes, parentheses or a sum.
pub fn at_the_limit(random: &mut Random) -> Vec<u8> {
    let length = random.between(CALCULATION_BYTES - 2, CALCULATION_BYTES + 3);
    let length = if random.percent(10) { random.between(100, 400) } else { length };
    let length = if random.percent(1) { 60_000 } else { length }; // nested as deep as that
    let mut text = match random.below(4) {
        0 => vec![b' '; length - 1],
        1 => vec![*random.pick(b"-!"); length - 1],
        2 => [vec![b'('; length / 2], vec![b'1'; length % 2], vec![b')'; length / 2]].concat(),
        _ => b"A-".iter().copied().cycle().take(length - 1).collect(),
    };
    while text.len() < length {
        text.push(*random.pick(b"1Aa"));
    }
    text
}
