//! Near misses: one byte, word or token that may not stand there.

use super::words::{any_token, joined, one_of, text_of, words, Token};
use crate::random::Random;
use crate::{damage_bytes, with_byte};

const BYTE_TEMPLATES: [&str; 12] = [
    "UAG(a@b)",
    "UAG(@)",
    "UAG(\"a@b\")",
    "UAG(\"a\\@b\")",
    "UAG(\"@",
    "UAG(a)@",
    "@UAG(a)",
    "UAG@(a)",
    "UAG(a)#@\nHAG(a)",
    "f(1@5)",
    "f(@1,INP@,1.5@2)",
    "ASG(a){RULE(@1,READ)}",
];

/// Beginnings of sentences, by their tokens, to go on from at random.
const PREFIXES: [&[&str]; 14] = [
    &[],
    &["f", "("],
    &["f", "(", "1", ","],
    &["f", "(", ")", "{"],
    &["f", "(", ")", "{", "a"],
    &["f", "(", ")", "{", "a", "}", "{"],
    &["f", "(", ")", "{", "a", "}", "{", "b", ","],
    &["f", "(", ")", "{", "a", "(", ")"],
    &["UAG", "(", "a", ")", "{", "x"],
    &["ASG", "(", "a", ")", "{"],
    &["ASG", "(", "a", ")", "{", "INPA", "(", "x", ")"],
    &["ASG", "(", "a", ")", "{", "RULE", "(", "1", ","],
    &["ASG", "(", "a", ")", "{", "RULE", "(", "1", ",", "READ", ")", "{"],
    &["ASG", "(", "a", ")", "{", "RULE", "(", "1", ",", "READ", ")", "{", "f", "(", ")", "{", "a", "}"],
];

/// Sentences, or nearly, with places for one token of any kind.
const TOKEN_TEMPLATES: [&str; 29] = [
    "@",
    "@(a)",
    "UAG@",
    "UAG(@)",
    "UAG(a@)",
    "UAG(a)@",
    "UAG(a){@}",
    "HAG(a){x@}",
    "HAG(a){x,@}",
    "ASG(a){@}",
    "ASG(a){@(x)}",
    "ASG(a){INPA(@)}",
    "ASG(a){RULE(@,READ)}",
    "ASG(a){RULE(1,@)}",
    "ASG(a){RULE(1,READ@)}",
    "ASG(a){RULE(1,READ,@)@}",
    "ASG(a){RULE(1,READ){@}}",
    "UAG(x)HAG(x)ASG(a){RULE(1,READ){@(x)}}",
    "UAG(x)ASG(a){RULE(1,READ){CALC(@)UAG(x@)}}",
    "ASG(a){RULE(1,READ){f(@){a@}@}}",
    "ASG(a){RULE(1,READ){f(){a}{b,c@}}}",
    "f(@a@)@",
    "f(){a}{@}",
    "f(){@}{b,c@}",
    "f(){a@b}{b@c}",
    "f(){a,b}@{b,c}",
    "f(){a()}@{b,c}",
    "f(){a}@{b,c}@{d,e}",
    "f(){g(){@}@}",
];

/// A template with one byte put in.
pub fn one_byte(random: &mut Random) -> Vec<u8> {
    with_byte(random, &BYTE_TEMPLATES)
}

/// The beginning of a sentence, then tokens at random.
pub fn gone_astray(random: &mut Random) -> Vec<u8> {
    let mut file = words(PREFIXES[random.below(PREFIXES.len())]);
    let count = if random.percent(80) { random.between(1, 6) } else { random.below(30) };
    file.extend((0..count).map(|_| any_token(random)));
    joined(random, &file)
}

/// A word like a number or a keyword, where only some kinds may stand.
pub fn one_word(random: &mut Random) -> Vec<u8> {
    let length = random.between(1, 6);
    let mut word: Token = (0..length).map(|_| *random.pick(b"0011.5..eE+-")).collect();
    if random.percent(40) {
        word = one_of(random, &["INP", "UAG", "HAG", "ASG", "RULE", "CALC", "INPA", "INPU"]);
        damage_bytes(random, &mut word, b"AUVTauINPGHCLRE_ ");
    }
    let (before, behind) = *random.pick(&[
        ("UAG(", ")"),
        ("f(", ")"),
        ("", "(a)"),
        ("ASG(a){", "(a)}"),
        ("ASG(a){RULE(", ",READ)}"),
        ("UAG(a)HAG(a)ASG(a){RULE(1,READ){", "(a)}}"),
        ("ASG(a){RULE(1,READ){f(){", "}}}"),
    ]);
    [before.as_bytes(), &word, behind.as_bytes()].concat()
}

/// A template with tokens put in, or nothing.
pub fn with_tokens(random: &mut Random) -> Vec<u8> {
    let mut text = Vec::new();
    for byte in text_of(random, &TOKEN_TEMPLATES).bytes() {
        match byte {
            b'@' if random.percent(25) => {}
            b'@' => {
                text.push(b' ');
                text.extend(any_token(random));
                text.push(b' ');
            }
            _ => text.push(byte),
        }
    }
    text
}

/// Take out, put in, change, swap, repeat, cut off.
pub fn damage_tokens(random: &mut Random, file: &mut Vec<Token>) {
    for _ in 0..random.between(1, 2) {
        if file.is_empty() {
            return;
        }
        let place = random.below(file.len());
        let new = any_token(random);
        match random.below(6) {
            0 => drop(file.remove(place)),
            1 => file.insert(place, new),
            2 => file[place] = new,
            3 => {
                let other = random.below(file.len());
                file.swap(place, other);
            }
            4 => file.insert(place, file[place].clone()),
            _ => file.truncate(place),
        }
    }
}
