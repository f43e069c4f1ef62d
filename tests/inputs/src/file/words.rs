//! Tokens and names, and how tokens are joined to a text.

use crate::random::Random;

pub type Token = Vec<u8>;

pub fn word(text: &str) -> Token {
    text.as_bytes().to_vec()
}

pub fn words(texts: &[&str]) -> Vec<Token> {
    texts.iter().map(|t| word(t)).collect()
}

pub fn text_of<'t>(random: &mut Random, texts: &[&'t str]) -> &'t str {
    texts[random.below(texts.len())]
}

pub fn one_of(random: &mut Random, texts: &[&str]) -> Token {
    word(text_of(random, texts))
}

pub const GROUP_NAMES: [&str; 14] =
    ["a", "b", "c", "op", "OP", "Op", "icr", "cr", "DEFAULT", "default", "x.y", "LI:OP", "[z]", "uag"];
pub const MEMBER_NAMES: [&str; 22] = [
    "ann",
    "bob",
    "Ann",
    "ANN",
    "pc1",
    "PC1",
    "Pc2",
    "gw-1",
    "10.0.0.7",
    "1e5",
    "INPV",
    "rule",
    "a",
    "<x;>",
    "\"role/op\"",
    "\"role/op\"",
    "\"role/ann\"",
    "\"role/\"",
    "\"Role/op\"",
    "\"role/role/op\"",
    "\"role\"",
    "\"role/xxxxxxxxxxxxxxxxxxxxxxxxxxxxxxxxxxxxxxxxxxxxxxxxxxxxxxx\"",
];
pub const QUOTED_NAMES: [&str; 14] = [
    "\"\"",
    "\"UAG\"",
    "\"RULE\"",
    "\"1\"",
    "\"a b\"",
    "\"a\\\"b\"",
    "\"\\\\\"",
    "\"a\\\nb\"",
    "\"#{},()\"",
    "\"role/op\"",
    "\"\u{c4}RZTE\"",
    "\"A\r\tB\"",
    "\"DEFAULT\"",
    "\"INPA\"",
];

/// A STRING token from a list of names, now and then quoted, odd, or of 60.
pub fn name(random: &mut Random, names: &[&str]) -> Token {
    match random.below(30) {
        0 => one_of(random, &QUOTED_NAMES),
        1 => sized_name(random, 60),
        2..=5 => quoted(text_of(random, names)),
        _ => one_of(random, names),
    }
}

/// In quotes, if it isn't yet.
pub fn quoted(name: &str) -> Token {
    word(&if name.starts_with('"') { name.to_string() } else { format!("\"{name}\"") })
}

/// The same name, now and then with the quotes put on or taken off.
pub fn respelled(random: &mut Random, name: Token) -> Token {
    if random.percent(75) {
        return name;
    }
    match name.strip_prefix(b"\"").and_then(|rest| rest.strip_suffix(b"\"")) {
        None => [b"\"", &name[..], b"\""].concat(),
        Some(inner) if is_plain(inner) => inner.to_vec(),
        Some(_) => name,
    }
}

/// A word that is neither a keyword nor a number.
fn is_plain(name: &[u8]) -> bool {
    name.first().is_some_and(u8::is_ascii_lowercase) && name.iter().all(u8::is_ascii_alphanumeric)
}

/// A STRING of this many bytes without its quotes.
pub fn sized_name(random: &mut Random, length: usize) -> Token {
    let letter = *random.pick(b"xyZ");
    if random.percent(50) {
        return vec![letter; length];
    }
    let mut text = vec![b'"'];
    text.extend(vec![letter; length]);
    if length > 2 && random.percent(40) {
        text[1] = b'\\';
        text[2] = *random.pick(b"\"\\n");
    }
    text.push(b'"');
    text
}

pub const KEYWORDS: [&str; 8] = ["UAG", "HAG", "ASG", "RULE", "CALC", "INPA", "INPK", "INPU"];
pub const NUMBERS: [&str; 8] = ["1", "-5", "+0", "1.5", ".5", "-1.5e5", "0.1E-3", "99999999999999999999"];

const MARKS: [&str; 5] = ["(", ")", "{", "}", ","];

pub fn any_token(random: &mut Random) -> Token {
    match random.below(10) {
        0..=4 => one_of(random, &MARKS),
        5 => one_of(random, &KEYWORDS),
        6 => one_of(random, &NUMBERS),
        _ => name(random, &MEMBER_NAMES),
    }
}

fn is_mark(token: &[u8]) -> bool {
    MARKS.iter().any(|m| m.as_bytes() == token)
}

/// Two tokens that would be read as one if nothing stood between.
pub fn must_part(before: &[u8], after: &[u8]) -> bool {
    let word_like = |t: &[u8]| !is_mark(t) && !t.starts_with(b"\"");
    word_like(before) && word_like(after)
}

pub fn joined(random: &mut Random, tokens: &[Token]) -> Vec<u8> {
    let loose = random.percent(50);
    let mut text = Vec::new();
    for (i, token) in tokens.iter().enumerate() {
        if i > 0 && must_part(&tokens[i - 1], token) {
            text.push(*random.pick(b" \t\r\n"));
        }
        if loose && random.percent(25) {
            gap(random, &mut text);
        }
        text.extend(token);
    }
    if random.percent(30) {
        gap(random, &mut text);
    }
    text
}

fn gap(random: &mut Random, text: &mut Vec<u8>) {
    match random.below(6) {
        0 => text.extend(b"# a comment {\"\r\xff\x00\n"),
        1 => text.push(b'\n'),
        2 => text.extend(b" \t\r\n"),
        _ => text.push(b' '),
    }
}
