//! Files. They are made as tokens, which may then be damaged, and joined.

mod limits;
pub mod misspelt;
mod near;
mod unknown;
mod words;

use super::{calculation, damage_bytes};
use crate::random::Random;
use paper::LETTERS;
use unknown::{unknown_item, unknown_predicate};
use words::{
    joined, name, one_of, quoted, respelled, sized_name, text_of, word, words, Token, GROUP_NAMES,
    MEMBER_NAMES, QUOTED_NAMES,
};

const ALPHABET: &[u8] = b"(){},\"\\#\n\r\t aAZz019_-+:.[]<>;/*\x00\x7f\x80\xff=";

/// How a file is made: how many of each, of which names, which groups it
/// defines, and how often something is wrong.
struct Shape {
    items: usize,
    rules: usize,
    groups: Vec<&'static str>,
    members: Vec<&'static str>,
    users: Vec<Token>,
    hosts: Vec<Token>,
    wrong: Wrong,
}

/// Chances in a hundred that a choice is a wrong one, by refusal.
#[derive(Default)]
struct Wrong {
    grammar: usize,
    length: usize,
    again: usize,
    undefined: usize,
    level: usize,
    word: usize,
    calculation: usize,
}

impl Wrong {
    fn any(random: &mut Random) -> Wrong {
        let mut chance = || if random.percent(35) { *random.pick(&[2, 5, 10, 40]) } else { 0 };
        let [length, again, undefined, level, word, calculation] = [(); 6].map(|_| chance());
        Wrong { grammar: usize::from(random.percent(10)), length, again, undefined, level, word, calculation }
    }
}

impl Shape {
    fn new(random: &mut Random, wrong: Wrong) -> Shape {
        let items = if random.percent(15) { random.between(1, 2) } else { random.between(2, 12) };
        let (groups, members) = (random.between(2, 7), random.between(2, 6));
        Shape {
            items,
            rules: random.between(1, 5),
            groups: some(random, &GROUP_NAMES, groups),
            members: some(random, &MEMBER_NAMES, members),
            users: Vec::new(),
            hosts: Vec::new(),
            wrong,
        }
    }
}

/// Some of the names, and now and then an odd one.
fn some(random: &mut Random, names: &[&'static str], count: usize) -> Vec<&'static str> {
    let mut names = names.to_vec();
    random.shuffle(&mut names);
    names.truncate(count);
    if random.percent(30) {
        names.push(text_of(random, &QUOTED_NAMES));
    }
    names
}

/// A file of any kind.
pub fn any(random: &mut Random) -> Vec<u8> {
    match random.below(100) {
        0..=22 => right(random),
        23..=34 => misspelt::any(random),
        35..=54 => {
            let wrong = Wrong::any(random);
            let file = tokens(random, wrong);
            joined(random, &file)
        }
        55..=67 => {
            let mut file = tokens(random, Wrong::default());
            near::damage_tokens(random, &mut file);
            joined(random, &file)
        }
        68..=70 => near::one_byte(random),
        71..=72 => near::one_word(random),
        73..=75 => near::with_tokens(random),
        76..=79 => {
            let mut text = right(random);
            damage_bytes(random, &mut text, ALPHABET);
            text
        }
        80..=85 => limits::near_limits(random),
        86..=88 => limits::braces(random),
        89..=91 => limits::of_length(random),
        92..=97 => near::gone_astray(random),
        98 => {
            let length = random.below(200);
            (0..length).map(|_| *random.pick(ALPHABET)).collect()
        }
        _ => {
            let length = random.below(200);
            random.bytes(length)
        }
    }
}

/// A file that is likely to be accepted.
pub fn right(random: &mut Random) -> Vec<u8> {
    let file = tokens(random, Wrong::default());
    joined(random, &file)
}

/// Now and then a wrong name: too long, or no STRING.
fn wrong_name(random: &mut Random, wrong: &Wrong) -> Option<Token> {
    if random.percent(wrong.grammar) {
        Some(one_of(random, &["1", "1.5", "UAG", "INPA", "-3", "+.5e-7"]))
    } else if random.percent(wrong.length) {
        let length = random.between(59, 63);
        Some(sized_name(random, length))
    } else {
        None
    }
}

fn name_or_wrong(random: &mut Random, names: &[&str], wrong: &Wrong) -> Token {
    wrong_name(random, wrong).unwrap_or_else(|| name(random, names))
}

/// Names used once each; a wrong choice uses one again.
struct Once {
    left: Vec<&'static str>,
    used: Vec<Token>,
}

impl Once {
    fn new(random: &mut Random, names: &[&'static str]) -> Once {
        let mut left = names.to_vec();
        random.shuffle(&mut left);
        Once { left, used: Vec::new() }
    }

    /// This name comes next.
    fn next(&mut self, name: &'static str) {
        self.left.retain(|n| *n != name);
        self.left.push(name);
    }

    fn name(&mut self, random: &mut Random, wrong: &Wrong) -> Token {
        if !self.used.is_empty() && random.percent(wrong.again) {
            return random.pick(&self.used).clone();
        }
        let token = self.new_name(random, wrong);
        self.used.push(token.clone());
        token
    }

    fn new_name(&mut self, random: &mut Random, wrong: &Wrong) -> Token {
        let number = self.used.len();
        match self.left.pop() {
            _ if random.percent(wrong.length) => sized_name(random, 61),
            Some(name) if random.percent(20) => quoted(name),
            Some(name) => word(name),
            None if number.is_multiple_of(5) => word(&format!("{number:060}x")[1..]),
            None => word(&format!("g{number}")),
        }
    }
}

/// The definitions are made first, for the rules to name them; they stand before
/// and behind.
fn tokens(random: &mut Random, wrong: Wrong) -> Vec<Token> {
    let mut shape = Shape::new(random, wrong);
    let mut once = [(); 3].map(|_| Once::new(random, &shape.groups));
    if random.percent(60) {
        once[2].next("DEFAULT");
    }
    let mut items: Vec<(usize, Vec<Token>)> =
        (0..shape.items).map(|_| (random.below(10), Vec::new())).collect();
    for (kind, item) in &mut items {
        match kind {
            0..=2 => group(random, "UAG", &mut once[0], &shape, item),
            3..=4 => group(random, "HAG", &mut once[1], &shape, item),
            _ => {}
        }
    }
    shape.users.clone_from(&once[0].used);
    shape.hosts.clone_from(&once[1].used);
    for (kind, item) in &mut items {
        match kind {
            0..=4 => {}
            5..=8 => access_group(random, &mut once[2], &shape, item),
            _ => unknown_item(random, item),
        }
    }
    items.into_iter().flat_map(|(_, item)| item).collect()
}

fn list(random: &mut Random, most: usize, file: &mut Vec<Token>, mut name: impl FnMut(&mut Random) -> Token) {
    for i in 0..random.between(1, most) {
        if i > 0 {
            file.push(word(","));
        }
        file.push(name(random));
    }
}

fn group(random: &mut Random, keyword: &str, once: &mut Once, shape: &Shape, file: &mut Vec<Token>) {
    file.extend([word(keyword), word("("), once.name(random, &shape.wrong), word(")")]);
    if random.percent(85) {
        file.push(word("{"));
        list(random, 5, file, |random| name_or_wrong(random, &shape.members, &shape.wrong));
        file.push(word("}"));
    }
}

fn access_group(random: &mut Random, once: &mut Once, shape: &Shape, file: &mut Vec<Token>) {
    file.extend([word("ASG"), word("("), once.name(random, &shape.wrong), word(")")]);
    if random.percent(10) {
        return;
    }
    let mut letters = calculation::all_letters();
    random.shuffle(&mut letters);
    letters.truncate(if random.percent(70) { random.below(4) } else { random.below(LETTERS + 1) });
    let mut parts: Vec<Vec<Token>> = letters.iter().map(|l| input(random, *l, shape)).collect();
    if !letters.is_empty() && random.percent(shape.wrong.again) {
        let letter = *random.pick(&letters);
        parts.push(input(random, letter, shape));
    }
    let least = usize::from(parts.is_empty());
    for _ in 0..random.between(least, shape.rules) {
        parts.push(rule(random, &letters, shape));
    }
    if random.percent(50) {
        random.shuffle(&mut parts);
    }
    file.push(word("{"));
    file.extend(parts.concat());
    file.push(word("}"));
}

fn input(random: &mut Random, letter: u8, shape: &Shape) -> Vec<Token> {
    let keyword = format!("INP{}", char::from(b'A' + letter));
    let names = ["B1:PGA", "LI:OPSTATE", "x", "a.b[0]"];
    vec![word(&keyword), word("("), name_or_wrong(random, &names, &shape.wrong), word(")")]
}

const LEVELS: [&str; 12] = ["0", "1", "1", "1", "0", "+0", "-0", "+1", "01", "00", "-00", "+0001"];
const WRONG_LEVELS: [&str; 10] =
    ["-1", "2", "10", "+2", "-01", "4294967297", "18446744073709551617", "-10", "+11", "1.0"];
const PERMISSIONS: [&str; 8] = ["NONE", "READ", "WRITE", "WRITE", "READ", "WRITE", "\"READ\"", "\"WRITE\""];
const WRONG_PERMISSIONS: [&str; 8] = ["write", "Read", "NON", "READS", "\"\"", "TRAPWRITE", "\"READ \"", "1"];
const LOGS: [&str; 4] = ["TRAPWRITE", "NOTRAPWRITE", "\"TRAPWRITE\"", "TRAPWRITE"];
const WRONG_LOGS: [&str; 6] = ["TRAP", "trapwrite", "\"\"", "NOTRAPWRITES", "WRITE", "0"];

fn right_or_wrong(random: &mut Random, right: &[&str], wrong_ones: &[&str], wrong: usize) -> Token {
    let choices = if random.percent(wrong) { wrong_ones } else { right };
    one_of(random, choices)
}

fn rule(random: &mut Random, letters: &[u8], shape: &Shape) -> Vec<Token> {
    let mut file = words(&["RULE", "("]);
    file.push(right_or_wrong(random, &LEVELS, &WRONG_LEVELS, shape.wrong.level));
    file.push(word(","));
    file.push(right_or_wrong(random, &PERMISSIONS, &WRONG_PERMISSIONS, shape.wrong.word));
    if random.percent(45) {
        file.push(word(","));
        file.push(right_or_wrong(random, &LOGS, &WRONG_LOGS, shape.wrong.word));
    }
    file.push(word(")"));
    if random.percent(70) {
        file.push(word("{"));
        file.extend(predicates(random, letters, shape));
        file.push(word("}"));
    }
    file
}

fn predicates(random: &mut Random, letters: &[u8], shape: &Shape) -> Vec<Token> {
    let mut parts = Vec::new();
    for _ in 0..random.between(1, 4) {
        let mut part = Vec::new();
        match random.below(10) {
            0..=3 => references(random, "UAG", &shape.users, shape, &mut part),
            4..=6 => references(random, "HAG", &shape.hosts, shape, &mut part),
            7 if random.percent(40) => unknown_predicate(random, &mut part),
            _ => {}
        }
        parts.push(part);
    }
    if random.percent(50) || parts.iter().all(Vec::is_empty) {
        parts.push(calc(random, letters, &shape.wrong));
    }
    if random.percent(shape.wrong.again) {
        parts.push(calc(random, letters, &shape.wrong));
    }
    random.shuffle(&mut parts);
    parts.concat()
}

/// Names of groups that the file defines; a wrong choice takes any.
fn references(random: &mut Random, keyword: &str, defined: &[Token], shape: &Shape, file: &mut Vec<Token>) {
    let wrong = &shape.wrong;
    if defined.is_empty() && !random.percent(wrong.undefined) {
        return;
    }
    file.extend(words(&[keyword, "("]));
    list(random, 3, file, |random| match wrong_name(random, wrong) {
        Some(name) => name,
        None if defined.is_empty() || random.percent(wrong.undefined) => name(random, &shape.groups),
        None => {
            let name = random.pick(defined).clone();
            respelled(random, name)
        }
    });
    file.push(word(")"));
}

fn calc(random: &mut Random, letters: &[u8], wrong: &Wrong) -> Vec<Token> {
    let text = if random.percent(wrong.calculation) {
        calculation::any(random)
    } else if random.percent(wrong.length) {
        calculation::at_the_limit(random)
    } else {
        calculation::right(random, letters, 79)
    };
    let bare = text.len() == 1 && text[0].is_ascii_alphabetic() && random.percent(50);
    let string = if bare { text } else { [b"\"", &text[..], b"\""].concat() };
    vec![word("CALC"), word("("), string, word(")")]
}
