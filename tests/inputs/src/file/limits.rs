//! Files at the limits: counts, open braces, bytes.

use super::near::damage_tokens;
use super::words::{must_part, word, words, Token};
use super::{misspelt, right, tokens, Wrong};
use crate::damage_bytes;
use crate::random::Random;
use paper::{FILE_BYTES, LETTERS};

/// Counts at, above and below the limits of refusal 6, several at once, all
/// in a file that fits.
pub fn near_limits(random: &mut Random) -> Vec<u8> {
    let mut near = |limit: usize, chance: usize| {
        if random.percent(chance) {
            limit - 1 + random.below(3)
        } else {
            random.below(4)
        }
    };
    let counts = Counts {
        users: near(64, 30),
        hosts: near(64, 30),
        members: near(1024, 30),
        groups: near(64, 30),
        inputs: near(512, 30),
        rules: near(256, 30),
        references: near(1024, 30),
    };
    let mut items = counts.items(random);
    if random.percent(50) {
        let wrong = Wrong::any(random);
        items.push(tokens(random, wrong)); // other refusals beside 6
    }
    random.shuffle(&mut items);
    let mut file = items.concat();
    if random.percent(20) {
        damage_tokens(random, &mut file);
    }
    let mut text = Vec::new();
    for (i, token) in file.iter().enumerate() {
        if i > 0 && must_part(&file[i - 1], token) {
            text.push(b' ');
        }
        text.extend(token);
    }
    let changed = if random.percent(20) { misspelt::of(random, &text) } else { None };
    changed.unwrap_or(text)
}

struct Counts {
    users: usize,
    hosts: usize,
    members: usize,
    groups: usize,
    inputs: usize,
    rules: usize,
    references: usize,
}

/// `count` parted at random into `parts`.
fn spread(random: &mut Random, count: usize, parts: usize) -> Vec<usize> {
    let mut shares = vec![0; parts];
    for _ in 0..count {
        let part = random.below(parts.max(1));
        if let Some(share) = shares.get_mut(part) {
            *share += 1;
        }
    }
    shares
}

/// So that a thousand of them have room: a letter each, of `choices` of them.
fn short_names(count: usize, choices: usize) -> Vec<Token> {
    let mut file = Vec::new();
    for i in 0..count {
        if i > 0 {
            file.push(word(","));
        }
        file.push(vec![b'a' + (i % choices) as u8]);
    }
    file
}

/// The first groups of a kind have names of a letter, which rules name.
fn group_name(number: usize) -> Token {
    let letter = b'a' + number.min(25) as u8;
    if number < 26 {
        vec![letter]
    } else {
        word(&format!("u{number}"))
    }
}

impl Counts {
    /// Inputs and rules need groups, members need user or host groups.
    fn items(&self, random: &mut Random) -> Vec<Vec<Token>> {
        let groups = self.groups.max(self.inputs.div_ceil(LETTERS)).max(1);
        let shares = spread(random, self.members, self.users + self.hosts);
        let mut items = Vec::new();
        for (i, share) in shares.into_iter().enumerate() {
            let (keyword, number) = if i < self.users { ("UAG", i) } else { ("HAG", i - self.users) };
            let mut item = vec![word(keyword), word("("), group_name(number), word(")")];
            if share > 0 {
                item.push(word("{"));
                item.extend(short_names(share, 26));
                item.push(word("}"));
            }
            items.push(item);
        }
        let rules = spread(random, self.rules, groups);
        let mut references = spread(random, self.references, self.rules);
        for (i, rules) in rules.into_iter().enumerate() {
            let inputs = (self.inputs * (i + 1) / groups) - (self.inputs * i / groups);
            let taken = references.split_off(references.len() - rules);
            items.push(self.access_group(random, i, inputs, &taken));
        }
        items
    }

    fn access_group(&self, random: &mut Random, i: usize, inputs: usize, rules: &[usize]) -> Vec<Token> {
        let mut item = vec![word("ASG"), word("("), word(&format!("g{i}")), word(")")];
        let mut body = Vec::new();
        for letter in 0..inputs.min(LETTERS) {
            let keyword = format!("INP{}", char::from(b'A' + letter as u8));
            body.push(vec![word(&keyword), word("("), word("v"), word(")")]);
        }
        for references in rules {
            let mut rule = words(&["RULE", "(", "1", ",", "READ", ")"]);
            if *references > 0 {
                let users = self.hosts == 0 || self.users > 0 && random.percent(50);
                let (keyword, defined) = if users { ("UAG", self.users) } else { ("HAG", self.hosts) };
                rule.extend(words(&["{", keyword, "("]));
                rule.extend(short_names(*references, defined.clamp(1, 26)));
                rule.extend(words(&[")", "}"]));
            }
            body.push(rule);
        }
        if random.percent(50) {
            random.shuffle(&mut body);
        }
        if !body.is_empty() {
            item.push(word("{"));
            item.extend(body.concat());
            item.push(word("}"));
        }
        item
    }
}

/// 14 to 18 braces open at once, in an item or a predicate, or as they come.
pub fn braces(random: &mut Random) -> Vec<u8> {
    let depth = random.between(14, 18);
    let inside = random.percent(50);
    let (before, outer) = if inside { ("ASG(a){RULE(1,READ){", 2) } else { ("", 0) };
    let mut text = before.as_bytes().to_vec();
    if random.percent(20) {
        text.extend(vec![b'}'; random.between(1, 3)]);
    }
    text.extend(b"f(){y()".iter().chain(b"{y()".iter().cycle().take(4 * (depth - outer - 2))));
    text.extend(b"{x}");
    text.extend(vec![b'}'; depth - 1]);
    if random.percent(30) {
        damage_bytes(random, &mut text, b"{}{}(),x");
    }
    text
}

/// A file stretched to about 16,384 bytes, by space, a comment, a quoted text
/// or many small items.
pub fn of_length(random: &mut Random) -> Vec<u8> {
    let mut length = random.between(FILE_BYTES - 2, FILE_BYTES + 2);
    if random.percent(10) {
        length += random.between(1, 2) * 65_536 - random.below(FILE_BYTES); // more than 16 bits
    }
    let mut text = right(random);
    text.push(b'\n');
    let missing = length.saturating_sub(text.len());
    match random.below(6) {
        0 => text.extend(vec![b' '; missing]),
        1 => text.extend(b"#".iter().chain(b"x".iter().cycle()).take(missing)),
        2 if missing > 5 => {
            text.extend(b"f(\"");
            text.extend(vec![*random.pick(b"y\xff\\"); missing - 5]);
            text.extend(b"\")");
        }
        3 => text.extend(b"f()".iter().cycle().take(missing)),
        4 => {
            let items = b"f(){x}{UAG,1}g(1.5){h()}";
            text.extend(items.iter().cycle().take(missing));
        }
        _ => {
            text.extend(b"UAG(q)ASG(zz){RULE(1,READ){");
            text.extend(b"UAG(q)".iter().cycle().take(missing.saturating_sub(29) / 6 * 6));
            text.extend(b"}}");
        }
    }
    text
}
