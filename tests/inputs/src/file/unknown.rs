//! Unknown items and predicates, with their blocks.

use super::words::{name, one_of, sized_name, word, Token, KEYWORDS, MEMBER_NAMES, NUMBERS};
use crate::random::Random;

fn element_name(random: &mut Random) -> Token {
    match random.below(4) {
        0 => one_of(random, &KEYWORDS),
        1 if random.percent(10) => sized_name(random, 200),
        _ => name(random, &MEMBER_NAMES),
    }
}

fn element(random: &mut Random) -> Token {
    if random.percent(35) {
        one_of(random, &NUMBERS)
    } else {
        element_name(random)
    }
}

fn elements(random: &mut Random, least: usize, most: usize, file: &mut Vec<Token>) {
    for i in 0..random.between(least, most) {
        if i > 0 {
            file.push(word(","));
        }
        file.push(element(random));
    }
}

fn generic_head(random: &mut Random, file: &mut Vec<Token>) {
    file.push(word("("));
    elements(random, 0, 3, file);
    file.push(word(")"));
}

fn generic_block(random: &mut Random, depth: usize, file: &mut Vec<Token>) {
    file.push(word("{"));
    if depth == 0 || random.percent(40) {
        elements(random, 1, 4, file);
    } else {
        for _ in 0..random.between(1, 3) {
            file.push(element_name(random));
            generic_head(random, file);
            if random.percent(50) {
                generic_block(random, depth - 1, file);
            }
        }
    }
    file.push(word("}"));
}

pub fn unknown_item(random: &mut Random, file: &mut Vec<Token>) {
    file.push(name(random, &MEMBER_NAMES));
    generic_head(random, file);
    match random.below(4) {
        0 => {}
        1 => {
            file.extend([word("{"), element(random), word("}"), word("{")]);
            elements(random, 2, 4, file);
            file.push(word("}"));
        }
        _ => generic_block(random, 3, file),
    }
}

pub fn unknown_predicate(random: &mut Random, file: &mut Vec<Token>) {
    let keyword = random.percent(30);
    file.push(if keyword {
        one_of(random, &["ASG", "RULE", "INPA", "INPU"])
    } else {
        name(random, &MEMBER_NAMES)
    });
    generic_head(random, file);
    if random.percent(50) {
        generic_block(random, 2, file);
    }
}
