//! Files with one group that a rule names and none defines, or nearly: the name
//! changed by a byte or its case, looked for among the others, defined elsewhere.

use super::{joined, right, tokens, Wrong};
use crate::question::{nearly, other_case};
use crate::random::Random;
use paper::file::{File, Item, Rule};
use paper::grammar;
use paper::text::{self, Kind, Token};

/// A right file, or one with other causes, that is then changed.
pub fn any(random: &mut Random) -> Vec<u8> {
    for _ in 0..5 {
        let wrong = beside(random);
        let file = tokens(random, wrong);
        let text = joined(random, &file);
        if let Some(changed) = of(random, &text) {
            return changed;
        }
    }
    right(random)
}

/// None, one cause of those that are judged next to 12, or several of any.
fn beside(random: &mut Random) -> Wrong {
    match random.below(10) {
        0 => Wrong { again: 20, ..Wrong::default() },
        1 => Wrong { level: 40, ..Wrong::default() },
        2 => Wrong { word: 40, ..Wrong::default() },
        3 => Wrong { calculation: 60, ..Wrong::default() },
        4 => Wrong::any(random),
        _ => Wrong::default(),
    }
}

/// The text with one change; none if no rule names a group.
pub fn of(random: &mut Random, text: &[u8]) -> Option<Vec<u8>> {
    let tokens = text::tokens(text).ok()?;
    let file = grammar::parse(&tokens, text.len()).ok()?;
    let named: Vec<Token> = file.rules().iter().flat_map(|r| names(r)).collect();
    if named.is_empty() {
        return None;
    }
    let name = *random.pick(&named);
    let at = Names { text, tokens: &tokens, file: &file };
    Some(match random.below(12) {
        0..=4 => at.changed(random, name),
        5..=6 => at.other_kind(name),
        7 => at.definition_changed(random, name),
        8 => at.definition_inside(name),
        9 => at.definition_last(name),
        10 => at.switched_off(random, name),
        _ => at.unknown(random, name),
    })
}

fn names<'a>(rule: &Rule<'a>) -> Vec<Token<'a>> {
    [rule.users(), rule.hosts()].concat()
}

/// A file and its names.
struct Names<'a> {
    text: &'a [u8],
    tokens: &'a [Token<'a>],
    file: &'a File<'a>,
}

/// Behind the token, with its quote.
fn end(token: &Token, text: &[u8]) -> usize {
    let quotes = if text[token.place] == b'"' { 2 } else { 0 };
    token.place + token.text.len() + quotes
}

impl Names<'_> {
    fn replaced(&self, start: usize, end: usize, by: &[u8]) -> Vec<u8> {
        [&self.text[..start], by, &self.text[end..]].concat()
    }

    fn index(&self, token: Token) -> usize {
        self.tokens.iter().position(|t| t.place == token.place).expect("it is one of them")
    }

    /// The UAG or HAG before a name.
    fn keyword(&self, name: Token) -> Token<'_> {
        let before = &self.tokens[..self.index(name)];
        *before.iter().rev().find(|t| matches!(t.kind, Kind::Uag | Kind::Hag)).expect("a list has one")
    }

    /// In other case, or one byte more, less or other; in quotes.
    fn changed(&self, random: &mut Random, name: Token) -> Vec<u8> {
        let other = match random.below(3) {
            0 => other_case(random, name.text),
            1 => name.text.to_ascii_lowercase(),
            _ => nearly(random, name.text),
        };
        let bad = |b: &u8| matches!(b, b'"' | b'\\' | b'\n');
        let other = if other.iter().any(bad) { b"x".to_vec() } else { other };
        self.replaced(name.place, end(&name, self.text), &[b"\"", &other[..], b"\""].concat())
    }

    /// Looked for among the groups of the other kind.
    fn other_kind(&self, name: Token) -> Vec<u8> {
        let keyword = self.keyword(name);
        let other: &[u8] = if keyword.kind == Kind::Uag { b"HAG" } else { b"UAG" };
        self.replaced(keyword.place, keyword.place + 3, other)
    }

    /// The definition's name, if there is one.
    fn definition(&self, name: Token) -> Option<Token<'_>> {
        let kind = self.keyword(name).kind;
        let of_kind = self.file.items.iter().filter_map(|item| match item {
            Item::Users(group) if kind == Kind::Uag => Some(group.name),
            Item::Hosts(group) if kind == Kind::Hag => Some(group.name),
            _ => None,
        });
        of_kind.into_iter().find(|defined| defined.text == name.text)
    }

    /// From its keyword to its end.
    fn extent(&self, defined: Token) -> (usize, usize) {
        let index = self.index(defined);
        let opens = self.tokens.get(index + 2).is_some_and(|t| t.kind == Kind::Mark(b'{'));
        let closing = if opens { b'}' } else { b')' };
        let last = self.tokens[index..].iter().find(|t| t.kind == Kind::Mark(closing)).expect("it closes");
        (self.tokens[index - 2].place, last.place + 1)
    }

    fn definition_changed(&self, random: &mut Random, name: Token) -> Vec<u8> {
        match self.definition(name) {
            Some(defined) => self.changed(random, defined),
            None => self.text.to_vec(),
        }
    }

    /// Inside an unknown item, where it defines nothing.
    fn definition_inside(&self, name: Token) -> Vec<u8> {
        let Some(defined) = self.definition(name) else { return self.text.to_vec() };
        let (start, end) = self.extent(defined);
        self.replaced(start, end, &[b" f(){", &self.text[start..end], b"}"].concat())
    }

    /// Behind all rules, where it still defines.
    fn definition_last(&self, name: Token) -> Vec<u8> {
        let Some(defined) = self.definition(name) else { return self.text.to_vec() };
        let (start, end) = self.extent(defined);
        [&self.replaced(start, end, b" ")[..], b"\n", &self.text[start..end]].concat()
    }

    /// A changed name in a rule that an unknown predicate switches off.
    fn switched_off(&self, random: &mut Random, name: Token) -> Vec<u8> {
        let text = self.changed(random, name);
        let place = self.keyword(name).place;
        [&text[..place], b" x()", &text[place..]].concat()
    }

    /// A changed name in an unknown predicate or its block.
    fn unknown(&self, random: &mut Random, name: Token) -> Vec<u8> {
        let text = self.changed(random, name);
        let place = self.keyword(name).place;
        if random.percent(50) {
            return [&text[..place], b"\"", &text[place..place + 3], b"\"", &text[place + 3..]].concat();
        }
        let other: &[u8] = if random.percent(50) { b" f(UAG){HAG(lost)}" } else { b" f(){g(){UAG(lost)}}" };
        self.replaced(place, place, other)
    }
}
