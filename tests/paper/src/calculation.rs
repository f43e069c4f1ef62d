//! The calculation inside a rule: which texts are one, their value, their truth.

use crate::{CALCULATION_BYTES, LETTERS};

#[derive(Clone, Copy, Debug)]
pub enum Reading {
    NeverHeard,
    Invalid,
    Value(f64),
}

pub type Readings = [Reading; LETTERS];

impl Reading {
    /// Infinite and not-a-number values are bad too.
    pub fn good(self) -> Option<f64> {
        match self {
            Reading::Value(value) if value.is_finite() => Some(value),
            _ => None,
        }
    }
}

/// What a calculation answers, by document 02's fifth request.
#[derive(Clone, Copy, Debug, PartialEq)]
pub enum Calculated {
    Value(f64),
    /// Bad by this letter.
    Letter(u8),
    /// Bad by arithmetic.
    Arithmetic,
}

#[derive(Clone, Copy, Debug, PartialEq, Eq)]
pub enum Operator {
    Or,
    And,
    Less,
    LessOrEqual,
    Greater,
    GreaterOrEqual,
    Equal,
    NotEqual,
    Plus,
    Minus,
    Times,
    Over,
}

#[derive(Debug)]
pub enum Tree {
    Number(f64),
    Letter(u8),
    Negative(Box<Tree>),
    Not(Box<Tree>),
    Binary(Operator, Box<Tree>, Box<Tree>),
    Choice(Box<Tree>, Box<Tree>, Box<Tree>),
}

#[derive(Clone, Copy, Debug, PartialEq)]
enum Symbol {
    Number(f64),
    Letter(u8),
    Operator(Operator),
    Not,
    Open,
    Close,
    Question,
    Colon,
}

/// Whether a text is a calculation, apart from its letters having inputs.
pub fn allowed(text: &[u8]) -> bool {
    parse(text).is_some()
}

/// The tree of a text, if it is a calculation. A longer text than refusal 5
/// lets pass is none, in a file or by itself.
pub fn parse(text: &[u8]) -> Option<Tree> {
    if text.len() > CALCULATION_BYTES {
        return None;
    }
    let symbols = symbols(text)?;
    let mut reader = Reader { symbols: &symbols };
    let tree = reader.choice()?;
    reader.symbols.is_empty().then_some(tree)
}

/// The lowest letter in the text, in either branch, whose reading is bad.
pub fn bad_letter(tree: &Tree, readings: &Readings) -> Option<u8> {
    tree.letters().into_iter().filter(|l| readings[*l as usize].good().is_none()).min()
}

/// A bad letter comes before bad arithmetic.
pub fn result(tree: &Tree, readings: &Readings) -> Calculated {
    match bad_letter(tree, readings) {
        Some(letter) => Calculated::Letter(letter),
        None => tree.value(readings).map_or(Calculated::Arithmetic, Calculated::Value),
    }
}

/// The value; none where it is bad.
pub fn value(tree: &Tree, readings: &Readings) -> Option<f64> {
    match result(tree, readings) {
        Calculated::Value(value) => Some(value),
        _ => None,
    }
}

/// 0.99 < result < 1.01; false where the value is bad.
pub fn holds(tree: &Tree, readings: &Readings) -> bool {
    value(tree, readings).is_some_and(|v| 0.99 < v && v < 1.01)
}

/// The value's bits, or `bad` with the letter, or with `-` for arithmetic.
pub fn written(result: Calculated) -> String {
    match result {
        Calculated::Value(value) => format!("{:016x}", value.to_bits()),
        Calculated::Letter(letter) => format!("bad {}", capital(Some(letter))),
        Calculated::Arithmetic => format!("bad {}", capital(None)),
    }
}

/// Whether a result, given by document 01 or by a request, is this one. Before
/// document 02's fifth request a bad one had no second word.
pub fn agrees(given: &str, result: Calculated) -> bool {
    let found = written(result);
    given == found || given == "bad" && !matches!(result, Calculated::Value(_))
}

/// The letter, or `-` for none.
pub fn capital(letter: Option<u8>) -> char {
    letter.map_or('-', |l| char::from(b'A' + l))
}

fn symbols(text: &[u8]) -> Option<Vec<Symbol>> {
    let mut found = Vec::new();
    let mut rest = text;
    while let Some(&byte) = rest.first() {
        let length = match byte {
            b' ' | b'\t' => 1,
            b'0'..=b'9' | b'.' => {
                let (value, length) = number_at_start(rest)?;
                found.push(Symbol::Number(value));
                length
            }
            b'A'..=b'U' | b'a'..=b'u' => {
                found.push(Symbol::Letter(byte.to_ascii_uppercase() - b'A'));
                1
            }
            _ => {
                let (symbol, length) = mark_at_start(rest)?;
                found.push(symbol);
                length
            }
        };
        rest = &rest[length..];
    }
    Some(found)
}

/// Longest first.
fn mark_at_start(text: &[u8]) -> Option<(Symbol, usize)> {
    let operator = |o| Symbol::Operator(o);
    let found = match text {
        [b'|', b'|', ..] => (operator(Operator::Or), 2),
        [b'&', b'&', ..] => (operator(Operator::And), 2),
        [b'<', b'=', ..] => (operator(Operator::LessOrEqual), 2),
        [b'>', b'=', ..] => (operator(Operator::GreaterOrEqual), 2),
        [b'=', b'=', ..] => (operator(Operator::Equal), 2),
        [b'!', b'=', ..] => (operator(Operator::NotEqual), 2),
        [b'<', ..] => (operator(Operator::Less), 1),
        [b'>', ..] => (operator(Operator::Greater), 1),
        [b'=', ..] => (operator(Operator::Equal), 1),
        [b'#', ..] => (operator(Operator::NotEqual), 1),
        [b'+', ..] => (operator(Operator::Plus), 1),
        [b'-', ..] => (operator(Operator::Minus), 1),
        [b'*', ..] => (operator(Operator::Times), 1),
        [b'/', ..] => (operator(Operator::Over), 1),
        [b'!', ..] => (Symbol::Not, 1),
        [b'(', ..] => (Symbol::Open, 1),
        [b')', ..] => (Symbol::Close, 1),
        [b'?', ..] => (Symbol::Question, 1),
        [b':', ..] => (Symbol::Colon, 1),
        _ => return None,
    };
    Some(found)
}

/// The longest run of digits and points at the start, as one number.
fn number_at_start(text: &[u8]) -> Option<(f64, usize)> {
    let length = text.iter().take_while(|b| b.is_ascii_digit() || **b == b'.').count();
    Some((number(&text[..length])?, length))
}

/// Digits, digits with a point and digits, or a point and digits; 15 digits
/// at most. Two whole numbers, both exact in binary64, divided once.
pub fn number(text: &[u8]) -> Option<f64> {
    let (before, after) = match text.iter().position(|b| *b == b'.') {
        Some(point) => (&text[..point], Some(&text[point + 1..])),
        None => (text, None),
    };
    let behind = after.unwrap_or(b"");
    let digits = [before, behind].concat();
    let fits = !digits.is_empty() && digits.len() <= 15 && digits.iter().all(u8::is_ascii_digit);
    if !fits || after.is_some_and(<[u8]>::is_empty) {
        return None;
    }
    let whole = digits.iter().fold(0u64, |n, d| n * 10 + u64::from(d - b'0'));
    let power = 10u64.pow(behind.len() as u32);
    Some(whole as f64 / power as f64)
}

/// The binary operators, loosest first.
const LEVELS: [&[Operator]; 5] = [
    &[Operator::Or],
    &[Operator::And],
    &[
        Operator::Less,
        Operator::LessOrEqual,
        Operator::Greater,
        Operator::GreaterOrEqual,
        Operator::Equal,
        Operator::NotEqual,
    ],
    &[Operator::Plus, Operator::Minus],
    &[Operator::Times, Operator::Over],
];

struct Reader<'s> {
    symbols: &'s [Symbol],
}

impl Reader<'_> {
    fn take(&mut self) -> Option<Symbol> {
        let (first, rest) = self.symbols.split_first()?;
        self.symbols = rest;
        Some(*first)
    }

    fn take_only(&mut self, symbol: Symbol) -> Option<()> {
        (self.take()? == symbol).then_some(())
    }

    /// `c ? x : y`, grouping to the right
    fn choice(&mut self) -> Option<Tree> {
        let condition = self.binary(0)?;
        if self.symbols.first() != Some(&Symbol::Question) {
            return Some(condition);
        }
        self.take()?;
        let yes = self.choice()?;
        self.take_only(Symbol::Colon)?;
        let no = self.choice()?;
        Some(Tree::Choice(Box::new(condition), Box::new(yes), Box::new(no)))
    }

    /// Operators of a level, grouping to the left.
    fn binary(&mut self, level: usize) -> Option<Tree> {
        let Some(operators) = LEVELS.get(level) else { return self.prefixed() };
        let mut left = self.binary(level + 1)?;
        while let Some(Symbol::Operator(operator)) = self.symbols.first().copied() {
            if !operators.contains(&operator) {
                break;
            }
            self.take()?;
            let right = self.binary(level + 1)?;
            left = Tree::Binary(operator, Box::new(left), Box::new(right));
        }
        Some(left)
    }

    fn prefixed(&mut self) -> Option<Tree> {
        match self.take()? {
            Symbol::Operator(Operator::Minus) => Some(Tree::Negative(Box::new(self.prefixed()?))),
            Symbol::Not => Some(Tree::Not(Box::new(self.prefixed()?))),
            Symbol::Number(value) => Some(Tree::Number(value)),
            Symbol::Letter(letter) => Some(Tree::Letter(letter)),
            Symbol::Open => {
                let inner = self.choice()?;
                self.take_only(Symbol::Close)?;
                Some(inner)
            }
            _ => None,
        }
    }
}

/// Anything but 0.
pub fn is_true(value: f64) -> bool {
    value != 0.0
}

pub fn from_truth(truth: bool) -> f64 {
    if truth {
        1.0
    } else {
        0.0
    }
}

/// Binary64, rounded once.
pub fn apply(operator: Operator, x: f64, y: f64) -> f64 {
    match operator {
        Operator::Or => from_truth(is_true(x) || is_true(y)),
        Operator::And => from_truth(is_true(x) && is_true(y)),
        Operator::Less => from_truth(x < y),
        Operator::LessOrEqual => from_truth(x <= y),
        Operator::Greater => from_truth(x > y),
        Operator::GreaterOrEqual => from_truth(x >= y),
        Operator::Equal => from_truth(x == y),
        Operator::NotEqual => from_truth(x != y),
        Operator::Plus => x + y,
        Operator::Minus => x - y,
        Operator::Times => x * y,
        Operator::Over => x / y,
    }
}

impl Tree {
    /// The letters in the text, in either branch.
    pub fn letters(&self) -> Vec<u8> {
        match self {
            Tree::Number(_) => Vec::new(),
            Tree::Letter(letter) => vec![*letter],
            Tree::Negative(x) | Tree::Not(x) => x.letters(),
            Tree::Binary(_, x, y) => [x.letters(), y.letters()].concat(),
            Tree::Choice(c, x, y) => [c.letters(), x.letters(), y.letters()].concat(),
        }
    }

    /// The value of an evaluated part. Document 02's third request: where it is
    /// infinite or not a number there is none, nor of what it is a part of. Both
    /// sides of an operator are evaluated; of a choice the condition and the
    /// chosen branch.
    fn value(&self, readings: &Readings) -> Option<f64> {
        let value = match self {
            Tree::Number(value) => *value,
            Tree::Letter(letter) => readings[*letter as usize].good()?,
            Tree::Negative(x) => -x.value(readings)?,
            Tree::Not(x) => from_truth(!is_true(x.value(readings)?)),
            Tree::Binary(operator, x, y) => apply(*operator, x.value(readings)?, y.value(readings)?),
            Tree::Choice(c, x, y) => {
                let chosen = if is_true(c.value(readings)?) { x } else { y };
                chosen.value(readings)?
            }
        };
        value.is_finite().then_some(value)
    }
}
