//! The numbers of a calculation with the faults 275 to 283.

use crate::fault;
use paper::calculation::Tree;

/// The value of a number that is right, with its divisor worked out wrongly.
fn misread(number: &[u8]) -> f64 {
    let point = number.iter().position(|b| *b == b'.');
    let places = point.map_or(0, |point| number.len() - point - 1);
    let whole = number.iter().filter(|b| **b != b'.').fold(0u64, |n, d| n * 10 + u64::from(d - b'0'));
    let zeros = number[number.len() - places..].iter().take_while(|b| **b == b'0').count();
    let power = |places: usize| 10u64.pow(places as u32);
    let divisor = match () {
        () if fault(275) => power(places + 1), // one multiplication too many
        () if fault(276) && places == 15 => power(14), // one too few
        () if fault(277) && places == 9 => power(10), // one too many, for one number of places
        () if fault(278) && point.is_some() => power(number.len() - 1), // by all digits
        () if fault(279) => power(places) & 0xffff_ffff, // in 32 bits
        () if fault(283) => power(places - zeros), // zeros behind the point not counted
        () => power(places),
    };
    let value = whole as f64;
    match () {
        () if fault(280) => (0..places).fold(value, |x, _| x / 10.0), // rounded each time
        () if fault(281) => (0..places).fold(value, |x, _| x * 0.1),
        () if fault(282) => f64::from(value as f32) / divisor as f64,
        () => value / divisor as f64,
    }
}

/// The tree of a text, with its numbers read by the faults.
pub fn misnumbered(mut tree: Tree, text: &[u8]) -> Tree {
    let mut numbers = text.split(|b| !b.is_ascii_digit() && *b != b'.').filter(|part| !part.is_empty());
    replace(&mut tree, &mut numbers);
    tree
}

/// The numbers of a tree stand as in its text, from the left.
fn replace<'a>(tree: &mut Tree, numbers: &mut impl Iterator<Item = &'a [u8]>) {
    match tree {
        Tree::Number(value) => *value = misread(numbers.next().expect("each has a text")),
        Tree::Letter(_) => {}
        Tree::Negative(x) | Tree::Not(x) => replace(x, numbers),
        Tree::Binary(_, x, y) => [x, y].into_iter().for_each(|part| replace(part, numbers)),
        Tree::Choice(c, x, y) => [c, x, y].into_iter().for_each(|part| replace(part, numbers)),
    }
}
