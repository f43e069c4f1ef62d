//! The calculation with the faults 106 to 122, and tables that answer by it.

use crate::fault;
use crate::numbers::misnumbered;
use paper::calculation::{apply, bad_letter, from_truth, is_true, parse, Operator, Tree};
use paper::table::{View, ACCESS_GROUPS, RULES};
use paper::Readings;

/// The value by IEEE 754, and whether it or an evaluated part of it is bad.
#[derive(Clone, Copy)]
struct Part {
    value: f64,
    bad: bool,
}

fn part(tree: &Tree, readings: &Readings) -> Part {
    let of = |tree: &Tree| part(tree, readings);
    let found = match tree {
        Tree::Number(value) => Part { value: *value, bad: false },
        Tree::Letter(letter) => {
            let heard = readings[usize::from(*letter)].good();
            Part { value: heard.unwrap_or(f64::NAN), bad: heard.is_none() }
        }
        Tree::Negative(x) => {
            let x = of(x);
            Part { value: -x.value, ..x }
        }
        Tree::Not(x) => negation(of(x)),
        Tree::Binary(operator, x, y) => binary(*operator, of(x), of(y)),
        Tree::Choice(c, x, y) => choice(of(c), of(x), of(y)),
    };
    let bad = found.bad || is_bad(tree, found.value);
    if fault(115) && bad {
        return Part { value: 0.0, bad: false }; // goes on as 0
    }
    Part { bad, ..found }
}

/// Whether a part's own value makes it bad.
fn is_bad(tree: &Tree, value: f64) -> bool {
    let sum = matches!(tree, Tree::Binary(Operator::Plus | Operator::Minus | Operator::Times, ..));
    match () {
        () if fault(110) => value.is_nan(),      // infinity let through
        () if fault(114) => value.is_infinite(), // not-a-number let through
        () if fault(117) && sum => false,        // only a division looked at
        () if fault(119) => !value.is_finite() || value.abs() == f64::MAX, // the greatest value
        () if fault(120) => !value.is_finite() || value.is_subnormal(), // the smallest ones
        () => !value.is_finite(),
    }
}

fn negation(x: Part) -> Part {
    let through = fault(111) && x.value.is_nan();
    Part { value: from_truth(!is_true(x.value)), bad: x.bad && !through }
}

fn binary(operator: Operator, x: Part, y: Part) -> Part {
    use Operator::{And, Or, Over};
    let compares = !matches!(operator, And | Or | Over | Operator::Plus | Operator::Minus | Operator::Times);
    let bad_number = |p: Part| p.bad && !p.value.is_nan();
    let bad = match operator {
        _ if fault(106) && compares => bad_number(x) || bad_number(y), // swallows not-a-number
        _ if fault(122) && compares => x.bad,                          // the right side not looked at
        And if fault(108) => y.bad,                                    // the left side not looked at
        And if fault(109) && !is_true(x.value) => x.bad,               // the left side decides
        Or if (fault(109) || fault(121)) && is_true(x.value) => x.bad, // the left side decides
        Over if fault(116) && y.value.is_infinite() => x.bad,          // 0, and good
        _ => x.bad || y.bad,
    };
    Part { value: apply(operator, x.value, y.value), bad }
}

fn choice(c: Part, x: Part, y: Part) -> Part {
    let (chosen, other) = if is_true(c.value) { (x, y) } else { (y, x) };
    let condition = c.bad && !(fault(112) && c.value.is_nan()); // not-a-number is true
    Part { value: chosen.value, bad: condition || chosen.bad || fault(107) && other.bad }
}

/// With fault 118 the letters of the branch not chosen are not looked at.
fn holds(tree: &Tree, readings: &Readings, by_result: bool) -> bool {
    let Part { value, bad } = part(tree, readings);
    let bad = bad && !by_result || !fault(118) && bad_letter(tree, readings).is_some();
    !bad && 0.99 < value && value < 1.01
}

/// A table whose rules have no calculations: each whose own is false with its
/// group's readings is switched off. By the result, no part of it is looked at.
pub fn judged(table: &[u8], by_result: bool, readings: impl Fn(usize) -> Readings) -> Vec<u8> {
    let mut judged = table.to_vec();
    let Some(view) = View::open(table) else { return judged };
    let place = 6 + 4 * RULES;
    let start = usize::from(u16::from_le_bytes([table[place], table[place + 1]]));
    for group in 0..view.count(ACCESS_GROUPS) {
        let (_, _, (first, count)) = view.access_group(group);
        for (number, rule) in (first..first + count).map(|n| (n, view.rule(n))) {
            let record = &mut judged[start + 14 * number..][..14];
            let text = view.string(rule.calculation);
            match parse(text).map(|tree| misnumbered(tree, text)) {
                Some(tree) if !holds(&tree, &readings(group), by_result) => record[0] |= 16,
                _ => record[10..].fill(0),
            }
        }
    }
    judged
}
