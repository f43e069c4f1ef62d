//! Calculations that arithmetic makes bad, surely or with some readings, and those
//! that stay good because the bad part stands in the branch not chosen.

use crate::random::Random;

/// Divisions by zero, sums and products too great, and near both. `@` is a letter
/// or a small number.
const PARTS: [&str; 20] = [
    "0/0", "0/0", "0/0", "0*@/0", "1/0", "-1/0", "@/0", "@/0", "1/(1/0)", "0/@", "@/@", "@/@", "@/(@-@)",
    "1/(1/@)", "0*(1/@)", "@*@", "@*@*@", "@+@", "@+@-@", "@-@",
];

/// What would make a good value of a bad part: a comparison, a prefix, one over it,
/// a condition. `$` is a part; `L` is one letter, `M` another or the same.
const SWALLOWED: [&str; 22] = [
    "($)>@",
    "@>=($)",
    "@<($)",
    "($)<=@",
    "($)#@",
    "($)!=($)",
    "($)=($)",
    "!($)",
    "!!($)",
    "!($)=0",
    "!($>0.5)",
    "$>1?0:1",
    "-($)<0",
    "1/($)=0",
    "0*($)=0",
    "($)?1:1",
    "($)?1:0",
    "($)?@:1",
    "!(M/L>0.5)",
    "L*L>1",
    "L+L#M?1:1",
    "-L-L<1",
];

/// Both sides of `&&` and `||`, of which one alone would decide, or not.
const SIDES: [&str; 12] = [
    "1||$",
    "$||1",
    "!(0&&$)",
    "!($&&0)",
    "1&&($#5)",
    "($#5)&&1",
    "0||($#5)",
    "($#5)||0",
    "@||1||$",
    "!(@&&0&&$)",
    "L=0||M/L<9",
    "!(L#0&&M/L>9)",
];

/// A branch that is chosen, or is not, for sure or by a reading.
const BRANCHES: [&str; 14] = [
    "1?1:$",
    "0?$:1",
    "1?$:1",
    "0?1:$",
    "@?1:$",
    "@?$:1",
    "(1?1:$)&&1",
    "(0?$:0)||1",
    "0?$:1?1:$",
    "!(1?0:$>1)",
    "L=0?1:M/L",
    "L=0?M/L:1",
    "L#0?M/L<9:1",
    "L>1?1:L*M<9",
];

/// One of these calculations, of at most 32 bytes.
pub fn whole(random: &mut Random, letters: &[u8]) -> Vec<u8> {
    let shapes: &[&str] = match random.below(3) {
        0 => &SWALLOWED,
        1 => &SIDES,
        _ => &BRANCHES,
    };
    let shape = *random.pick(shapes);
    let (one, other) = (simple(random, letters), simple(random, letters));
    let mut text = Vec::new();
    for byte in shape.bytes() {
        match byte {
            b'$' => text.extend(part(random, letters)),
            b'@' => text.extend(simple(random, letters)),
            b'L' => text.extend(&one),
            b'M' => text.extend(&other),
            _ => text.push(byte),
        }
    }
    text
}

/// A part of one.
pub fn part(random: &mut Random, letters: &[u8]) -> Vec<u8> {
    let mut text = Vec::new();
    for byte in random.pick(&PARTS).bytes() {
        match byte {
            b'@' => text.extend(simple(random, letters)),
            _ => text.push(byte),
        }
    }
    text
}

/// A letter, or a number that often makes a difference.
fn simple(random: &mut Random, letters: &[u8]) -> Vec<u8> {
    if !letters.is_empty() && random.percent(75) {
        return vec![b'A' + *random.pick(letters)];
    }
    random.pick(&["0", "0", "1", "2", "0.5"]).bytes().collect()
}
