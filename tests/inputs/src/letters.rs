//! Files whose rules are stopped by bad readings, and who asks: somebody whom most
//! rules let in, with several bad readings.

use crate::calculation;
use crate::question::{good, Owned};
use crate::random::Random;
use paper::LETTERS;

/// What a rule wants of the client; ann from pc1, with the role op, passes most.
const PEOPLE: [&str; 12] = [
    "",
    "",
    "",
    "",
    "UAG(u)",
    "HAG(h)",
    "UAG(u)HAG(h)",
    "UAG(op)",
    "UAG(other)",
    "HAG(other)",
    "UAG(u)HAG(other)",
    "UAG(op,other)HAG(h)",
];

/// `@` is a letter, in either case; `L` is one of them, `H` the next one.
const SHAPES: [&str; 18] = [
    "@",
    "@",
    "@>0.3?0:1",
    "@+@<3",
    "H+L",
    "H>1||L",
    "L?@:@",
    "1?@:@",
    "0?@:@",
    "@?1:@",
    "0?H:L",
    "1?H:L",
    "@/(@-@)",
    "L/(H-H)",
    "!(@/0>1)",
    "1/0",
    "0",
    "(@>1?@:@)+@",
];

/// Three groups of several rules of mixed permissions, or no DEFAULT.
pub fn text(random: &mut Random) -> Vec<u8> {
    let mut groups: Vec<String> = Vec::new();
    for name in ["a", "DEFAULT", "b"] {
        if name != "DEFAULT" || random.percent(80) {
            groups.push(access_group(random, name));
        }
    }
    random.shuffle(&mut groups);
    groups.push("UAG(u){ann}UAG(op){\"role/op\"}UAG(other){eve}HAG(h){pc1}HAG(other){pc9}".to_string());
    groups.concat().into_bytes()
}

fn access_group(random: &mut Random, name: &str) -> String {
    let mut letters = calculation::all_letters();
    random.shuffle(&mut letters);
    letters.truncate(random.between(2, 6));
    let inputs = letters.iter().map(|l| format!("INP{}({name}:{l})", char::from(b'A' + l)));
    let mut parts: Vec<String> = inputs.collect();
    parts.extend((0..random.between(1, 6)).map(|_| rule(random, &letters)));
    format!("ASG({name}){{{}}}", parts.concat())
}

fn rule(random: &mut Random, letters: &[u8]) -> String {
    let level = usize::from(random.percent(80));
    let head = random.pick(&["NONE", "READ", "READ", "READ", "WRITE", "WRITE", "WRITE,TRAPWRITE"]);
    let mut parts = vec![random.pick(&PEOPLE).to_string()];
    if random.percent(80) {
        parts.push(format!("CALC(\"{}\")", calculation(random, letters)));
    }
    if random.percent(8) {
        parts.push("FOO()".to_string());
    }
    random.shuffle(&mut parts);
    let body = parts.concat();
    if body.is_empty() {
        return format!("RULE({level},{head})");
    }
    format!("RULE({level},{head}){{{body}}}")
}

fn calculation(random: &mut Random, letters: &[u8]) -> String {
    let low = random.below(letters.len());
    let mut text = String::new();
    for mark in random.pick(&SHAPES).chars() {
        let letter = match mark {
            '@' => *random.pick(letters),
            'L' => letters[low],
            'H' => letters[(low + 1) % letters.len()],
            _ => {
                text.push(mark);
                continue;
            }
        };
        let first = if random.percent(70) { b'A' } else { b'a' };
        text.push(char::from(first + letter));
    }
    text
}

/// Two fifths of the readings are bad, in each way that there is; now and then the
/// arrays end before the last letter.
pub fn question(random: &mut Random) -> Owned {
    let bad =
        [(0, 1.0), (1, 1.0), (3, 1.0), (255, 1.0), (2, f64::NAN), (2, f64::INFINITY), (2, f64::NEG_INFINITY)];
    let mut reading = || match random.below(10) {
        0..=3 => *random.pick(&bad),
        4..=7 => (2, 1.0),
        _ => (2, good(random)),
    };
    let (mut states, mut values): (Vec<u8>, Vec<f64>) = (0..LETTERS).map(|_| reading()).unzip();
    if random.percent(15) {
        states.truncate(random.below(LETTERS));
        values.truncate(random.below(LETTERS));
    }
    let (users, hosts): ([&[u8]; 4], [&[u8]; 4]) =
        ([b"ann", b"ann", b"ann", b"eve"], [b"pc1", b"pc1", b"PC1", b"pc2"]);
    Owned {
        group: random.pick::<&[u8]>(&[b"a", b"a", b"b", b"", b"nowhere"]).to_vec(),
        user: random.pick(&users).to_vec(),
        host: random.pick(&hosts).to_vec(),
        roles: if random.percent(60) { vec![b"op".to_vec()] } else { Vec::new() },
        level: if random.percent(90) { random.below(2) as u32 } else { 2 },
        states,
        values,
    }
}
