//! Calls on a register, and files whose rules hang on readings.

use crate::question::{self, good, value, Names};
use crate::random::Random;
use crate::{calculation, file, letters};
use paper::register::Client;
use paper::script::Call;
use paper::{Reading, NAME_BYTES, PLACES, TABLE_BYTES};

/// What a sequence does most.
pub enum Mood {
    /// More adds than there are places.
    Full,
    Mixed,
}

/// The next call, for the names of the table that there is.
pub fn call(random: &mut Random, names: &Names, mood: &Mood) -> Call {
    let adds = if matches!(mood, Mood::Full) { 75 } else { 25 };
    if random.percent(adds) {
        return Call::Add(client(random, names));
    }
    match random.below(30) {
        0..=3 => Call::Change(place(random), client(random, names)),
        4..=7 => Call::Remove(place(random)),
        8..=9 => Call::Load(text(random)),
        _ => {
            let (group, letter) = names.input(random);
            let letter =
                if random.percent(3) { letter.wrapping_add(1 << random.between(5, 31)) } else { letter };
            Call::Set(group, letter, reading(random))
        }
    }
}

/// Mostly a low place, which is likely to be taken.
fn place(random: &mut Random) -> usize {
    match random.below(20) {
        0 => random.between(PLACES - 1, PLACES + 1),
        1 => *random.pick(&[256, 1 << 32, usize::MAX, 1 << 63]),
        2 => random.bits() as usize,
        3..=6 => random.below(PLACES),
        _ => random.below(8),
    }
}

fn client(random: &mut Random, names: &Names) -> Client {
    let asked = question::any(random, names);
    let mut client = Client { group: asked.group, user: asked.user, host: asked.host, level: asked.level };
    if random.percent(4) {
        client.level = *random.pick(&[2, 256, 257, 1 << 16]);
    }
    if random.percent(8) {
        let length = random.between(NAME_BYTES - 1, NAME_BYTES + 1);
        let name = random.pick(&[0, 1, 2]);
        [&mut client.group, &mut client.user, &mut client.host][*name].resize(length, b'x');
    }
    client
}

/// Every kind of reading.
pub fn reading(random: &mut Random) -> Reading {
    match random.below(12) {
        0 => Reading::NeverHeard,
        1 => Reading::Invalid,
        2 => Reading::Value(value(random)),
        3 => Reading::Value(good(random)),
        _ => Reading::Value(*random.pick(&[0.0, 1.0, 1.0, 0.25])),
    }
}

/// A file to load: most are accepted.
pub fn text(random: &mut Random) -> Vec<u8> {
    match random.below(10) {
        0..=4 => site(random),
        5..=6 => letters::text(random),
        7..=8 => file::right(random),
        _ => file::any(random),
    }
}

/// Another room for a load than that of the table in force: its bytes, zeros, any, or
/// another table; room enough for the text's, or too little.
pub fn room(random: &mut Random, in_force: &[u8], text: &[u8]) -> Vec<u8> {
    let mut room = vec![0; TABLE_BYTES];
    let needed = paper::load(text, &mut room).map_or(100, |loaded| loaded.length);
    let (start, step) = (random.byte(), random.byte() | 1);
    match random.below(5) {
        0 => room.fill(0),
        1 => room = in_force.to_vec(),
        2 | 3 => drop(paper::load(&self::text(random), &mut room)),
        _ => {
            room.iter_mut().enumerate().for_each(|(i, b)| *b = start.wrapping_add(step.wrapping_mul(i as u8)))
        }
    }
    let length = match random.below(10) {
        0..=3 => TABLE_BYTES,
        4 => needed,
        5 => needed - 1,
        6 => random.below(needed),
        _ => needed + random.below(300),
    };
    room.resize(length, step);
    room
}

/// A file of a few access groups that hear letters and go by them.
fn site(random: &mut Random) -> Vec<u8> {
    let long = "l".repeat(NAME_BYTES);
    let mut groups: Vec<String> = Vec::new();
    for name in ["DEFAULT", "DEFAULT", "\"\"", "t1", "t2", &long] {
        if random.percent(60) && !groups.iter().any(|g| g.starts_with(&format!("ASG({name})"))) {
            groups.push(access_group(random, name));
        }
    }
    let empty = if random.percent(15) { PLACES - groups.len() } else { random.below(3) };
    groups.extend((0..empty).map(|number| format!("ASG(e{number})")));
    random.shuffle(&mut groups);
    groups.push("UAG(u){ann,bob}UAG(v){bob,\"role/op\"}HAG(h){pc1,pc2}HAG(g){pc2}".to_string());
    if random.percent(90) {
        groups.push("UAG(none)".to_string());
    }
    groups.concat().into_bytes()
}

fn access_group(random: &mut Random, name: &str) -> String {
    let mut letters = calculation::all_letters();
    random.shuffle(&mut letters);
    letters.truncate(if random.percent(85) { random.between(1, 2) } else { random.between(3, 6) });
    let heard: Vec<char> = letters.iter().map(|letter| char::from(b'A' + letter)).collect();
    let mut parts: Vec<String> = heard.iter().map(|letter| format!("INP{letter}(x)")).collect();
    parts.extend((0..random.between(1, 3)).map(|_| rule(random, &heard)));
    format!("ASG({name}){{{}}}", parts.concat())
}

fn rule(random: &mut Random, heard: &[char]) -> String {
    let level = random.below(2);
    let permission = random.pick(&["READ", "WRITE", "WRITE", "WRITE,TRAPWRITE", "WRITE,TRAPWRITE"]);
    let people = match random.below(10) {
        0..=4 => "",
        _ => random.pick(&["UAG(u)", "UAG(v)", "HAG(h)", "HAG(g)", "UAG(u)HAG(h)", "UAG(none)"]),
    };
    let (one, two) = (random.pick(heard), random.pick(heard));
    let calculation = match random.below(10) {
        0..=2 => format!("{one}"),
        3 => format!("!{one}"),
        4 => format!("{one}<{two}"),
        5 => format!("{one}>0.3?0:1"),
        6 => format!("!({one}/{two}>0.5)"),
        7 => format!("{two}=0?1:{one}/{two}"),
        _ => return format!("RULE({level},{permission}){{{people}}}").replace("{}", ""),
    };
    format!("RULE({level},{permission}){{{people}CALC(\"{calculation}\")}}")
}
