//! Roles of questions, and files in which they decide.

use crate::question::{nearly, other_case, Names};
use crate::random::Random;
use paper::{ROLES, ROLE_BYTES};

/// A member so begun is a role.
pub const PREFIX: &[u8] = b"role/";

const MEMBERS: [&str; 10] =
    ["role/op", "role/op", "role/dev", "role/", "role/role/op", "Role/op", "role", "op", "ann", "role/@"];

/// A file whose rules hang on a few members alone.
pub fn text(random: &mut Random) -> Vec<u8> {
    let longest = "x".repeat(ROLE_BYTES - PREFIX.len());
    let mut member = || format!("\"{}\"", random.pick(&MEMBERS).replace('@', &longest));
    let [one, two, three, four] = [(); 4].map(|_| member());
    let groups = format!("UAG(u){{{one},{two}}}UAG(v){{{three}}}HAG(h){{{four}}}");
    let rules = random.pick(&[
        "RULE(1,WRITE,TRAPWRITE){UAG(u)}",
        "RULE(1,READ){UAG(u)}RULE(0,WRITE){UAG(v)}",
        "RULE(1,WRITE){UAG(u,v)HAG(h)}",
        "RULE(1,READ)RULE(1,WRITE){HAG(h)}",
    ]);
    format!("{groups}ASG(DEFAULT){{{rules}}}").into_bytes()
}

/// One that a member names, nearly that, a whole member's name, or none.
fn any(random: &mut Random, names: &Names) -> Vec<u8> {
    match random.below(10) {
        0 => Vec::new(),
        1 | 2 => names.member(random).into_iter().take(ROLE_BYTES).collect(),
        _ if names.roles.is_empty() => random.pick(&[&b"op"[..], b"dev", b"role/op"]).to_vec(),
        _ => {
            let role = random.pick(&names.roles);
            like(random, role)
        }
    }
}

/// Mostly that role; now and then one like it.
fn like(random: &mut Random, role: &[u8]) -> Vec<u8> {
    match random.below(12) {
        0 => nearly(random, role),
        1 => other_case(random, role),
        _ => role.to_vec(),
    }
}

/// None, a few, or about as many as there may be; one of them of about the
/// length that it may have. Now and then as many as a byte, or two, can count,
/// and more.
pub fn some(random: &mut Random, names: &Names) -> Vec<Vec<u8>> {
    let count = match random.below(100) {
        0..=39 => 0,
        40..=79 => random.between(1, 3),
        80..=98 => random.between(ROLES - 3, ROLES + 2),
        _ if random.percent(80) => random.between(256, 256 + ROLES + 1),
        _ => 65_536 + random.below(ROLES + 2),
    };
    let strange = random.percent(40); // so that one more decides
    let role = |_| if strange { b"nobody".to_vec() } else { any(random, names) };
    let mut roles: Vec<Vec<u8>> = (0..count).map(role).collect();
    if count > 0 && random.percent(20) {
        let length = match random.below(10) {
            0 => *random.pick(&[255, 256, 256 + 2, 256 + ROLE_BYTES, 65_536, 65_536 + ROLE_BYTES]),
            _ => random.between(ROLE_BYTES - 2, ROLE_BYTES + 1),
        };
        let place = random.below(count);
        roles[place].resize(length, b'x');
    }
    roles
}

/// One more, or nearly it, in some place; mostly not one too many.
pub fn put(random: &mut Random, role: &[u8], roles: &mut Vec<Vec<u8>>) {
    if roles.len() == ROLES && random.percent(80) {
        roles.pop();
    }
    let place = if random.percent(40) { roles.len() } else { random.below(roles.len() + 1) };
    roles.insert(place, like(random, role));
}
