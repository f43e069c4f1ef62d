//! Inputs made from a seed: files, tables, tables to be written back, questions,
//! roles, letters, calculations, lines, calls on a register.
#![forbid(unsafe_code)]

mod arithmetic;
pub mod calculation;
pub mod every;
pub mod export;
pub mod file;
pub mod letters;
pub mod lines;
pub mod question;
pub mod random;
pub mod register;
pub mod roles;
pub mod table;

use random::Random;

/// Change some bytes: flip, set, take out, put in, cut off, repeat a part.
pub fn damage_bytes(random: &mut Random, text: &mut Vec<u8>, alphabet: &[u8]) {
    for _ in 0..random.between(1, 3) {
        let place = random.below(text.len() + 1);
        let new = if random.percent(70) { *random.pick(alphabet) } else { random.byte() };
        match random.below(6) {
            0 if place < text.len() => text[place] ^= 1 << random.below(8),
            1 if place < text.len() => text[place] = new,
            2 if place < text.len() => drop(text.remove(place)),
            3 => text.insert(place, new),
            4 if random.percent(20) => text.truncate(place),
            5 => {
                let end = text.len().min(place + random.below(12));
                let part = text[place..end].to_vec();
                let to = random.below(text.len() + 1);
                text.splice(to..to, part);
            }
            _ => {}
        }
    }
}

/// A text with some byte in place of each `@`.
pub fn with_byte(random: &mut Random, templates: &[&str]) -> Vec<u8> {
    let template = templates[random.below(templates.len())];
    let byte = random.byte();
    template.bytes().map(|b| if b == b'@' { byte } else { b }).collect()
}
