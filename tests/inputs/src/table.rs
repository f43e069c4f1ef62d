//! Slices that are tables or nearly: damaged ones, and ones that no file has.

use super::calculation;
use crate::random::Random;
use paper::table::{View, ACCESS_GROUPS, HEADER_BYTES, REFERENCES, UNDEFINED, WIDTHS};
use paper::MOST;

/// Of some references, or of all, the group is not defined: no file has that.
pub fn undefine(random: &mut Random, table: &mut [u8]) {
    let Some(count) = View::open(table).map(|view| view.count(REFERENCES)) else { return };
    let section = usize::from(u16::from_le_bytes([table[30], table[31]]));
    let chance = *random.pick(&[30, 60, 100]);
    for reference in 0..count {
        if random.percent(chance) {
            let at = section + 2 * WIDTHS[REFERENCES] * reference;
            table[at..at + 2].copy_from_slice(&UNDEFINED.to_le_bytes());
        }
    }
}

/// Some access groups get the name of another, or a name of no bytes: no file has the
/// first, nor the second twice.
pub fn rename(random: &mut Random, table: &mut [u8]) {
    let Some(count) = View::open(table).map(|view| view.count(ACCESS_GROUPS)) else { return };
    let section = usize::from(u16::from_le_bytes([table[18], table[19]]));
    let record = |number: usize| section + 2 * WIDTHS[ACCESS_GROUPS] * number;
    for _ in 0..random.between(1, 3).min(count) {
        let (to, from) = (record(random.below(count)), record(random.below(count)));
        if random.percent(70) {
            table.copy_within(from..from + 4, to);
        } else {
            table[to + 2..to + 4].fill(0);
        }
    }
}

/// Change a table a little: a word, a byte, its length, what stands behind.
pub fn damage(random: &mut Random, table: &mut Vec<u8>) {
    for _ in 0..random.between(1, 2) {
        match random.below(12) {
            0..=3 => change_word(random, table),
            4 => header_word(random, table),
            5 => {
                let place = random.below(table.len().max(1));
                if let Some(byte) = table.get_mut(place) {
                    *byte ^= 1 << random.below(8);
                }
            }
            6 => header_word(random, table),
            7 => table.truncate(random.below(table.len() + 1)),
            8 | 9 => {
                let length = if random.percent(5) { 65_536 } else { random.below(40) };
                table.extend(random.bytes(length));
            }
            10 => drop(table.pop()),
            _ => swap_words(random, table),
        }
    }
}

fn new_word(random: &mut Random, old: u16) -> u16 {
    match random.below(8) {
        0 => old.wrapping_add(1),
        1 => old.wrapping_sub(1),
        2 => 65_535,
        3 => 0,
        4 => old ^ 1 << random.below(16),
        5 => {
            *random.pick(&[20, 21, 60, 61, 64, 65, 79, 80, 256, 257, 512, 1024, 1025, 16_384, 16_385, 32_768])
        }
        6 => random.below(40) as u16,
        _ => random.bits() as u16,
    }
}

fn set_word(random: &mut Random, table: &mut [u8], at: usize) {
    if let Some(pair) = table.get_mut(at..at + 2) {
        let old = u16::from_le_bytes([pair[0], pair[1]]);
        pair.copy_from_slice(&new_word(random, old).to_le_bytes());
    }
}

fn header_word(random: &mut Random, table: &mut [u8]) {
    let at = 2 * random.below(HEADER_BYTES / 2);
    set_word(random, table, at);
}

/// A word of a record, if the header says that there are records.
fn change_word(random: &mut Random, table: &mut [u8]) {
    let strings = table.get(34..36).map_or(0, |w| usize::from(u16::from_le_bytes([w[0], w[1]])));
    let words = strings.saturating_sub(HEADER_BYTES) / 2;
    if words > 0 {
        let at = HEADER_BYTES + 2 * random.below(words);
        set_word(random, table, at);
    }
}

fn swap_words(random: &mut Random, table: &mut [u8]) {
    let words = table.len() / 2;
    if words > 0 {
        let (a, b) = (2 * random.below(words), 2 * random.below(words));
        table.swap(a, b);
        table.swap(a + 1, b + 1);
    }
}

/// A table made by itself: strings shared and in any order, names and letters
/// repeated, numbers and names of references apart. Now and then not one.
pub fn free(random: &mut Random) -> Vec<u8> {
    let mut parts = Parts::new(random);
    let mut counts: [usize; 7] = [
        random.below(4),
        random.below(4),
        random.below(12),
        random.between(1, 4),
        random.below(9),
        random.between(1, 10),
        random.below(16),
    ];
    if random.percent(15) {
        let section = random.below(8);
        let count = MOST[section] - 1 + random.below(3);
        match counts.get_mut(section) {
            Some(it) => *it = count,
            None => parts.strings.resize(count, b'x'),
        }
    }
    parts.groups(random, &counts);
    parts.members(random, counts[2]);
    parts.access_groups(random, &counts);
    parts.inputs(random, counts[4]);
    parts.rules(random, &counts);
    parts.finish()
}

/// The sections as words, and the strings with the parts that are useful.
struct Parts {
    sections: [Vec<u16>; 7],
    strings: Vec<u8>,
    names: Vec<[u16; 2]>,
    calculations: Vec<[u16; 2]>,
}

impl Parts {
    fn new(random: &mut Random) -> Parts {
        let mut parts = Parts {
            sections: Default::default(),
            strings: Vec::new(),
            names: Vec::new(),
            calculations: vec![[0, 0], [0, 0]],
        };
        for i in 0..random.between(1, 4) {
            let text = if i == 0 && random.percent(10) {
                calculation::at_the_limit(random)
            } else {
                calculation::right(random, &calculation::all_letters(), 79)
            };
            let at = parts.add(&text);
            parts.calculations.push(at);
        }
        for name in ["DEFAULT", "ann", "pc1", "PC1", "a", "annex", "", "role/", "role/ann", "role/a"] {
            let at = parts.add(name.as_bytes());
            parts.names.push(at);
        }
        for _ in 0..6 {
            let at = parts.any_part(random);
            parts.names.push(at);
        }
        parts
    }

    fn add(&mut self, text: &[u8]) -> [u16; 2] {
        let offset = self.strings.len() as u16;
        self.strings.extend(text);
        [offset, text.len() as u16]
    }

    fn any_part(&self, random: &mut Random) -> [u16; 2] {
        let offset = random.below(self.strings.len() + 1);
        let length = if random.percent(20) { random.between(58, 61) } else { random.below(62) };
        [offset as u16, length.min(self.strings.len() - offset) as u16]
    }

    fn name(&self, random: &mut Random) -> [u16; 2] {
        *random.pick(&self.names)
    }

    fn groups(&mut self, random: &mut Random, counts: &[usize; 7]) {
        let runs = runs(random, counts[0] + counts[1], counts[2]);
        for (i, run) in runs.into_iter().enumerate() {
            let section = usize::from(i >= counts[0]);
            let name = self.name(random);
            self.sections[section].extend(name.into_iter().chain(run));
        }
    }

    fn members(&mut self, random: &mut Random, count: usize) {
        for _ in 0..count {
            let name = self.name(random);
            self.sections[2].extend(name);
        }
    }

    fn access_groups(&mut self, random: &mut Random, counts: &[usize; 7]) {
        let inputs = runs(random, counts[3], counts[4]);
        let rules = runs(random, counts[3], counts[5]);
        for (inputs, rules) in inputs.into_iter().zip(rules) {
            let name = self.name(random);
            self.sections[3].extend(name.into_iter().chain(inputs).chain(rules));
        }
    }

    fn inputs(&mut self, random: &mut Random, count: usize) {
        for _ in 0..count {
            let name = self.name(random);
            let letter = if random.percent(97) { random.below(6) } else { random.between(19, 22) };
            self.sections[4].extend([letter as u16, name[0], name[1]]);
        }
    }

    fn rules(&mut self, random: &mut Random, counts: &[usize; 7]) {
        let runs = runs(random, 2 * counts[5], counts[6]);
        for pair in runs.chunks(2) {
            for (groups, run) in counts.iter().zip(pair) {
                self.references(random, *groups, run[1]);
            }
            let flags = if random.percent(97) { rule_flags(random) } else { random.below(40) as u16 };
            let calculation = self.calculation(random);
            self.sections[5].push(flags);
            self.sections[5].extend(pair.iter().flatten().copied().chain(calculation));
        }
    }

    fn calculation(&self, random: &mut Random) -> [u16; 2] {
        if random.percent(3) {
            self.any_part(random)
        } else {
            *random.pick(&self.calculations)
        }
    }

    fn references(&mut self, random: &mut Random, groups: usize, count: u16) {
        for _ in 0..count {
            let name = self.name(random);
            let number = match random.below(20) {
                0..=2 => 65_535,
                3 if random.percent(30) => groups,
                _ if groups > 0 => random.below(groups),
                _ => 65_535,
            };
            self.sections[6].extend([number as u16, name[0], name[1]]);
        }
    }

    fn finish(self) -> Vec<u8> {
        stored(self.sections, self.strings)
    }
}

/// The bytes of a table: its header, its records and its strings.
pub(crate) fn stored(sections: [Vec<u16>; 7], strings: Vec<u8>) -> Vec<u8> {
    let mut header = Vec::new();
    let mut offset = HEADER_BYTES;
    for (words, width) in sections.iter().zip(WIDTHS) {
        header.extend([(words.len() / width) as u16, offset as u16]);
        offset += 2 * words.len();
    }
    header.extend([strings.len() as u16, offset as u16]);
    let total = (offset + strings.len()) as u16;
    let words = [1, total].into_iter().chain(header).chain(sections.into_iter().flatten());
    words.flat_map(u16::to_le_bytes).chain(strings).collect()
}

fn rule_flags(random: &mut Random) -> u16 {
    let switched_off = u16::from(random.percent(10)) << 4;
    let (level, permission, trap) = (random.below(2), random.below(3), random.below(2));
    (level | permission << 1 | trap << 3) as u16 | switched_off
}

/// `parts` runs, first and count, that use up `count`; a lonely part takes all.
fn runs(random: &mut Random, parts: usize, count: usize) -> Vec<[u16; 2]> {
    let mut cuts: Vec<usize> = (1..parts).map(|_| random.below(count + 1)).collect();
    cuts.sort_unstable();
    cuts.push(count);
    let mut first = 0;
    let mut runs = Vec::new();
    for cut in cuts.into_iter().take(parts) {
        runs.push([first as u16, (cut - first) as u16]);
        first = cut;
    }
    runs
}
