//! Tables to be written back as text: such as no load makes, of which most can be
//! written and some nearly.

use crate::calculation;
use crate::random::Random;
use crate::table::stored;
use paper::table::{UNDEFINED, WIDTHS};
use paper::{CALCULATION_BYTES, LETTERS, MOST, NAME_BYTES};

/// What a table says, before it is laid out.
#[derive(Default)]
struct Site {
    users: Vec<Group>,
    hosts: Vec<Group>,
    access: Vec<Access>,
}

struct Group {
    name: Vec<u8>,
    members: Vec<Vec<u8>>,
}

struct Access {
    name: Vec<u8>,
    inputs: Vec<(u16, Vec<u8>)>,
    rules: Vec<Rule>,
}

struct Rule {
    flags: u16,
    users: Vec<Reference>,
    hosts: Vec<Reference>,
    calculation: Option<Vec<u8>>,
}

/// The number of a group and a name: they need not agree.
type Reference = (u16, Vec<u8>);

/// Parts of names that can be quoted: an escape is one of them.
const PIECES: [&[u8]; 24] = [
    b"ann", b"PC1", b"pc1", b"a", b"b", b" ", b"\t", b"\r", b"UAG", b"1.5", b"(", b")", b"{", b"}", b",",
    b"#", b"'", b"\0", b"\x7f", b"\\\"", b"\\\\", b"\\\n", b"\\x", b"role/op",
];

/// A table of any size.
pub fn table(random: &mut Random) -> Vec<u8> {
    if random.percent(3) {
        return crowded(if random.percent(50) { NAME_BYTES } else { random.between(3, NAME_BYTES) });
    }
    let mut site = site(random);
    if random.percent(45) {
        spoil(random, &mut site);
    }
    let shared = *random.pick(&[0, 60, 100]);
    laid_out(random, &site, shared)
}

/// A name that can be quoted.
fn name(random: &mut Random) -> Vec<u8> {
    let mut name = Vec::new();
    let most = *random.pick(&[0, 3, 6, 6, 6, 12, 58, NAME_BYTES]);
    while name.len() < most {
        let high = [random.byte() | 128];
        let piece = if random.percent(20) { &high[..] } else { random.pick(&PIECES) };
        name.extend(piece);
    }
    if name.len() <= NAME_BYTES {
        name
    } else {
        vec![b'x'; NAME_BYTES]
    }
}

/// Names that differ from each other.
fn names(random: &mut Random, count: usize) -> Vec<Vec<u8>> {
    let mut names: Vec<Vec<u8>> = Vec::new();
    for number in 0..count {
        let mut name = name(random);
        if names.contains(&name) {
            name = format!("{number}").into_bytes();
        }
        names.push(name);
    }
    names
}

fn site(random: &mut Random) -> Site {
    let most = if random.percent(10) { 12 } else { 4 };
    let groups = |random: &mut Random| -> Vec<Group> {
        let count = random.below(most);
        let members = |random: &mut Random| (0..random.below(most)).map(|_| name(random)).collect();
        names(random, count).into_iter().map(|name| Group { name, members: members(random) }).collect()
    };
    let (users, hosts) = (groups(random), groups(random));
    let count = random.below(most) + usize::from(users.len() + hosts.len() == 0);
    let named = names(random, count);
    let mut access = Vec::new();
    for name in named {
        access.push(access_group(random, name, &users, &hosts));
    }
    Site { users, hosts, access }
}

fn access_group(random: &mut Random, title: Vec<u8>, users: &[Group], hosts: &[Group]) -> Access {
    let mut letters = calculation::all_letters();
    random.shuffle(&mut letters);
    letters.truncate(random.below(5));
    let inputs = letters.iter().map(|letter| (u16::from(*letter), name(random))).collect();
    let mut rules = Vec::new();
    for _ in 0..random.below(5) {
        let calculation = match random.below(3) {
            0 => None,
            _ if letters.is_empty() => Some(b"1".to_vec()),
            _ => Some(calculation::right(random, &letters, CALCULATION_BYTES)),
        };
        rules.push(Rule {
            flags: random.below(2) as u16 | (random.below(3) << 1 | random.below(4) << 3) as u16,
            users: references(random, users),
            hosts: references(random, hosts),
            calculation,
        });
    }
    Access { name: title, inputs, rules }
}

/// Names of groups that are defined, with any number that a table may have.
fn references(random: &mut Random, groups: &[Group]) -> Vec<Reference> {
    if groups.is_empty() {
        return Vec::new();
    }
    let mut references = Vec::new();
    for _ in 0..random.below(4) {
        let named = random.below(groups.len());
        let number = match random.below(4) {
            0 => UNDEFINED,
            1 => random.below(groups.len()) as u16,
            _ => named as u16,
        };
        references.push((number, groups[named].name.clone()));
    }
    references
}

/// One thing that no text can say, or nearly: the table can often be written all the
/// same.
fn spoil(random: &mut Random, site: &mut Site) {
    match random.below(9) {
        0..=2 => spoil_string(random, site),
        3 => repeat(random, site),
        4 => misspell(random, site),
        5 => {
            for access in &mut site.access {
                let letter = random.below(LETTERS) as u16;
                if let Some(input) = access.inputs.last_mut() {
                    input.0 = letter; // given again, or taken from a calculation
                }
            }
        }
        6 => {
            let asked = calculation::right(random, &calculation::all_letters(), CALCULATION_BYTES);
            if let Some(rule) = site.access.iter_mut().flat_map(|access| &mut access.rules).next() {
                rule.calculation = Some(asked);
            }
        }
        7 => *site = Site::default(),
        _ => {
            // `x","y` in a text would be two members.
            if let Some(group) = site.users.iter_mut().chain(&mut site.hosts).next() {
                group.members.push(b"x\",\"y".to_vec());
            }
        }
    }
}

/// All names that a site has.
fn all_names(site: &mut Site) -> Vec<&mut Vec<u8>> {
    let mut all: Vec<&mut Vec<u8>> = Vec::new();
    for group in site.users.iter_mut().chain(&mut site.hosts) {
        all.push(&mut group.name);
        all.extend(&mut group.members);
    }
    for access in &mut site.access {
        all.push(&mut access.name);
        all.extend(access.inputs.iter_mut().map(|input| &mut input.1));
        for rule in &mut access.rules {
            all.extend(rule.users.iter_mut().chain(&mut rule.hosts).map(|reference| &mut reference.1));
        }
    }
    all
}

/// A byte put into a name, or a name cut, or ended by a backslash.
fn spoil_string(random: &mut Random, site: &mut Site) {
    let mut all = all_names(site);
    let count = all.len();
    if count == 0 {
        return;
    }
    let name = &mut *all[random.below(count)];
    let place = random.below(name.len() + 1);
    match random.below(4) {
        0 => name.truncate(place),
        1 => name.push(b'\\'),
        2 => name.insert(place, random.byte()),
        _ => name.insert(place, *random.pick(b"\"\n\\")),
    }
    name.truncate(NAME_BYTES);
}

/// A definition's name given to another, of the same kind or not.
fn repeat(random: &mut Random, site: &mut Site) {
    let heads = |site: &Site| -> Vec<Vec<u8>> {
        let groups = site.users.iter().chain(&site.hosts).map(|group| group.name.clone());
        groups.chain(site.access.iter().map(|access| access.name.clone())).collect()
    };
    let given = heads(site);
    if given.is_empty() {
        return;
    }
    let from = random.pick(&given).clone();
    let groups = site.users.iter_mut().chain(&mut site.hosts).map(|group| &mut group.name);
    let mut all: Vec<&mut Vec<u8>> = groups.chain(site.access.iter_mut().map(|a| &mut a.name)).collect();
    let count = all.len();
    *all[random.below(count)] = from;
}

/// A reference by a name that is not defined, or is one of the other kind.
fn misspell(random: &mut Random, site: &mut Site) {
    let other = site.access.first().map(|access| access.name.clone()).unwrap_or_default();
    let rules = site.access.iter_mut().flat_map(|access| &mut access.rules);
    let mut all: Vec<&mut Reference> = rules.flat_map(|r| r.users.iter_mut().chain(&mut r.hosts)).collect();
    let count = all.len();
    if count == 0 {
        return;
    }
    let name = &mut all[random.below(count)].1;
    match random.below(3) {
        0 => *name = other,
        1 => name.make_ascii_uppercase(),
        _ => name.insert(0, b'x'),
    }
    name.truncate(NAME_BYTES);
}

/// The sections as words, and the strings.
struct Layout<'r> {
    random: &'r mut Random,
    sections: [Vec<u16>; 7],
    strings: Vec<u8>,
    /// How often, in a hundred, a string is looked for among those that stand.
    shared: usize,
}

/// The table of a site. Strings share bytes, also in the middle of others.
fn laid_out(random: &mut Random, site: &Site, shared: usize) -> Vec<u8> {
    let mut layout = Layout { random, sections: Default::default(), strings: Vec::new(), shared };
    layout.site(site);
    stored(layout.sections, layout.strings)
}

impl Layout<'_> {
    fn string(&mut self, text: &[u8]) -> [u16; 2] {
        let stands = |strings: &[u8]| strings.windows(text.len().max(1)).position(|part| part == text);
        let found = if self.random.percent(self.shared) { stands(&self.strings) } else { None };
        let offset = found.unwrap_or(self.strings.len());
        if found.is_none() {
            self.strings.extend(text);
        }
        [offset as u16, text.len() as u16]
    }

    fn site(&mut self, site: &Site) {
        let mut member = 0;
        for (section, groups) in [&site.users, &site.hosts].into_iter().enumerate() {
            for group in groups {
                let [offset, length] = self.string(&group.name);
                let count = group.members.len() as u16;
                self.sections[section].extend([offset, length, member, count]);
                member += count;
                for name in &group.members {
                    let name = self.string(name);
                    self.sections[2].extend(name);
                }
            }
        }
        for access in &site.access {
            self.access_group(access);
        }
    }

    fn access_group(&mut self, access: &Access) {
        let [offset, length] = self.string(&access.name);
        let (input, rule) =
            ((self.sections[4].len() / WIDTHS[4]) as u16, (self.sections[5].len() / WIDTHS[5]) as u16);
        let (inputs, rules) = (access.inputs.len() as u16, access.rules.len() as u16);
        self.sections[3].extend([offset, length, input, inputs, rule, rules]);
        for (letter, name) in &access.inputs {
            let [offset, length] = self.string(name);
            self.sections[4].extend([*letter, offset, length]);
        }
        for rule in &access.rules {
            self.rule(rule);
        }
    }

    fn rule(&mut self, rule: &Rule) {
        let first = (self.sections[6].len() / WIDTHS[6]) as u16;
        let (users, hosts) = (rule.users.len() as u16, rule.hosts.len() as u16);
        for (number, name) in rule.users.iter().chain(&rule.hosts) {
            let [offset, length] = self.string(name);
            self.sections[6].extend([*number, offset, length]);
        }
        let [offset, length] = rule.calculation.as_ref().map_or([0, 0], |text| self.string(text));
        self.sections[5].extend([rule.flags, first, users, first + users, hosts, offset, length]);
    }
}

/// As many of everything as a table has, all names of this length, at least 3. With 60
/// no text is longer than that of this one.
pub fn crowded(length: usize) -> Vec<u8> {
    let named =
        |kind: char, number: usize| format!("{kind}{number:0width$}", width = length - 1).into_bytes();
    let [users, hosts, members, access, inputs, rules, references, _] = MOST;
    let groups = |kind: char, count: usize| -> Vec<Group> {
        let each = members / (users + hosts);
        (0..count).map(|n| Group { name: named(kind, n), members: vec![named(kind, 0); each] }).collect()
    };
    let refer = |kind: char| vec![(0, named(kind, 0)); references / rules / 2];
    let calculation = format!("{:->1$}", 1, CALCULATION_BYTES).into_bytes();
    let rule = || Rule {
        flags: 2 << 1 | 1 << 4,
        users: refer('u'),
        hosts: refer('h'),
        calculation: Some(calculation.clone()),
    };
    let group = |n: usize| Access {
        name: named('u', n),
        inputs: (0..inputs / access).map(|letter| (letter as u16, named('u', 0))).collect(),
        rules: (0..rules / access).map(|_| rule()).collect(),
    };
    let access = (0..access).map(group).collect();
    let site = Site { users: groups('u', users), hosts: groups('h', hosts), access };
    laid_out(&mut Random::of_case(0, 0), &site, 100)
}

/// A file whose table has a text of this length, which is near 16,384.
pub fn of_text_length(length: usize) -> Vec<u8> {
    let (members, left) = ((length - 20) / 63, (length - 20) % 63);
    let (user, access) = if left > 3 { ("uuuu", left - 3) } else { ("u", left) };
    let member = "m".repeat(NAME_BYTES);
    let members = vec![&member[..]; members].join(",");
    format!("UAG({user}){{{members}}}ASG(\"{}\")", "a".repeat(access)).into_bytes()
}
