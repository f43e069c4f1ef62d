//! Questions to a table, and readings.

use crate::random::Random;
use crate::roles;
use paper::table::{self, Run, Text, View, UNDEFINED};
use paper::{Question, Reading, Readings, LETTERS};

/// The names that a table holds, to ask with.
#[derive(Default)]
pub struct Names {
    groups: Vec<Vec<u8>>,
    /// Of each input: its group's number, and its letter.
    inputs: Vec<(usize, u8)>,
    members: Vec<Vec<u8>>,
    /// That members `role/..` name.
    pub(crate) roles: Vec<Vec<u8>>,
    rules: Vec<Aim>,
}

/// Who passes a rule's lists, to aim at it.
struct Aim {
    group: Vec<u8>,
    users: Vec<Vec<u8>>,
    hosts: Vec<Vec<u8>>,
}

impl Names {
    /// None if the bytes are no table.
    pub fn of(bytes: &[u8]) -> Names {
        let mut names = Names::default();
        if !paper::is_table(bytes) {
            return names;
        }
        let view = View::open(bytes).expect("it is a table");
        for n in 0..view.count(table::ACCESS_GROUPS) {
            let (name, (first, count), rules) = view.access_group(n);
            names.rules.extend((rules.0..rules.0 + rules.1).map(|r| Aim::of(&view, name, r)));
            names.groups.push(view.string(name).to_vec());
            names.inputs.extend((first..first + count).map(|i| (n, view.input(i).0 as u8)));
        }
        for n in 0..view.count(table::MEMBERS) {
            let member = view.string(view.member(n));
            names.roles.extend(member.strip_prefix(roles::PREFIX).map(<[u8]>::to_vec));
            names.members.push(member.to_vec());
        }
        names
    }

    pub fn group(&self, random: &mut Random) -> Vec<u8> {
        let mut name = if self.groups.is_empty() || random.percent(15) {
            let other: &[&[u8]] = &[b"", b"", b"DEFAULT", b"nobody", b"Default", b"DEFAULT "];
            random.pick(other).to_vec()
        } else {
            random.pick(&self.groups).clone()
        };
        if random.percent(4) {
            name = nearly(random, &name);
        }
        name
    }

    /// A group and a letter to look up.
    pub fn input(&self, random: &mut Random) -> (Vec<u8>, u32) {
        if self.inputs.is_empty() || random.percent(25) {
            let letter = if random.percent(95) { random.below(LETTERS + 1) as u32 } else { wide(random) };
            return (self.group(random), letter);
        }
        let (group, letter) = *random.pick(&self.inputs);
        let high = if random.percent(5) { 1 << random.between(5, 31) } else { 0 }; // its own in fewer bits
        (self.groups[group].clone(), u32::from(letter) | high)
    }

    pub(crate) fn member(&self, random: &mut Random) -> Vec<u8> {
        if self.members.is_empty() || random.percent(10) {
            let other: &[&[u8]] = &[b"", b"ann", b"pc1", b"nobody"];
            return random.pick(other).to_vec();
        }
        let name = random.pick(&self.members).clone();
        match random.below(20) {
            0 => nearly(random, &name),
            1 => {
                let length = random.below(80);
                random.bytes(length)
            }
            2 if random.percent(10) => [name, vec![b'x'; 65_536]].concat(),
            _ => name,
        }
    }
}

impl Aim {
    fn of(view: &View, group: Text, rule: usize) -> Aim {
        let rule = view.rule(rule);
        Aim {
            group: view.string(group).to_vec(),
            users: members_of(view, rule.users, |n| view.user_group(n).1),
            hosts: members_of(view, rule.hosts, |n| view.host_group(n).1),
        }
    }
}

/// The members of the groups that a run of references names.
fn members_of(view: &View, references: Run, members: impl Fn(usize) -> Run) -> Vec<Vec<u8>> {
    let groups = (references.0..references.0 + references.1).map(|n| view.reference(n).0);
    let runs = groups.filter(|g| *g != UNDEFINED.into()).map(members);
    let numbers = runs.flat_map(|(first, count)| first..first + count);
    numbers.map(|n| view.string(view.member(n)).to_vec()).collect()
}

/// One byte more, less or other.
pub(crate) fn nearly(random: &mut Random, name: &[u8]) -> Vec<u8> {
    let mut name = name.to_vec();
    let place = random.below(name.len() + 1);
    match random.below(3) {
        0 => name.insert(place, random.byte()),
        1 if place < name.len() => drop(name.remove(place)),
        _ if place < name.len() => name[place] ^= 1 << random.below(8),
        _ => {}
    }
    name
}

pub(crate) fn other_case(random: &mut Random, name: &[u8]) -> Vec<u8> {
    let flip = |b: &u8| if random.percent(50) { b.to_ascii_uppercase() } else { *b };
    name.iter().map(flip).collect()
}

/// A question that owns its parts.
#[derive(Debug)]
pub struct Owned {
    pub group: Vec<u8>,
    pub user: Vec<u8>,
    pub host: Vec<u8>,
    pub roles: Vec<Vec<u8>>,
    pub level: u32,
    pub states: Vec<u8>,
    pub values: Vec<f64>,
}

impl Owned {
    /// As `paper` is asked.
    pub fn question(&self) -> Question<'_> {
        Question {
            group: &self.group,
            user: &self.user,
            host: &self.host,
            roles: &self.roles,
            level: self.level,
            readings: self.readings(),
        }
    }

    pub fn readings(&self) -> Readings {
        std::array::from_fn(|i| match self.states.get(i) {
            None | Some(0) => Reading::NeverHeard,
            Some(2) => self.values.get(i).map_or(Reading::Invalid, |v| Reading::Value(*v)),
            Some(_) => Reading::Invalid,
        })
    }
}

pub fn any(random: &mut Random, names: &Names) -> Owned {
    let (states, values) = readings(random);
    let mut question = Owned {
        group: names.group(random),
        user: names.member(random),
        host: names.member(random),
        roles: roles::some(random, names),
        level: if random.percent(90) { random.below(2) as u32 } else { wide(random) },
        states,
        values,
    };
    if !names.rules.is_empty() && random.percent(75) {
        aim(random, names, &mut question);
    }
    if random.percent(40) {
        question.host = other_case(random, &question.host);
    }
    question
}

/// A level or a letter of any size: a byte, a small one with more bits above,
/// or any.
fn wide(random: &mut Random) -> u32 {
    match random.below(4) {
        0 => random.bits() as u32,
        1 => (random.below(22) as u32).wrapping_add(1 << (8 + random.below(24))),
        _ => random.byte().into(),
    }
}

/// Ask as somebody who passes the lists of some rule.
fn aim(random: &mut Random, names: &Names, question: &mut Owned) {
    let rule = random.pick(&names.rules);
    question.group = rule.group.clone();
    if !rule.users.is_empty() && random.percent(90) {
        let member = random.pick(&rule.users);
        aim_at_user(random, member, question);
    }
    if !rule.hosts.is_empty() && random.percent(90) {
        question.host = random.pick(&rule.hosts).clone();
    }
}

/// As the member, or as somebody with the role that it names.
fn aim_at_user(random: &mut Random, member: &[u8], question: &mut Owned) {
    let role = match member.strip_prefix(roles::PREFIX) {
        Some(role) if random.percent(80) => role,
        None if random.percent(5) => member, // a role is no user
        _ => {
            question.user = member.to_vec();
            return;
        }
    };
    roles::put(random, role, &mut question.roles);
}

/// All good, some bad, or of any length and kind.
fn readings(random: &mut Random) -> (Vec<u8>, Vec<f64>) {
    match random.below(10) {
        0..=5 => (vec![2; LETTERS], all_good(random)),
        6..=7 => {
            let states = (0..LETTERS).map(|_| if random.percent(90) { 2 } else { state(random) }).collect();
            let values =
                (0..LETTERS).map(|_| if random.percent(90) { good(random) } else { value(random) }).collect();
            (states, values)
        }
        _ => {
            let (states, values) = (random.below(25), random.below(25));
            ((0..states).map(|_| state(random)).collect(), (0..values).map(|_| value(random)).collect())
        }
    }
}

/// Of all letters; now and then mostly zeros, or so great that their sums and
/// products are infinite.
pub fn all_good(random: &mut Random) -> Vec<f64> {
    let still = [0.0, 0.0, 0.0, -0.0, 1.0, 5e-324];
    let great = [f64::MAX, f64::MIN, 1e200, -1e200, 1e308, 1e-308, 1.0];
    let of = match random.below(6) {
        0 => &still[..],
        1 => &great[..],
        _ => return (0..LETTERS).map(|_| good(random)).collect(),
    };
    (0..LETTERS).map(|_| *random.pick(of)).collect()
}

fn state(random: &mut Random) -> u8 {
    match random.below(8) {
        0 => random.byte(),
        1 => *random.pick(&[1, 3, 254, 255]),
        2 | 3 => 0,
        _ => 2,
    }
}

/// A finite value, the next ones of 0.99, 1 and 1.01 among them.
pub fn good(random: &mut Random) -> f64 {
    let small = [0.0, 1.0, 0.25, 0.3, 0.5, 2.0, 3.0, -1.0, 0.99, 1.01, 0.1, 0.2, 100.0, -0.0];
    match random.below(10) {
        0..=5 => *random.pick(&small),
        6 | 7 => next_to(random, &[0.99, 1.0, 1.01, 0.3, 0.1]),
        8 => *random.pick(&[
            f64::MIN_POSITIVE,
            5e-324,
            -5e-324,
            f64::MAX,
            f64::MIN,
            1e-310,
            9007199254740993.0,
        ]),
        _ => Some(f64::from_bits(random.bits())).filter(|v| v.is_finite()).unwrap_or(1.0),
    }
}

fn next_to(random: &mut Random, values: &[f64]) -> f64 {
    let bits = random.pick(values).to_bits();
    f64::from_bits(bits - 2 + random.below(5) as u64)
}

/// Any binary64, not-a-numbers of both kinds too.
pub fn value(random: &mut Random) -> f64 {
    let bad = [f64::NAN, f64::INFINITY, f64::NEG_INFINITY, -f64::NAN, f64::from_bits(0x7ff0_0000_0000_0001)];
    match random.below(4) {
        0 => *random.pick(&bad),
        1 => f64::from_bits(random.bits()),
        _ => good(random),
    }
}
