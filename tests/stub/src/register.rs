//! The register over `paper` in lent bytes, with the faults 45 to 83, 103, 123, 146,
//! 186 to 194 and 220 to 226. A place's record is laid out as this stub likes: taken, right, level,
//! the three lengths, the three names; with the last of these faults the first record has a
//! sum of the table in force too.

use crate::arithmetic::judged;
use crate::fault;
use crate::groups::taken;
use crate::letters::{number, right, stop};
use paper::question::NOTHING;
use paper::register::{changed, Rights};
use paper::table::{View, ACCESS_GROUPS};
use paper::{Access, Answer, Client, Question, Reading, Refusal, Register, LETTERS, NAME_BYTES, PLACES};

const RECORD: usize = 448;
const SUM: usize = 400;
const READINGS: usize = 64 * LETTERS;

/// What is lent of a register to one call.
pub struct Lent<'a> {
    pub places: &'a mut [u8],
    pub states: Option<&'a mut [u8]>,
    pub values: Option<&'a mut [f64]>,
    pub changed: &'a mut [u64],
}

impl Lent<'_> {
    /// A slice that is too short is no register.
    fn fits(&self) -> bool {
        let states = self.states.as_ref().is_none_or(|s| s.len() >= READINGS);
        let values = self.values.as_ref().is_none_or(|v| v.len() >= READINGS || fault(66));
        self.places.len() >= PLACES * RECORD && states && values
    }

    fn register(&self) -> Register {
        let states = self.states.as_deref().unwrap_or(&[]);
        let values = self.values.as_deref().unwrap_or(&[]);
        let reading = |i: usize| match states.get(i) {
            None | Some(0) => Reading::NeverHeard,
            Some(2) => values.get(i).map_or(Reading::Invalid, |v| Reading::Value(*v)),
            Some(_) => Reading::Invalid,
        };
        Register {
            clients: self.places.chunks_exact(RECORD).take(PLACES).map(client).collect(),
            readings: (0..64).map(|g| std::array::from_fn(|l| reading(g * LETTERS + l))).collect(),
        }
    }

    fn rights(&self) -> Rights {
        std::array::from_fn(|place| right(self.places[place * RECORD + 1]))
    }

    fn put_clients(&mut self, register: &Register) {
        for (record, client) in self.places.chunks_exact_mut(RECORD).zip(&register.clients) {
            let right = record[1];
            record[..SUM].fill(0);
            record[1] = right;
            if let Some(c) = client {
                let names = [&c.group, &c.user, &c.host];
                (record[0], record[2]) = (1, c.level as u8);
                for (i, name) in names.into_iter().enumerate() {
                    record[3 + i] = name.len() as u8;
                    let at = 6 + i * NAME_BYTES;
                    record[at..at + name.len()].copy_from_slice(name);
                }
            }
        }
    }

    fn put_readings(&mut self, register: &Register) {
        let states = self.states.as_deref_mut().unwrap_or(&mut []);
        let values = self.values.as_deref_mut().unwrap_or(&mut []);
        for (i, reading) in register.readings.iter().flatten().enumerate() {
            let (state, value) = match reading {
                Reading::NeverHeard => (0, None),
                Reading::Invalid => (1, None),
                Reading::Value(value) => (2, Some(*value)),
            };
            let kept = states[i] > 2 && state == 1;
            states[i] = if kept { states[i] } else { state };
            if let (Some(to), Some(value)) = (values.get_mut(i), value) {
                *to = value;
            }
        }
    }

    /// The rights after a call, and the bits of those that are others.
    fn put_rights(&mut self, after: &Rights) {
        let before = self.rights();
        for (place, answer) in after.iter().enumerate() {
            self.places[place * RECORD + 1] = number(answer);
        }
        let plain = |rights: &Rights| rights.map(|a| Answer { trap: false, ..a });
        let bits = match () {
            () if fault(53) => u64::MAX,
            () if fault(54) => 0,
            () if fault(83) => changed(&before.map(known), after), // a damaged right not told
            () if fault(55) => changed(&plain(&before), &plain(after)), // the trap flag not looked at
            () if fault(186) => changed(&silent(&before), &silent(after)), // the letter not looked at
            () => changed(&before, after),
        };
        if let Some(word) = self.changed.first_mut() {
            *word = bits;
        } else if fault(74) {
            // SAFETY: the tests lend a part of an array that goes on.
            unsafe { *self.changed.as_mut_ptr() = bits };
        }
        if fault(67) && self.places.len() > PLACES * RECORD {
            self.places[PLACES * RECORD] ^= 1; // behind the register
        }
    }

    /// With the faults of a second room, the table in force.
    fn remember(&mut self, table: &[u8]) {
        if (220..=226).any(fault) {
            self.places[SUM..SUM + 8].copy_from_slice(&sum(table).to_le_bytes());
        }
    }

    /// Whether a room holds another table than the one in force, where that is known.
    fn is_another(&self, room: &[u8]) -> bool {
        let known = &self.places[SUM..SUM + 8];
        known != [0; 8] && known != sum(room).to_le_bytes()
    }

    fn refused(&mut self, number: u8) -> u64 {
        if fault(64) && self.places.len() > 5 {
            self.places[5] ^= 1; // a refused call writes
        }
        if let Some(word) = self.changed.first_mut().filter(|_| fault(65)) {
            *word = 0;
        }
        u64::from(number) << 48
    }
}

/// Of a table's own bytes; of no table it is 1.
fn sum(table: &[u8]) -> u64 {
    let stored = table.get(2..4).map_or(0, |w| usize::from(u16::from_le_bytes([w[0], w[1]])));
    let bytes = if paper::is_table(table) { &table[..stored] } else { &[] };
    bytes.iter().fold(1, |sum: u64, byte| sum.wrapping_mul(257).wrapping_add(u64::from(*byte) + 1))
}

/// Bytes that no call has written are no client.
fn client(record: &[u8]) -> Option<Client> {
    let name = |i: usize| record[6 + i * NAME_BYTES..][..record[3 + i].into()].to_vec();
    let level = record[2].into();
    let whole = level < 2 && record[3..6].iter().all(|length| usize::from(*length) <= NAME_BYTES);
    (record[0] == 1 && whole).then(|| Client { group: name(0), user: name(1), host: name(2), level })
}

/// No call gives NONE with trap.
fn known(answer: Answer) -> Answer {
    Answer { trap: answer.trap && answer.access > Access::None, ..answer }
}

/// The rights by `paper`; with fault 63 a client of an undefined group does not
/// go by DEFAULT's readings.
fn rights(register: &Register, table: &[u8]) -> Rights {
    if !paper::is_table(table) {
        return [NOTHING; PLACES];
    }
    let by_result = fault(113) || fault(123);
    let mut rights = register.rights(&judged(table, by_result, |group| register.readings[group]));
    for (client, right) in register.clients.iter().zip(&mut rights).filter(|_| !fault(192)) {
        let asked = client.as_ref().map(|client| question(register, table, client));
        right.letter = asked.and_then(|question| stop(table, &question, right.access));
    }
    if fault(63) {
        let mut deaf = register.clone();
        deaf.readings.fill([Reading::NeverHeard; LETTERS]);
        let without = deaf.rights(table);
        for (place, client) in register.clients.iter().enumerate() {
            if client.as_ref().is_some_and(|c| !c.group.is_empty() && !is_defined(table, &c.group)) {
                rights[place] = without[place];
            }
        }
    }
    if fault(103) {
        give_roles(register, table, &mut rights);
    }
    rights
}

/// A client has the role that its name says.
fn give_roles(register: &Register, table: &[u8], rights: &mut Rights) {
    for (client, right) in register.clients.iter().zip(rights) {
        if let Some(client) = client.as_ref().filter(|c| c.user.starts_with(b"role/")) {
            *right = with_role(register, table, client);
        }
    }
}

fn with_role(register: &Register, table: &[u8], client: &Client) -> Answer {
    let roles = [client.user[5..].to_vec()];
    let question = Question { roles: &roles, ..question(register, table, client) };
    paper::decide_checked(table, &question).unwrap_or(NOTHING)
}

/// The question of a client, with the readings of the group that answers.
fn question<'a>(register: &Register, table: &[u8], client: &'a Client) -> Question<'a> {
    let own = defined(table, &client.group).filter(|_| !client.group.is_empty());
    let group = own.or_else(|| defined(table, b"DEFAULT")).map(|number| if fault(194) { 0 } else { number });
    Question {
        group: &client.group,
        user: &client.user,
        host: &client.host,
        roles: &[],
        level: client.level,
        readings: group.map_or([Reading::NeverHeard; LETTERS], |number| register.readings[number]),
    }
}

/// Without letters.
fn silent(rights: &Rights) -> Rights {
    rights.map(|right| Answer { letter: None, ..right })
}

/// Rights with the letters of others.
fn stale(mut rights: Rights, before: &Rights) -> Rights {
    rights.iter_mut().zip(before).for_each(|(right, old)| right.letter = old.letter);
    rights
}

/// The number of the first group of that name.
fn defined(table: &[u8], group: &[u8]) -> Option<usize> {
    let view = View::open(table).filter(|_| paper::is_table(table))?;
    (0..view.count(ACCESS_GROUPS)).find(|n| view.string(view.access_group(*n).0) == group)
}

fn is_defined(table: &[u8], group: &[u8]) -> bool {
    defined(table, group).is_some()
}

/// A client as it is given, with the faults that misread it.
pub fn given(group: &[u8], user: &[u8], host: &[u8], level: u32) -> Client {
    let level = if fault(61) { level % 256 } else { level };
    let mut client = Client { group: group.to_vec(), user: user.to_vec(), host: host.to_vec(), level };
    if fault(58) && client.user.len() == NAME_BYTES {
        client.user.push(b'x'); // the longest name refused
    }
    if fault(77) && client.group.len() > NAME_BYTES {
        client.group.truncate(NAME_BYTES); // the group's name cut
    }
    client
}

pub fn add(lent: &mut Lent, table: &[u8], client: &Client) -> u64 {
    if !lent.fits() {
        return lent.refused(34);
    }
    if fault(72) && !paper::is_table(table) {
        return lent.refused(20); // asks for a table
    }
    if fault(59) && client.level > 1 {
        return lent.refused(21); // 21 before 23
    }
    let mut register = lent.register();
    let place = match register.add(client) {
        Ok(place) => other_place(&mut register, place),
        Err(number) => return lent.refused(number),
    };
    let mut after = rights(&register, table);
    if fault(76) {
        after = lent.rights(); // the new client's right not made
    }
    if fault(191) {
        after = stale(after, &lent.rights());
    }
    lent.put_clients(&register);
    lent.put_rights(&after);
    lent.remember(table);
    place as u64
}

/// The place taken; a fault moves the client to another free one.
fn other_place(register: &mut Register, place: usize) -> usize {
    let free = |p: &usize| register.clients[*p].is_none();
    let last = register.clients.iter().enumerate().rposition(|(p, c)| p != place && c.is_some());
    let to = match () {
        () if fault(52) => (0..PLACES).rev().find(free), // the highest
        () if fault(75) => last.map(|p| p + 1).filter(|p| *p < PLACES && free(p)), // behind the last
        () => None,
    };
    let to = to.unwrap_or(place);
    register.clients.swap(place, to);
    to
}

pub fn change(lent: &mut Lent, table: &[u8], place: usize, client: &Client) -> u64 {
    if !lent.fits() {
        return lent.refused(34);
    }
    if fault(60) && client.user.len() > NAME_BYTES {
        return lent.refused(23); // 23 before 25
    }
    let mut register = lent.register();
    let host = register.clients.get(place).and_then(|c| Some(c.as_ref()?.host.clone()));
    if let Err(number) = register.change(place, client) {
        return lent.refused(number);
    }
    if let (true, Some(Some(client)), Some(host)) = (fault(73), register.clients.get_mut(place), host) {
        client.host = host; // the host stays as it was
    }
    let mut after = if fault(46) { lent.rights() } else { rights(&register, table) };
    if fault(190) {
        after = stale(after, &lent.rights());
    }
    lent.put_clients(&register);
    lent.put_rights(&after);
    lent.remember(table);
    0
}

pub fn remove(lent: &mut Lent, place: usize) -> u64 {
    if !lent.fits() {
        return lent.refused(34);
    }
    let mut register = lent.register();
    if let Err(number) = register.remove(place) {
        return lent.refused(number);
    }
    let mut after = lent.rights();
    if !fault(49) {
        after[place] = if fault(189) { stale([NOTHING; PLACES], &after)[place] } else { NOTHING };
    }
    lent.put_clients(&register);
    lent.put_rights(&after);
    0
}

/// One reading, with the faults that set it elsewhere.
fn set_reading(
    r: &mut Register,
    table: &[u8],
    group: &[u8],
    letter: u32,
    reading: Reading,
) -> Result<(), u8> {
    let letter = if fault(62) { letter % 256 } else { letter };
    if fault(71) && matches!(reading, Reading::NeverHeard) {
        return r.clone().set(table, group, letter, reading); // never heard is not set
    }
    let mut done = r.set(table, group, letter, reading);
    if fault(81) && group.is_empty() && is_defined(table, b"") {
        let view = View::open(table).expect("it is a table");
        let named = |n: &usize| view.string(view.access_group(*n).0).is_empty();
        let empty = (0..view.count(ACCESS_GROUPS)).find(named).expect("it is defined");
        r.readings[empty][letter as usize % LETTERS] = reading; // the ASG "" hears it
    }
    if fault(56) && done == Err(22) {
        done = r.set(table, b"", letter, reading); // goes on to DEFAULT
    }
    if fault(69) && done == Err(22) && letter < LETTERS as u32 {
        done = Ok(()); // a letter without input
    }
    if fault(48) && done.is_ok() {
        r.readings.iter_mut().for_each(|group| group[letter as usize] = reading);
    }
    if fault(78) && done.is_ok() && letter as usize == LETTERS - 1 {
        r.readings[0][0] = reading; // the last letter's goes elsewhere too
    }
    done
}

pub fn set(lent: &mut Lent, table: &[u8], group: &[u8], letter: u32, reading: Reading, checked: bool) -> u64 {
    if !lent.fits() {
        return lent.refused(34);
    }
    if fault(57) && letter as usize >= LETTERS {
        return lent.refused(22); // 22 before 20
    }
    let mut register = lent.register();
    if let Err(number) = set_reading(&mut register, table, group, letter, reading) {
        return lent.refused(number);
    }
    let old = fault(45) || fault(70) && checked;
    let mut after = if old { lent.rights() } else { rights(&register, table) };
    if fault(187) {
        after = stale(after, &lent.rights());
    }
    lent.put_readings(&register);
    lent.put_rights(&after);
    lent.remember(table);
    0
}

/// What stood in the room before a load: whether another table than the one in
/// force, and the rights by it.
struct Stood {
    another: bool,
    rights: Rights,
}

pub fn reload(lent: &mut Lent, text: &[u8], table: &mut [u8]) -> u64 {
    if !lent.fits() {
        return lent.refused(34);
    }
    let mut register = lent.register();
    let stood = Stood { another: lent.is_another(table), rights: rights(&register, table) };
    if stood.another && fault(220) {
        return lent.refused(11); // no other room
    }
    let loaded = match register.load(text, table) {
        Err(Refusal { number: 12, .. }) if fault(146) => taken(text, table), // groups not asked for
        other => other,
    };
    match loaded {
        Ok(loaded) => {
            reloaded(lent, &register, table, &stood);
            loaded.length as u64 | (loaded.warnings as u64) << 32
        }
        Err(Refusal { number, place }) => {
            if fault(51) || stood.another && fault(225) {
                lent.put_readings(&Register::empty()); // lost by a refused load
            }
            if fault(68) && number == 11 {
                lent.put_rights(&[NOTHING; PLACES]);
            }
            if stood.another && fault(226) {
                lent.put_rights(&stood.rights); // by what stands in this room
            }
            lent.refused(number) | place as u64
        }
    }
}

fn reloaded(lent: &mut Lent, register: &Register, table: &[u8], stood: &Stood) {
    let elsewhere = |number: u32| stood.another && fault(number);
    let old = fault(47) || elsewhere(221); // by the table before
    let mut after = if old { lent.rights() } else { rights(register, table) };
    if fault(188) {
        after = stale(after, &lent.rights());
    }
    let kept = fault(50) || elsewhere(222);
    if !kept {
        lent.put_readings(register);
    }
    if elsewhere(223) {
        lent.put_clients(&Register::empty()); // all are gone
        after = [NOTHING; PLACES];
    }
    lent.put_rights(&after);
    if let Some(word) = lent.changed.first_mut().filter(|_| elsewhere(224)) {
        *word = changed(&stood.rights, &after); // beside what stood in this room
    }
    lent.remember(table);
}

pub fn right_at(places: &[u8], place: usize) -> u8 {
    let place = if fault(79) { place % 256 } else { place };
    if places.len() < PLACES * RECORD && !fault(80) || place >= PLACES {
        return 0;
    }
    let stored = places.get(place * RECORD + 1).copied().unwrap_or(0);
    if fault(82) {
        return stored; // of damaged bytes no right at all
    }
    let letter = if fault(193) { stored & 0xf8 } else { 0 }; // nor a letter
    number(&right(stored)) | letter
}
