//! The stored table: the bytes that a load writes, and the check of a slice.

use crate::calculation;
use crate::file::{level_value, log_value, permission_value, File, Group, Rule};
use crate::text::Token;
use crate::{CALCULATION_BYTES, LETTERS, MOST, NAME_BYTES};

pub const HEADER_BYTES: usize = 36;

/// Words of a record in sections 1 to 7. Section 8 is bytes.
pub const WIDTHS: [usize; 7] = [4, 4, 2, 6, 3, 7, 3];

/// A reference to a group that is not defined: a table may have it, though no
/// accepted file writes it.
pub const UNDEFINED: u16 = 65_535;

/// Sections by their place in the header.
pub const USER_GROUPS: usize = 0;
pub const HOST_GROUPS: usize = 1;
pub const MEMBERS: usize = 2;
pub const ACCESS_GROUPS: usize = 3;
pub const INPUTS: usize = 4;
pub const RULES: usize = 5;
pub const REFERENCES: usize = 6;
pub const STRINGS: usize = 7;

/// The table of a file that is not refused.
pub fn bytes(file: &File) -> Vec<u8> {
    let (users, hosts) = (file.user_groups(), file.host_groups());
    let mut writer = Writer::default();
    writer.name_groups(&users, &hosts);
    writer.members(&users, &hosts);
    writer.access_groups(file);
    writer.inputs(file);
    writer.references(&file.rules(), &users, &hosts);
    writer.rules(&file.rules());
    writer.finish()
}

/// The records of each section as words, and the strings so far.
#[derive(Default)]
struct Writer {
    sections: [Vec<u16>; 7],
    strings: Vec<u8>,
}

impl Writer {
    /// Append a string; the answer is its two words.
    fn string(&mut self, text: &[u8]) -> [u16; 2] {
        let offset = self.strings.len() as u16;
        self.strings.extend(text);
        [offset, text.len() as u16]
    }

    fn record(&mut self, section: usize, words: &[u16]) {
        assert_eq!(words.len(), WIDTHS[section]);
        self.sections[section].extend(words);
    }

    /// Sections 1 and 2. Members are numbered through, users first.
    fn name_groups(&mut self, users: &[&Group], hosts: &[&Group]) {
        let mut first = 0;
        for (section, groups) in [(USER_GROUPS, users), (HOST_GROUPS, hosts)] {
            for group in groups {
                let [offset, length] = self.string(group.name.text);
                let count = group.members.len() as u16;
                self.record(section, &[offset, length, first, count]);
                first += count;
            }
        }
    }

    /// Section 3, hosts in lower case.
    fn members(&mut self, users: &[&Group], hosts: &[&Group]) {
        for member in users.iter().flat_map(|g| &g.members) {
            let name = self.string(member.text);
            self.record(MEMBERS, &name);
        }
        for member in hosts.iter().flat_map(|g| &g.members) {
            let name = self.string(&member.text.to_ascii_lowercase());
            self.record(MEMBERS, &name);
        }
    }

    /// Section 4.
    fn access_groups(&mut self, file: &File) {
        let (mut input, mut rule) = (0, 0);
        for group in file.access_groups() {
            let [offset, length] = self.string(group.name.text);
            let (inputs, rules) = (group.inputs.len() as u16, group.rules.len() as u16);
            self.record(ACCESS_GROUPS, &[offset, length, input, inputs, rule, rules]);
            input += inputs;
            rule += rules;
        }
    }

    /// Section 5.
    fn inputs(&mut self, file: &File) {
        for input in file.access_groups().into_iter().flat_map(|g| &g.inputs) {
            let [offset, length] = self.string(input.name.text);
            self.record(INPUTS, &[input.letter.into(), offset, length]);
        }
    }

    /// Section 7. Its strings stand before the calculations.
    fn references(&mut self, rules: &[&Rule], users: &[&Group], hosts: &[&Group]) {
        for rule in rules {
            for name in rule.users() {
                self.reference(name, users);
            }
            for name in rule.hosts() {
                self.reference(name, hosts);
            }
        }
    }

    fn reference(&mut self, name: Token, groups: &[&Group]) {
        let number = groups.iter().position(|g| g.name.text == name.text);
        let [offset, length] = self.string(name.text);
        self.record(REFERENCES, &[number.map_or(UNDEFINED, |n| n as u16), offset, length]);
    }

    /// Section 6.
    fn rules(&mut self, rules: &[&Rule]) {
        let mut first = 0;
        for rule in rules {
            let (users, hosts) = (rule.users().len() as u16, rule.hosts().len() as u16);
            let [offset, length] = match rule.calculation() {
                Some(text) => self.string(text),
                None => [0, 0],
            };
            let flags = flags(rule);
            self.record(RULES, &[flags, first, users, first + users, hosts, offset, length]);
            first += users + hosts;
        }
    }

    /// Header, sections, strings.
    fn finish(self) -> Vec<u8> {
        let mut counts: Vec<usize> = self.sections.iter().zip(WIDTHS).map(|(s, w)| s.len() / w).collect();
        counts.push(self.strings.len());
        let mut offset = HEADER_BYTES;
        let mut pairs = Vec::new();
        for (section, count) in counts.into_iter().enumerate() {
            pairs.extend([count as u16, offset as u16]);
            offset += count * record_bytes(section);
        }
        let mut table = Vec::with_capacity(offset);
        push_words(&mut table, &[1, offset as u16]);
        push_words(&mut table, &pairs);
        for section in &self.sections {
            push_words(&mut table, section);
        }
        table.extend(self.strings);
        table
    }
}

fn push_words(table: &mut Vec<u8>, words: &[u16]) {
    table.extend(words.iter().flat_map(|w| w.to_le_bytes()));
}

fn record_bytes(section: usize) -> usize {
    WIDTHS.get(section).map_or(1, |width| 2 * width)
}

/// Bit 0 level, 1 and 2 permission, 3 trap, 4 switched off.
fn flags(rule: &Rule) -> u16 {
    let level = level_value(rule.level.text).unwrap_or(0);
    let permission = permission_value(rule.permission.text).unwrap_or(0);
    let trap = rule.log.and_then(|t| log_value(t.text)).unwrap_or(0);
    level | permission << 1 | trap << 3 | u16::from(rule.is_switched_off()) << 4
}

/// The little-endian word at a byte, if it lies in the slice.
fn word(slice: &[u8], at: usize) -> Option<u16> {
    let pair = slice.get(at..at + 2)?;
    Some(u16::from_le_bytes([pair[0], pair[1]]))
}

/// A part of the strings: offset and length.
pub type Text = (usize, usize);

/// A run of records: first and count.
pub type Run = (usize, usize);

/// A table laid open.
pub struct View<'a> {
    slice: &'a [u8],
    counts: [usize; 8],
    offsets: [usize; 8],
}

impl<'a> View<'a> {
    /// Form, counts, and the sections without gaps up to the length.
    pub fn open(slice: &'a [u8]) -> Option<View<'a>> {
        let mut view = View { slice, counts: [0; 8], offsets: [0; 8] };
        let mut offset = HEADER_BYTES;
        for (section, most) in MOST.into_iter().enumerate() {
            view.counts[section] = word(slice, 4 + 4 * section)? as usize;
            view.offsets[section] = word(slice, 6 + 4 * section)? as usize;
            if view.counts[section] > most || view.offsets[section] != offset {
                return None;
            }
            offset += view.counts[section] * record_bytes(section);
        }
        let fits = word(slice, 0)? == 1 && word(slice, 2)? as usize == offset && offset <= slice.len();
        fits.then_some(view)
    }

    pub fn count(&self, section: usize) -> usize {
        self.counts[section]
    }

    /// A word of a record. Asked only of records and words that exist.
    fn get(&self, section: usize, record: usize, index: usize) -> usize {
        let at = self.offsets[section] + record * record_bytes(section) + 2 * index;
        word(self.slice, at).expect("the sections lie in the slice").into()
    }

    fn pair(&self, section: usize, record: usize, index: usize) -> (usize, usize) {
        (self.get(section, record, index), self.get(section, record, index + 1))
    }

    pub fn user_group(&self, n: usize) -> (Text, Run) {
        (self.pair(USER_GROUPS, n, 0), self.pair(USER_GROUPS, n, 2))
    }

    pub fn host_group(&self, n: usize) -> (Text, Run) {
        (self.pair(HOST_GROUPS, n, 0), self.pair(HOST_GROUPS, n, 2))
    }

    pub fn member(&self, n: usize) -> Text {
        self.pair(MEMBERS, n, 0)
    }

    pub fn access_group(&self, n: usize) -> (Text, Run, Run) {
        (self.pair(ACCESS_GROUPS, n, 0), self.pair(ACCESS_GROUPS, n, 2), self.pair(ACCESS_GROUPS, n, 4))
    }

    pub fn input(&self, n: usize) -> (usize, Text) {
        (self.get(INPUTS, n, 0), self.pair(INPUTS, n, 1))
    }

    pub fn rule(&self, n: usize) -> StoredRule {
        StoredRule {
            flags: self.get(RULES, n, 0),
            users: self.pair(RULES, n, 1),
            hosts: self.pair(RULES, n, 3),
            calculation: self.pair(RULES, n, 5),
        }
    }

    pub fn reference(&self, n: usize) -> (usize, Text) {
        (self.get(REFERENCES, n, 0), self.pair(REFERENCES, n, 1))
    }

    /// Whether some reference is to a group that is not defined.
    pub fn has_undefined(&self) -> bool {
        (0..self.count(REFERENCES)).any(|n| self.reference(n).0 == UNDEFINED.into())
    }

    /// Where a string stands in the slice.
    pub fn place(&self, text: Text) -> usize {
        self.offsets[STRINGS] + text.0
    }

    pub fn string(&self, text: Text) -> &'a [u8] {
        let start = self.place(text);
        &self.slice[start..start + text.1]
    }

    fn holds_string(&self, (offset, length): Text, most: usize) -> bool {
        length <= most && offset + length <= self.counts[STRINGS]
    }

    fn holds_name(&self, text: Text) -> bool {
        self.holds_string(text, NAME_BYTES)
    }

    fn names(&self) -> Vec<Text> {
        let mut names = Vec::new();
        names.extend((0..self.count(USER_GROUPS)).map(|n| self.user_group(n).0));
        names.extend((0..self.count(HOST_GROUPS)).map(|n| self.host_group(n).0));
        names.extend((0..self.count(MEMBERS)).map(|n| self.member(n)));
        names.extend((0..self.count(ACCESS_GROUPS)).map(|n| self.access_group(n).0));
        names.extend((0..self.count(INPUTS)).map(|n| self.input(n).1));
        names.extend((0..self.count(REFERENCES)).map(|n| self.reference(n).1));
        names
    }

    /// The strings that records name.
    pub fn named_strings(&self) -> Vec<Text> {
        let calculations = self.rules().into_iter().map(|rule| rule.calculation);
        self.names().into_iter().chain(calculations).collect()
    }

    fn rules(&self) -> Vec<StoredRule> {
        (0..self.count(RULES)).map(|n| self.rule(n)).collect()
    }

    /// Runs of each kind follow each other and use up their section.
    fn runs_fit(&self) -> bool {
        let mut members = Vec::new();
        members.extend((0..self.count(USER_GROUPS)).map(|n| self.user_group(n).1));
        members.extend((0..self.count(HOST_GROUPS)).map(|n| self.host_group(n).1));
        let groups: Vec<_> = (0..self.count(ACCESS_GROUPS)).map(|n| self.access_group(n)).collect();
        let inputs: Vec<Run> = groups.iter().map(|g| g.1).collect();
        let rules: Vec<Run> = groups.iter().map(|g| g.2).collect();
        let references: Vec<Run> = self.rules().iter().flat_map(|r| [r.users, r.hosts]).collect();
        use_up(&members, self.count(MEMBERS))
            && use_up(&inputs, self.count(INPUTS))
            && use_up(&rules, self.count(RULES))
            && use_up(&references, self.count(REFERENCES))
    }

    fn references_fit(&self) -> bool {
        let within = |(first, count): Run, groups: usize| {
            (first..first + count).all(|n| {
                let number = self.reference(n).0;
                number == UNDEFINED.into() || number < groups
            })
        };
        self.rules().iter().all(|rule| {
            within(rule.users, self.count(USER_GROUPS)) && within(rule.hosts, self.count(HOST_GROUPS))
        })
    }

    fn calculation_fits(&self, text: Text) -> bool {
        text == (0, 0)
            || self.holds_string(text, CALCULATION_BYTES) && calculation::allowed(self.string(text))
    }

    fn rule_fits(&self, rule: &StoredRule) -> bool {
        rule.flags < 32 && rule.permission() <= 2 && self.calculation_fits(rule.calculation)
    }
}

/// A rule of a table.
pub struct StoredRule {
    pub flags: usize,
    pub users: Run,
    pub hosts: Run,
    pub calculation: Text,
}

impl StoredRule {
    pub fn level(&self) -> usize {
        self.flags & 1
    }

    pub fn permission(&self) -> usize {
        self.flags >> 1 & 3
    }

    pub fn traps(&self) -> bool {
        self.flags >> 3 & 1 == 1
    }

    pub fn is_switched_off(&self) -> bool {
        self.flags >> 4 & 1 == 1
    }
}

/// Without gap or overlap, from 0 up to the section's count.
fn use_up(runs: &[Run], count: usize) -> bool {
    let mut next = 0;
    for (first, length) in runs {
        if *first != next {
            return false;
        }
        next += length;
    }
    next == count
}

/// Whether a slice is a table.
pub fn is_table(slice: &[u8]) -> bool {
    let Some(view) = View::open(slice) else { return false };
    view.runs_fit()
        && view.names().into_iter().all(|name| view.holds_name(name))
        && (0..view.count(INPUTS)).all(|n| view.input(n).0 < LETTERS)
        && view.rules().iter().all(|rule| view.rule_fits(rule))
        && view.references_fit()
}
