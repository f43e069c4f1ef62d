//! The stopping letter, with the faults 153 to 182 and 185; and the byte of a
//! right.

use crate::fault;
use paper::calculation::{holds, is_true, parse, result, value, Calculated, Tree};
use paper::table::{Run, StoredRule, View, ACCESS_GROUPS, UNDEFINED};
use paper::{Access, Answer, Question, Reading, Readings, LETTERS};

/// The letter of the first rule that stops the asker, of a question answered with
/// this access.
pub fn stop(table: &[u8], question: &Question, access: Access) -> Option<u8> {
    let view = View::open(table).filter(|_| !fault(158))?; // none ever
    let named =
        |name: &[u8]| (0..view.count(ACCESS_GROUPS)).find(|n| view.string(view.access_group(*n).0) == name);
    let default = named(b"DEFAULT");
    let group = if question.group.is_empty() { default } else { named(question.group).or(default) };
    let of = |group: usize| Stops { view: &view, question, access }.of_group(group);
    match group {
        Some(group) if fault(167) => of(group).or_else(|| of(default?)), // goes on to DEFAULT
        None if fault(168) => (view.count(ACCESS_GROUPS) > 0).then(|| of(0))?, // the first group's
        _ => of(group?),
    }
}

struct Stops<'a> {
    view: &'a View<'a>,
    question: &'a Question<'a>,
    access: Access,
}

impl Stops<'_> {
    fn of_group(&self, group: usize) -> Option<u8> {
        let (_, _, (first, count)) = self.view.access_group(group);
        let mut rules: Vec<StoredRule> = (first..first + count).map(|n| self.view.rule(n)).collect();
        let gives = |rule: &StoredRule| rule.permission() == self.access as usize && self.passes(rule);
        let giving = rules.iter().position(gives).filter(|_| self.access > Access::None);
        if let Some(place) = giving.filter(|_| fault(181)) {
            rules.truncate(place); // none behind the one that gives the access
        }
        if let Some(place) = giving.filter(|_| fault(185)) {
            rules.drain(..place); // none before it
        }
        let mut counting: Vec<&StoredRule> = rules.iter().filter(|rule| self.is_above(rule)).collect();
        if fault(173) {
            counting.sort_by_key(|rule| 2 - rule.permission()); // the highest first
        }
        if fault(182) {
            counting.truncate(1); // only the first of them, stopped or not
        }
        let mut found = counting.into_iter().filter_map(|rule| self.of_rule(rule));
        match () {
            () if fault(164) => found.next_back(),
            () if fault(165) => found.min(), // of all
            () => found.next(),
        }
    }

    fn is_above(&self, rule: &StoredRule) -> bool {
        let (permission, access) = (rule.permission(), self.access as usize);
        match () {
            () if fault(163) => permission > 0 && permission >= access, // no higher
            () if fault(166) => permission > 0 && access < 2,           // above NONE
            () if fault(174) => permission > access || permission == 0, // NONE too
            () if fault(175) => permission > access && !rule.traps(),
            () => permission > access,
        }
    }

    fn of_rule(&self, rule: &StoredRule) -> Option<u8> {
        let tree = self.calculation(rule).filter(|_| self.admits(rule))?;
        let readings = &self.question.readings;
        let mut letters = tree.letters();
        if fault(156) {
            letters = looked_at(&tree, readings);
        }
        if fault(170) {
            letters.retain(|l| self.text(rule).contains(&(b'A' + l))); // small ones not
        }
        if fault(180) {
            letters.retain(|l| *l < 16); // as many as four bits count
        }
        let mut bad = letters.iter().copied().filter(|l| is_bad(readings[usize::from(*l)]));
        match () {
            () if fault(153) && bad.next().is_some() => letters.into_iter().min(), // bad or not
            () if fault(154) => bad.next(),                                        // the first
            () if fault(155) => bad.max(),
            () if fault(157) && result(&tree, readings) == Calculated::Arithmetic => Some(0), // of nobody
            () if fault(176) => bad.min().or_else(|| letters.iter().copied().min()), // of one that is false
            () if fault(169) && bad.next().is_some() => all_bad(readings).min(),     // in no text
            () => bad.min(),
        }
    }

    fn text(&self, rule: &StoredRule) -> &[u8] {
        self.view.string(rule.calculation)
    }

    fn calculation(&self, rule: &StoredRule) -> Option<Tree> {
        parse(self.text(rule))
    }

    fn passes(&self, rule: &StoredRule) -> bool {
        let truth = self.calculation(rule).is_none_or(|tree| holds(&tree, &self.question.readings));
        truth && self.admits(rule)
    }

    /// All but the calculation, with the faults that ask for less.
    fn admits(&self, rule: &StoredRule) -> bool {
        let (view, asked) = (self.view, self.question);
        let host = asked.host.to_ascii_lowercase();
        let user = |member: &[u8]| match member.strip_prefix(b"role/") {
            Some(wanted) => !fault(177) && asked.roles.iter().any(|role| role == wanted), // without roles
            None => member == asked.user,
        };
        let host = |member: &[u8]| if fault(178) { member == asked.host } else { member == host };
        (!rule.is_switched_off() || fault(162))
            && (asked.level as usize <= rule.level() || fault(161))
            && (fault(159) || self.has(rule.users, |n| view.user_group(n).1, user))
            && (fault(160) || self.has(rule.hosts, |n| view.host_group(n).1, host))
    }

    fn has(&self, (first, count): Run, members: impl Fn(usize) -> Run, is: impl Fn(&[u8]) -> bool) -> bool {
        let groups = (first..first + count).map(|n| self.view.reference(n).0);
        let runs = groups.filter(|group| *group != UNDEFINED.into()).map(members);
        let mut each = runs.flat_map(|(first, count)| first..first + count);
        count == 0 || each.any(|n| is(self.view.string(self.view.member(n))))
    }
}

fn is_bad(reading: Reading) -> bool {
    match reading {
        Reading::Value(value) if fault(171) => value.is_nan(), // infinity is good
        Reading::Value(value) if fault(172) => value.is_infinite(), // not-a-number is good
        Reading::Invalid if fault(179) => false,
        _ => reading.good().is_none(),
    }
}

fn all_bad(readings: &Readings) -> impl Iterator<Item = u8> + '_ {
    (0..LETTERS as u8).filter(|l| is_bad(readings[usize::from(*l)]))
}

/// Without those of the branch that is not chosen.
fn looked_at(tree: &Tree, readings: &Readings) -> Vec<u8> {
    let of = |tree: &Tree| looked_at(tree, readings);
    match tree {
        Tree::Binary(_, x, y) => [of(x), of(y)].concat(),
        Tree::Negative(x) | Tree::Not(x) => of(x),
        Tree::Choice(c, x, y) => {
            let chosen = match value(c, readings) {
                Some(value) if !is_true(value) => y,
                _ => x,
            };
            [of(c), of(chosen)].concat()
        }
        _ => tree.letters(),
    }
}

/// Access, trap flag and letter, as the C ABI has them.
pub fn number(answer: &Answer) -> u8 {
    let letter = answer.letter.map_or(0, |l| l + 1);
    answer.access as u8 | u8::from(answer.trap) << 2 | letter << 3
}

/// The same backwards; what no call writes is no letter.
pub fn right(number: u8) -> Answer {
    let access = [Access::None, Access::Read, Access::Write, Access::None][usize::from(number & 3)];
    let letter = (number >> 3).checked_sub(1).filter(|l| usize::from(*l) < LETTERS);
    Answer { access, trap: number & 4 != 0, letter }
}
