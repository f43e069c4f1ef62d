//! The question: the decision, and the look-up of an input's name.

use crate::calculation::{bad_letter, holds, parse, Readings, Tree};
use crate::table::{is_table, Run, StoredRule, Text, View, ACCESS_GROUPS, UNDEFINED};
use crate::{LETTERS, ROLES, ROLE_BYTES};

#[derive(Clone, Copy, Debug, PartialEq, Eq, PartialOrd, Ord)]
pub enum Access {
    None,
    Read,
    Write,
}

#[derive(Clone, Copy, Debug, PartialEq, Eq)]
pub struct Answer {
    pub access: Access,
    pub trap: bool,
    /// The one that stopped the asker, A being 0.
    pub letter: Option<u8>,
}

/// A question without its table.
#[derive(Clone, Copy, Debug)]
pub struct Question<'a> {
    pub group: &'a [u8],
    pub user: &'a [u8],
    pub host: &'a [u8],
    pub roles: &'a [Vec<u8>],
    pub level: u32,
    pub readings: Readings,
}

pub const NOTHING: Answer = Answer { access: Access::None, trap: false, letter: None };

/// The answer, or refusal 20, 21 or 26.
pub fn decide(table: &[u8], question: &Question) -> Result<Answer, u8> {
    if !is_table(table) {
        return Err(20);
    }
    decide_checked(table, question)
}

/// The same for bytes that are a table.
pub fn decide_checked(table: &[u8], question: &Question) -> Result<Answer, u8> {
    if question.level > 1 {
        return Err(21);
    }
    if question.roles.len() > ROLES || question.roles.iter().any(|role| role.len() > ROLE_BYTES) {
        return Err(26);
    }
    let view = View::open(table).ok_or(20)?;
    let Some(group) = answering_group(&view, question.group) else { return Ok(NOTHING) };
    let (_, _, (first, count)) = view.access_group(group);
    let rules: Vec<StoredRule> = (first..first + count).map(|n| view.rule(n)).collect();
    let passing: Vec<&StoredRule> = rules.iter().filter(|rule| passes(&view, rule, question)).collect();
    let access = passing.iter().map(|rule| access_of(rule)).max().unwrap_or(Access::None);
    Ok(Answer {
        access,
        trap: passing.iter().find(|r| access_of(r) == Access::Write).is_some_and(|r| r.traps()),
        letter: rules.iter().filter(|r| access_of(r) > access).find_map(|r| stopped(&view, r, question)),
    })
}

/// Document 02's fifth request: the letter by which a rule's calculation is bad, if
/// the rule fails by nothing else.
fn stopped(view: &View, rule: &StoredRule, question: &Question) -> Option<u8> {
    let tree = calculation(view, rule).filter(|_| admits(view, rule, question))?;
    bad_letter(&tree, &question.readings)
}

fn access_of(rule: &StoredRule) -> Access {
    match rule.permission() {
        0 => Access::None,
        1 => Access::Read,
        _ => Access::Write,
    }
}

/// The first group of that name; an empty name is DEFAULT's.
pub(crate) fn named_group(view: &View, name: &[u8]) -> Option<usize> {
    let wanted = if name.is_empty() { b"DEFAULT" } else { name };
    (0..view.count(ACCESS_GROUPS)).find(|n| view.string(view.access_group(*n).0) == wanted)
}

/// An empty name goes to DEFAULT, any other to the first group of that name,
/// or to DEFAULT.
pub(crate) fn answering_group(view: &View, name: &[u8]) -> Option<usize> {
    named_group(view, name).or_else(|| named_group(view, b""))
}

fn passes(view: &View, rule: &StoredRule, question: &Question) -> bool {
    admits(view, rule, question) && calculation_holds(view, rule, question)
}

/// All but the calculation.
fn admits(view: &View, rule: &StoredRule, question: &Question) -> bool {
    let host = question.host.to_ascii_lowercase();
    !rule.is_switched_off()
        && question.level as usize <= rule.level()
        && has_member(view, rule.users, |n| view.user_group(n).1, |member| is_user(member, question))
        && has_member(view, rule.hosts, |n| view.host_group(n).1, |member| member == host)
}

/// Document 02's second request: `role/` and a role, else the user's name.
fn is_user(member: &[u8], question: &Question) -> bool {
    match member.strip_prefix(b"role/") {
        Some(wanted) => question.roles.iter().any(|role| role == wanted),
        None => member == question.user,
    }
}

/// One of the groups has such a member, or no groups are named.
fn has_member(
    view: &View,
    (first, count): Run,
    members: impl Fn(usize) -> Run,
    is_client: impl Fn(&[u8]) -> bool,
) -> bool {
    count == 0
        || (first..first + count).map(|n| view.reference(n).0).any(|group| {
            group != UNDEFINED.into() && {
                let (first, count) = members(group);
                (first..first + count).any(|n| is_client(view.string(view.member(n))))
            }
        })
}

fn calculation_holds(view: &View, rule: &StoredRule, question: &Question) -> bool {
    rule.calculation == (0, 0) || calculation(view, rule).is_some_and(|tree| holds(&tree, &question.readings))
}

/// The calculation of a rule that has one.
fn calculation(view: &View, rule: &StoredRule) -> Option<Tree> {
    parse(view.string(rule.calculation))
}

/// Where the name of a letter's first input stands, and its length; or
/// refusal 20 or 22.
pub fn find_input(table: &[u8], group: &[u8], letter: u32) -> Result<(usize, usize), u8> {
    if !is_table(table) {
        return Err(20);
    }
    if letter as usize >= LETTERS {
        return Err(22);
    }
    let view = View::open(table).ok_or(20)?;
    let group = answering_group(&view, group).ok_or(22)?;
    let name = first_input(&view, group, letter).ok_or(22)?;
    Ok((view.place(name), name.1))
}

/// The name of a letter's first input in a group.
pub(crate) fn first_input(view: &View, group: usize, letter: u32) -> Option<Text> {
    let (_, (first, count), _) = view.access_group(group);
    let mut inputs = (first..first + count).map(|n| view.input(n));
    inputs.find(|(l, _)| *l == letter as usize).map(|(_, name)| name)
}
