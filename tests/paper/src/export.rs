//! Document 02's sixth request: a table written back as the text of a file.

use crate::table::{is_table, Run, StoredRule, Text, View, ACCESS_GROUPS, HOST_GROUPS, USER_GROUPS};
use crate::text::{tokens, Kind, Token};
use crate::{read_any_length, Refusal, CALCULATION_BYTES, MOST, NAME_BYTES};

/// No text is longer: as many of everything as a table has, each with a body, every
/// name and calculation as long as they may be. The first name of a list has no comma.
pub const TEXT_BYTES: usize = {
    let [users, hosts, members, access, inputs, rules, references, _] = MOST;
    let name = "\"\"".len() + NAME_BYTES;
    let listed = name + ",".len();
    let groups = (users + hosts) * ("UAG(){\n\n}\n".len() + name) + members * listed - (users + hosts);
    let heads = access * ("ASG(){\n}\n".len() + name) + inputs * ("INPA()\n".len() + name);
    let rule =
        "RULE(1,WRITE,NOTRAPWRITE){\nUAG()\nHAG()\nCALC(\"\")\nUNKNOWN()\n}\n".len() + CALCULATION_BYTES;
    groups + heads + rules * rule + references * listed - 2 * rules
};

/// Write a table's text at the start of a lent buffer; the answer is its length. Or
/// refusal 20, then 27, then 28, whose place is the bytes needed: nothing is written.
pub fn export(table: &[u8], lent: &mut [u8]) -> Result<usize, Refusal> {
    let text = text_of(table).map_err(|number| Refusal { number, place: 0 })?;
    let start = lent.get_mut(..text.len()).ok_or(Refusal { number: 28, place: text.len() })?;
    start.copy_from_slice(&text);
    Ok(text.len())
}

/// A table's text, of any length, or refusal 20, then 27.
pub fn text_of(table: &[u8]) -> Result<Vec<u8>, u8> {
    let view = View::open(table).filter(|_| is_table(table)).ok_or(20)?;
    let text = unjudged(&view);
    let can_be_quoted = view.named_strings().into_iter().all(|string| can_be_quoted(view.string(string)));
    if can_be_quoted && read_any_length(&text).is_ok() {
        Ok(text)
    } else {
        Err(27)
    }
}

/// Whether a string, put between quotes, is one STRING that says the same.
pub fn can_be_quoted(string: &[u8]) -> bool {
    let quoted = [b"\"", string, b"\""].concat();
    tokens(&quoted) == Ok(vec![Token { kind: Kind::String, place: 0, text: string }])
}

/// The sections in their order: user groups, host groups, access groups, each with
/// what belongs to it. Nobody has asked yet what its strings hold.
pub fn unjudged(view: &View) -> Vec<u8> {
    let mut text = Vec::new();
    for n in 0..view.count(USER_GROUPS) {
        text.extend(group(view, "UAG", view.user_group(n)));
    }
    for n in 0..view.count(HOST_GROUPS) {
        text.extend(group(view, "HAG", view.host_group(n)));
    }
    for n in 0..view.count(ACCESS_GROUPS) {
        text.extend(access_group(view, n));
    }
    text
}

/// A head, and the lines of its body between braces; without lines there are none.
fn with_body(mut head: Vec<u8>, lines: &[u8]) -> Vec<u8> {
    if lines.is_empty() {
        head.extend(b"\n");
        return head;
    }
    head.extend(b"{\n");
    head.extend(lines);
    head.extend(b"}\n");
    head
}

/// `"a","b"`
fn quoted(view: &View, names: &[Text]) -> Vec<u8> {
    let each: Vec<Vec<u8>> = names.iter().map(|name| [b"\"", view.string(*name), b"\""].concat()).collect();
    each.join(&b","[..])
}

/// `WORD("a","b")`
fn called(view: &View, word: &str, names: &[Text]) -> Vec<u8> {
    [word.as_bytes(), b"(", &quoted(view, names), b")"].concat()
}

/// The same on a line of its own, if there are any names.
fn line(view: &View, word: &str, names: &[Text]) -> Vec<u8> {
    let mut line = Vec::new();
    if !names.is_empty() {
        line.extend(called(view, word, names));
        line.extend(b"\n");
    }
    line
}

fn group(view: &View, word: &str, (name, (first, count)): (Text, Run)) -> Vec<u8> {
    let members: Vec<Text> = (first..first + count).map(|n| view.member(n)).collect();
    let mut lines = quoted(view, &members);
    if count > 0 {
        lines.extend(b"\n");
    }
    with_body(called(view, word, &[name]), &lines)
}

fn access_group(view: &View, n: usize) -> Vec<u8> {
    let (name, (first_input, inputs), (first_rule, rules)) = view.access_group(n);
    let mut lines = Vec::new();
    for n in first_input..first_input + inputs {
        let (letter, name) = view.input(n);
        let word = format!("INP{}", char::from(b'A' + letter as u8));
        lines.extend(line(view, &word, &[name]));
    }
    for n in first_rule..first_rule + rules {
        lines.extend(rule(view, &view.rule(n)));
    }
    with_body(called(view, "ASG", &[name]), &lines)
}

/// References by their names: the numbers say nothing.
fn rule(view: &View, rule: &StoredRule) -> Vec<u8> {
    let names =
        |(first, count): Run| -> Vec<Text> { (first..first + count).map(|n| view.reference(n).1).collect() };
    let permission = ["NONE", "READ", "WRITE"][rule.permission()];
    let log = if rule.traps() { "TRAPWRITE" } else { "NOTRAPWRITE" };
    let head = format!("RULE({},{permission},{log})", rule.level());
    let calculation = Some(rule.calculation).filter(|text| *text != (0, 0));
    let mut lines = line(view, "UAG", &names(rule.users));
    lines.extend(line(view, "HAG", &names(rule.hosts)));
    lines.extend(line(view, "CALC", calculation.as_slice()));
    if rule.is_switched_off() {
        lines.extend(b"UNKNOWN()\n");
    }
    with_body(head.into_bytes(), &lines)
}
