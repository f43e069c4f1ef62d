//! Calls on a register as values, and as the lines of a script.

use crate::calculation::Reading;
use crate::question::{Access, Answer};
use crate::register::{Client, Register, Rights};
use crate::{Loaded, Refusal};

#[derive(Clone, Debug)]
pub enum Call {
    Load(Vec<u8>),
    Add(Client),
    Change(usize, Client),
    Remove(usize),
    Set(Vec<u8>, u32, Reading),
}

/// What a call that is not refused says.
#[derive(Clone, Copy, Debug, PartialEq, Eq)]
pub enum Done {
    Loaded(Loaded),
    At(usize),
    Nothing,
}

impl Register {
    /// A refusal has a place only if it is a load's.
    pub fn call(&mut self, table: &mut [u8], call: &Call) -> Result<Done, Refusal> {
        let done = match call {
            Call::Load(text) => return self.load(text, table).map(Done::Loaded),
            Call::Add(client) => self.add(client).map(Done::At),
            Call::Change(place, client) => self.change(*place, client).map(|()| Done::Nothing),
            Call::Remove(place) => self.remove(*place).map(|()| Done::Nothing),
            Call::Set(group, letter, r) => self.set(table, group, *letter, *r).map(|()| Done::Nothing),
        };
        done.map_err(|number| Refusal { number, place: 0 })
    }
}

/// A text in hexadecimal; `-` is the empty one.
pub fn text(word: &str) -> Option<Vec<u8>> {
    if word == "-" {
        return Some(Vec::new());
    }
    let pairs = (0..word.len()).step_by(2).map(|i| word.get(i..i + 2));
    pairs.map(|pair| u8::from_str_radix(pair?, 16).ok()).collect()
}

/// `-` never heard, `inv` invalid, `nan`, else the bits of a value.
pub fn reading(word: &str) -> Option<Reading> {
    Some(match word {
        "-" => Reading::NeverHeard,
        "inv" => Reading::Invalid,
        "nan" => Reading::Value(f64::NAN),
        bits if bits.len() == 16 => Reading::Value(f64::from_bits(u64::from_str_radix(bits, 16).ok()?)),
        _ => return None,
    })
}

/// The call of a line, if it has the form.
pub fn call(line: &str) -> Option<Call> {
    let words: Vec<&str> = line.split(' ').collect();
    Some(match words[..] {
        ["load", file] => Call::Load(text(file)?),
        ["add", group, level, user, host] => Call::Add(client(group, level, user, host)?),
        ["change", place, group, level, user, host] => {
            Call::Change(place.parse().ok()?, client(group, level, user, host)?)
        }
        ["remove", place] => Call::Remove(place.parse().ok()?),
        ["set", group, letter, value] => Call::Set(text(group)?, letter.parse().ok()?, reading(value)?),
        _ => return None,
    })
}

/// The line of a call.
pub fn written(call: &Call) -> String {
    match call {
        Call::Load(text) => format!("load {}", hex(text)),
        Call::Add(client) => format!("add {}", parts(client)),
        Call::Change(place, client) => format!("change {place} {}", parts(client)),
        Call::Remove(place) => format!("remove {place}"),
        Call::Set(group, letter, reading) => format!("set {} {letter} {}", hex(group), bits(*reading)),
    }
}

fn parts(client: &Client) -> String {
    let Client { group, user, host, level } = client;
    format!("{} {level} {} {}", hex(group), hex(user), hex(host))
}

fn hex(text: &[u8]) -> String {
    if text.is_empty() {
        return "-".to_string();
    }
    text.iter().map(|b| format!("{b:02x}")).collect()
}

fn bits(reading: Reading) -> String {
    match reading {
        Reading::NeverHeard => "-".to_string(),
        Reading::Invalid => "inv".to_string(),
        Reading::Value(value) => format!("{:016x}", value.to_bits()),
    }
}

fn client(group: &str, level: &str, user: &str, host: &str) -> Option<Client> {
    Some(Client { group: text(group)?, user: text(user)?, host: text(host)?, level: level.parse().ok()? })
}

/// The line that answers a call, and the rights after it.
pub fn line(call: &Call, answer: Result<Done, Refusal>, rights: &Rights) -> String {
    let said = match answer {
        Ok(Done::Loaded(Loaded { length, warnings })) => format!("ok {length} {warnings}"),
        Ok(Done::At(place)) => format!("ok {place}"),
        Ok(Done::Nothing) => "ok".to_string(),
        Err(Refusal { number, place }) if matches!(call, Call::Load(_)) => {
            format!("refused {number} {place}")
        }
        Err(Refusal { number, .. }) => format!("refused {number}"),
    };
    let rights: Vec<String> = rights.iter().map(right).collect();
    format!("{said} | {}", rights.join(" "))
}

/// N, R or W, then `t` for trap or `-`. The scripts have no letter.
pub fn right(answer: &Answer) -> String {
    let access = match answer.access {
        Access::None => 'N',
        Access::Read => 'R',
        Access::Write => 'W',
    };
    format!("{access}{}", if answer.trap { 't' } else { '-' })
}

/// What a script prints, over a zeroed buffer; or the line that is no call.
pub fn run(script: &str, table: &mut [u8]) -> Result<String, String> {
    let mut register = Register::empty();
    let mut printed = String::new();
    for written in script.lines() {
        let call = call(written).ok_or_else(|| written.to_string())?;
        let answer = register.call(table, &call);
        printed += &format!("{}\n", line(&call, answer, &register.rights(table)));
    }
    Ok(printed)
}
