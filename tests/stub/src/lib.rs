//! The C ABI over `paper`, in place of the static library: it tries the
//! comparison itself. HRAZVANUT_FAULT=N gives it one of the faults below,
//! which the comparison must find.
#![allow(clippy::too_many_arguments, clippy::missing_safety_doc)]

pub mod arithmetic;
mod export;
mod exports;
pub mod groups;
mod letters;
mod numbers;
mod register;
mod roles;
mod walk;

use arithmetic::judged;
use paper::table::View;
use paper::{Access, Answer, Question, Reading, Refusal, LETTERS};
use roles::Given;
use std::sync::OnceLock;

/// Whether this fault is the chosen one. 1 to 22 are of the library, 23 to 38
/// of the asker, 39 to 44 of the checker, 45 to 83 of the library's register,
/// 84 to 104 of the library's roles, 105 of the asker's, 106 to 122 of the
/// library's calculation, 123 of its register's, 124 of the asker's, 125 to 150
/// of the library's groups (146 of its register's), 151 of the checker's, 152 of
/// the asker's, 153 to 185 of the library's letters, 186 to 194 of its register's,
/// 195 to 199 of the asker's, 200 to 219 of the library's groups by number and its
/// version, 220 to 226 of its register's loads into another room, 227 to 237 of the
/// library's look-ups without the check, 238 to 266 of its export, 267 to
/// 274 of the program `export`, 275 to 283 of the library's numbers, 284 of the
/// asker's.
pub fn fault(number: u32) -> bool {
    static CHOSEN: OnceLock<u32> = OnceLock::new();
    let chosen = CHOSEN.get_or_init(|| {
        let given = std::env::var("HRAZVANUT_FAULT").ok();
        given.and_then(|n| n.parse().ok()).unwrap_or(0)
    });
    *chosen == number
}

unsafe fn part<'a, T>(start: *const T, length: usize) -> &'a [T] {
    std::slice::from_raw_parts(start, length)
}

#[no_mangle]
pub unsafe extern "C" fn hrazvanut_abi_load(
    text: *const u8,
    text_len: usize,
    table: *mut u8,
    table_len: usize,
) -> u64 {
    let (text, table) = (part(text, text_len), std::slice::from_raw_parts_mut(table, table_len));
    match groups::load(text, table) {
        Ok(loaded) => {
            let (mut length, mut warnings) = (loaded.length, loaded.warnings);
            if fault(1) && length < table.len() {
                table[length] ^= 1; // writes behind the table
            }
            if fault(2) && table[..length].contains(&b'\\') {
                table[length - 1] ^= 1; // an escape stored otherwise
            }
            if fault(3) && warnings > 2 {
                warnings -= 1;
            }
            if fault(4) && length == table.len() {
                length = 0; // a table that just fits
            }
            length as u64 | (warnings as u64) << 32
        }
        Err(refusal) => {
            if fault(5) && !table.is_empty() {
                table[0] ^= 1; // a refused load writes
            }
            let Refusal { number, mut place } = refusal;
            if fault(6) && number == 4 && place == text.len() {
                place = place.saturating_sub(1); // the file's end
            }
            if fault(7) && number == 6 && text[place..].starts_with(b"INP") {
                place += 1;
            }
            place as u64 | u64::from(number) << 48
        }
    }
}

#[no_mangle]
pub unsafe extern "C" fn hrazvanut_abi_list_warnings(
    text: *const u8,
    text_len: usize,
    skip: usize,
    numbers: *mut u8,
    numbers_len: usize,
    places: *mut u16,
    places_len: usize,
) -> u64 {
    let text = part(text, text_len);
    let numbers = std::slice::from_raw_parts_mut(numbers, numbers_len);
    let places = std::slice::from_raw_parts_mut(places, places_len);
    match groups::listed(text) {
        Ok(warnings) => {
            let room = if fault(8) { numbers_len.min(places_len) } else { usize::MAX };
            let listed = warnings.iter().skip(skip).take(room);
            for (number, warning) in numbers.iter_mut().zip(listed.clone()) {
                *number = warning.number;
            }
            for (place, warning) in places.iter_mut().zip(listed) {
                *place = warning.place as u16;
            }
            warnings.len() as u64
        }
        Err(refusal) => {
            if fault(9) && !places.is_empty() {
                places[0] = 0;
            }
            refusal.place as u64 | u64::from(refusal.number) << 48
        }
    }
}

#[no_mangle]
pub unsafe extern "C" fn hrazvanut_abi_is_table(table: *const u8, table_len: usize) -> u8 {
    is_table(part(table, table_len)).into()
}

/// The check, with the faults that accept too much or too little.
fn is_table(table: &[u8]) -> bool {
    let right = paper::is_table(table);
    let length = table.get(2..4).map_or(0, |w| usize::from(u16::from_le_bytes([w[0], w[1]])));
    if fault(10) {
        return right && length == table.len(); // a longer slice
    }
    if fault(149) && right {
        return !View::open(table).is_some_and(|view| view.has_undefined());
    }
    if fault(11) && table.len() > 4 {
        let mut form_set = table.to_vec();
        form_set[0] = 1; // the form's low byte not looked at
        return paper::is_table(&form_set);
    }
    right
}

/// The readings as the C ABI has them.
fn readings(states: &[u8], values: &[f64]) -> [Reading; LETTERS] {
    std::array::from_fn(|i| match states.get(i) {
        None | Some(0) => Reading::NeverHeard,
        Some(2) => values.get(i).map_or(Reading::Invalid, |v| Reading::Value(*v)),
        Some(_) => Reading::Invalid,
    })
}

/// The question, with the faults that change it.
fn asked(mut question: Question) -> Question {
    for reading in &mut question.readings {
        if let Reading::Value(value) = reading {
            if fault(12) && value.is_infinite() {
                *value = 1.0; // infinite readings taken for good
            }
            if fault(13) && value.is_subnormal() {
                *value = 0.0; // flushed
            }
        }
        if fault(14) && matches!(reading, Reading::Invalid) {
            *reading = Reading::Value(0.0);
        }
    }
    if fault(15) && question.host.iter().any(u8::is_ascii_uppercase) {
        question.host = b"\n"; // not lowered
    }
    if fault(86) && question.host.starts_with(b"role/") {
        question.host = b"\n"; // a host member taken for a role
    }
    if fault(104) && question.user.starts_with(b"Role/") {
        question.user = b"\n"; // the prefix in any case
    }
    if fault(16) && question.group.len() == 60 {
        question.group = b""; // the longest name not found
    }
    if fault(17) && question.level.is_multiple_of(256) {
        question.level = 0; // cut to a byte
    }
    question
}

unsafe fn decision(table: &[u8], question: Question, given: &Given, checked: bool) -> u64 {
    let roles = given.roles(&question, checked);
    let question = asked(Question { roles: &roles, ..question });
    let answer = if fault(18) && question.level > 1 {
        Err(21) // 21 before 20
    } else if given.refused_early(&question) {
        Err(26)
    } else if checked || is_table(table) {
        answered(&groups::without_lists(table), &question, checked)
    } else {
        Err(20)
    };
    match answer {
        Ok(answer) => {
            let trap = answer.trap || fault(19) && answer.access == Access::Read;
            letters::number(&Answer { trap, ..answer }).into()
        }
        Err(number) => u64::from(number) << 48 | u64::from(fault(183)) << 3, // one with a refusal
    }
}

/// The answer by judged rules, and the letter by the rules as they are.
fn answered(table: &[u8], question: &Question, checked: bool) -> Result<Answer, u8> {
    let judged = judged(table, fault(113), |_| question.readings);
    let mut answer = paper::decide_checked(&judged, question)?;
    answer.letter = letters::stop(table, question, answer.access);
    if checked && fault(184) {
        answer.letter = None; // not passed on
    }
    Ok(answer)
}

macro_rules! decision {
    ($name:ident, $checked:expr) => {
        #[no_mangle]
        pub unsafe extern "C" fn $name(
            table: *const u8,
            table_len: usize,
            group: *const u8,
            group_len: usize,
            user: *const u8,
            user_len: usize,
            host: *const u8,
            host_len: usize,
            roles: *const u8,
            roles_len: usize,
            lengths: *const u8,
            lengths_len: usize,
            level: u32,
            states: *const u8,
            states_len: usize,
            values: *const f64,
            values_len: usize,
        ) -> u64 {
            let question = Question {
                group: part(group, group_len),
                user: part(user, user_len),
                host: part(host, host_len),
                roles: &[],
                level,
                readings: readings(part(states, states_len), part(values, values_len)),
            };
            let given = Given { bytes: part(roles, roles_len), lengths: part(lengths, lengths_len) };
            decision(part(table, table_len), question, &given, $checked)
        }
    };
}

decision!(hrazvanut_abi_decide_letter, false);
decision!(hrazvanut_abi_decide_letter_checked, true);

macro_rules! finding {
    ($name:ident, $find:expr) => {
        #[no_mangle]
        pub unsafe extern "C" fn $name(
            table: *const u8,
            table_len: usize,
            group: *const u8,
            group_len: usize,
            letter: u32,
        ) -> u64 {
            match $find(part(table, table_len), part(group, group_len), letter) {
                Ok((place, length)) => place as u64 | (length as u64) << 32,
                Err(number) => u64::from(number) << 48,
            }
        }
    };
}

finding!(hrazvanut_abi_find_input, find_input);
finding!(hrazvanut_abi_find_input_checked, walk::find_input_checked);

fn find_input(table: &[u8], group: &[u8], letter: u32) -> Result<walk::Part, u8> {
    match paper::find_input(table, group, letter) {
        Err(22) if fault(20) => paper::find_input(table, b"", letter), // goes on to DEFAULT
        answer => answer,
    }
}

#[no_mangle]
pub unsafe extern "C" fn hrazvanut_abi_allowed(text: *const u8, text_len: usize) -> u8 {
    let text = part(text, text_len);
    let sixteen_digits = text.windows(16).any(|w| w.iter().all(u8::is_ascii_digit));
    let wrong = fault(21) && sixteen_digits || fault(22) && paper::allowed(text) && text.contains(&b'\t');
    (paper::allowed(text) != wrong).into()
}
