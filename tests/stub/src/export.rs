//! An export, with the faults 238 to 266.

use crate::{fault, part};
use paper::export::{can_be_quoted, unjudged};
use paper::table::{View, REFERENCES, WIDTHS};
use paper::{grammar, text, Refusal, FILE_BYTES};
use std::slice::from_raw_parts_mut;

#[no_mangle]
pub unsafe extern "C" fn hrazvanut_abi_export(
    table: *const u8,
    table_len: usize,
    text: *mut u8,
    text_len: usize,
) -> u64 {
    let answer = export(part(table, table_len), from_raw_parts_mut(text, text_len));
    if fault(260) && answer.is_ok() {
        *table.cast_mut().add(table_len - 1) ^= 1; // writes the table
    }
    match answer {
        Ok(length) if fault(247) => length as u64 % (1 << 16),
        Ok(length) => length as u64,
        Err(Refusal { number, place }) => place as u64 | u64::from(number) << 48,
    }
}

fn export(table: &[u8], lent: &mut [u8]) -> Result<usize, Refusal> {
    let text = match text_of(table) {
        Err(27) if fault(239) && lent.len() < 40 => Err(28), // 28 before 27
        Err(27) if fault(261) && !lent.is_empty() => {
            lent[0] ^= 1;
            Err(27)
        }
        answer => answer,
    };
    let text = text.map_err(|number| Refusal { number, place: 0 })?;
    let room = lent.len() - usize::from(fault(243) && lent.len() == text.len()); // one that just fits
    if room < text.len() {
        if fault(240) {
            lent.copy_from_slice(&text[..lent.len()]); // as much as there is room for
        }
        return Err(Refusal { number: 28, place: text.len() - usize::from(fault(241)) });
    }
    lent[..text.len()].copy_from_slice(&text);
    if fault(242) && lent.len() > text.len() {
        lent[text.len()] = 0; // as C ends texts
    }
    Ok(text.len())
}

/// How long the table itself is, as it says.
fn stored(table: &[u8]) -> usize {
    table.get(2..4).map_or(0, |w| usize::from(u16::from_le_bytes([w[0], w[1]])))
}

fn text_of(table: &[u8]) -> Result<Vec<u8>, u8> {
    if !paper::is_table(table) || fault(238) && stored(table) < table.len() {
        return Err(20);
    }
    let table = if fault(251) { by_numbers(table) } else { table.to_vec() };
    let view = View::open(&table).expect("it is a table");
    let text = unjudged(&view);
    if is_writable(&view, &text) {
        Ok(otherwise(text))
    } else {
        Err(27)
    }
}

/// The references named as the groups of their numbers are.
fn by_numbers(table: &[u8]) -> Vec<u8> {
    let view = View::open(table).expect("it is a table");
    let mut changed = table.to_vec();
    let section = usize::from(u16::from_le_bytes([table[30], table[31]]));
    let users = usize::from(u16::from_le_bytes([table[6], table[7]]));
    for reference in 0..view.count(REFERENCES) {
        let (number, _) = view.reference(reference);
        let at = section + 2 * WIDTHS[REFERENCES] * reference + 2;
        if number < view.count(0) {
            let from = users + 2 * WIDTHS[0] * number;
            changed[at..at + 4].copy_from_slice(&table[from..from + 4]);
        }
    }
    changed
}

/// With the faults that judge too much or too little.
fn is_writable(view: &View, text: &[u8]) -> bool {
    let strings = || view.named_strings().into_iter().map(|string| view.string(string));
    let refused = fault(245) && text.contains(&b'\\')
        || fault(246) && text.len() > FILE_BYTES
        || fault(250) && view.has_undefined()
        || fault(258) && !text.is_ascii()
        || fault(262) && text.iter().any(|byte| *byte < 32 && *byte != b'\n');
    let judged = fault(244) || strings().all(can_be_quoted);
    judged && !refused && (fault(248) && text.is_empty() || causes(text).is_empty())
}

/// The numbers of the refusals that a text has a cause for, but for those overlooked.
fn causes(text: &[u8]) -> Vec<u8> {
    let file = text::tokens(text).ok().and_then(|tokens| grammar::parse(&tokens, text.len()).ok());
    let Some(file) = file else { return vec![4] };
    let overlooked = match () {
        () if fault(249) => 7,
        () if fault(252) => 10,
        () if fault(253) => 12,
        () => 0,
    };
    let causes =
        file.causes().into_iter().filter(|(number, places)| *number != overlooked && !places.is_empty());
    causes.map(|(number, _)| number).collect()
}

fn replaced(text: &[u8], from: &[u8], to: &[u8]) -> Vec<u8> {
    let mut made = Vec::new();
    let mut rest = text;
    while let Some(at) = rest.windows(from.len()).position(|part| part == from) {
        made.extend(&rest[..at]);
        made.extend(to);
        rest = &rest[at + from.len()..];
    }
    [&made, rest].concat()
}

/// With the faults that write it in another way.
fn otherwise(mut text: Vec<u8>) -> Vec<u8> {
    match () {
        () if fault(254) => replaced(&text, b",NOTRAPWRITE)", b")"),
        () if fault(255) => replaced(&text, b"\")\nUAG(\"", b"\"){\n}\nUAG(\""),
        () if fault(256) => replaced(&text, b"UNKNOWN()\n", b""),
        () if fault(257) => swapped(&text),
        () if fault(259) => hosts_lowered(&text),
        () if fault(263) => replaced(&text, b"\",\"", b"\", \""),
        () if fault(264) => sorted(&text),
        () if fault(265) => {
            text.pop();
            text
        }
        () if fault(266) => replaced(&text, b"\\", b"\\\\"),
        () => text,
    }
}

fn lines(text: &[u8]) -> Vec<&[u8]> {
    text.split_inclusive(|byte| *byte == b'\n').collect()
}

/// A rule's hosts before its users.
fn swapped(text: &[u8]) -> Vec<u8> {
    let mut lines = lines(text);
    for i in 1..lines.len() {
        let users = lines[i - 1].starts_with(b"UAG(") && !lines[i - 1].ends_with(b"{\n");
        if users && i > 1 && lines[i - 2].starts_with(b"RULE") && lines[i].starts_with(b"HAG(") {
            lines.swap(i - 1, i);
        }
    }
    lines.concat()
}

/// The members of host groups in lower case, as a load would store them.
fn hosts_lowered(text: &[u8]) -> Vec<u8> {
    let lines = lines(text);
    let mut made = lines.first().map_or(Vec::new(), |line| line.to_vec());
    for pair in lines.windows(2) {
        let members = pair[0].starts_with(b"HAG(") && pair[0].ends_with(b"{\n");
        made.extend(if members { pair[1].to_ascii_lowercase() } else { pair[1].to_vec() });
    }
    made
}

/// The inputs by letter.
fn sorted(text: &[u8]) -> Vec<u8> {
    let mut lines = lines(text);
    let is_input = |line: &[u8]| line.starts_with(b"INP");
    for end in 1..lines.len() {
        let mut i = end;
        while i > 0 && is_input(lines[i]) && is_input(lines[i - 1]) && lines[i][3] < lines[i - 1][3] {
            lines.swap(i, i - 1);
            i -= 1;
        }
    }
    lines.concat()
}
