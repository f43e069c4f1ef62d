//! The access group of a number, and the version, with the faults 200 to 219; the
//! look-ups without the check, with the faults 227 to 237.

use crate::{fault, part};
use paper::table::{View, ACCESS_GROUPS, USER_GROUPS};
pub use paper::walk::Part;

/// The header's HRAZVANUT_VERSION.
const VERSION: u32 = 7002;

#[no_mangle]
pub unsafe extern "C" fn hrazvanut_abi_group_at(table: *const u8, table_len: usize, number: usize) -> u64 {
    told(table, group_at(part(table, table_len), number), fault(217), fault(218))
}

#[no_mangle]
pub unsafe extern "C" fn hrazvanut_abi_group_at_checked(
    table: *const u8,
    table_len: usize,
    number: usize,
) -> u64 {
    told(table, group_at_checked(part(table, table_len), number), fault(227), fault(228))
}

/// As a number, with the faults that tell a place with a refusal, or write the name.
unsafe fn told(table: *const u8, found: Result<Part, u8>, place_too: bool, writes: bool) -> u64 {
    if let (true, Ok((place, 1..))) = (writes, found) {
        *table.cast_mut().add(place) = b'?';
    }
    match found {
        Ok((place, length)) => place as u64 | (length as u64) << 32,
        Err(refusal) => u64::from(refusal) << 48 | u64::from(place_too),
    }
}

/// How long the table itself is, as it says.
fn stored(table: &[u8]) -> usize {
    table.get(2..4).map_or(0, |w| usize::from(u16::from_le_bytes([w[0], w[1]])))
}

/// Without the check: a caller that lends what is no table is found out.
fn group_at_checked(table: &[u8], number: usize) -> Result<Part, u8> {
    assert!(paper::is_table(table), "group_at_checked of what is no table");
    let number = match () {
        () if fault(229) => number % (1 << 16),
        () if fault(230) => number % (1 << 32),
        () if fault(231) && number > 0 => number - 1,
        () => number,
    };
    match paper::group_at(table, number) {
        Ok((_, 0)) if fault(232) => Err(22), // one of no bytes
        Ok(_) if fault(233) && stored(table) < table.len() => Err(20), // a longer slice
        found => found,
    }
}

/// The same of the name of an input.
pub fn find_input_checked(table: &[u8], group: &[u8], letter: u32) -> Result<Part, u8> {
    assert!(paper::is_table(table), "find_input_checked of what is no table");
    let letter = if fault(234) { letter % 256 } else { letter };
    match paper::find_input(table, group, letter) {
        Err(22) if fault(235) => paper::find_input(table, b"", letter), // goes on to DEFAULT
        Ok((_, 0)) if fault(236) => Err(22),                            // one of no bytes
        Ok(_) if fault(237) && stored(table) < table.len() => Err(20),
        found => found,
    }
}

/// With the faults that take another number, or the bytes otherwise.
fn group_at(table: &[u8], number: usize) -> Result<Part, u8> {
    let number = match () {
        () if fault(200) => number.wrapping_add(1),
        () if fault(201) => number % 256, // cut to a byte
        () if fault(202) => number % (1 << 16),
        () if fault(203) => number % (1 << 32),
        () => number,
    };
    match paper::group_at(table, number) {
        Err(22) if fault(204) => Err(20),
        Err(20) if fault(205) && number >= 64 => Err(22), // 22 before 20
        Err(20) if fault(206) => unchecked(table, number),
        Ok(_) if fault(207) && stored(table) < table.len() => Err(20), // a longer slice
        Err(22) if fault(208) => paper::group_at(table, number.saturating_sub(1)), // one past the last
        Ok(_) if fault(209) && number == 63 => Err(22),                // the most that there are
        Ok(found) => other(&View::open(table).expect("it is a table"), number, found),
        refused => refused,
    }
}

/// Of bytes that are no table.
fn unchecked(table: &[u8], number: usize) -> Result<Part, u8> {
    let view = View::open(table).ok_or(20)?;
    if number >= view.count(ACCESS_GROUPS) {
        return Err(22);
    }
    let (name, _, _) = view.access_group(number);
    Ok((view.place(name), name.1))
}

/// With the faults that tell another part.
fn other(view: &View, number: usize, found: Part) -> Result<Part, u8> {
    let count = view.count(ACCESS_GROUPS);
    let name = |n: usize| view.access_group(n).0;
    let named = |wanted: &[u8]| (0..count).map(name).find(|text| view.string(*text) == wanted);
    let (place, length) = found;
    let text = match () {
        () if fault(210) && number + 1 == count => return Err(22), // the last
        () if fault(211) && length == 0 => return Err(22),         // one of no bytes
        () if fault(212) => return Ok((place, length.saturating_sub(1))),
        () if fault(213) => return Ok((name(number).0, length)), // from the start of the strings
        () if fault(214) && number < view.count(USER_GROUPS) => Some(view.user_group(number).0),
        () if fault(215) => named(view.string(name(number))), // the first so named
        () if fault(216) && length == 0 => named(b"DEFAULT"), // as a question has it
        () => None,
    };
    Ok(text.map_or(found, |text| (view.place(text), text.1)))
}

#[no_mangle]
pub extern "C" fn hrazvanut_abi_version() -> u32 {
    VERSION - u32::from(fault(219)) // of the header before
}
