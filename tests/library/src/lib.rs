//! The proved code's static library behind safe functions on slices. What is
//! called are `library.c` and `register.c`, which call it by the functions of
//! its header.

#[cfg(feature = "stub")]
extern crate stub as _;

use paper::Input;
use std::ffi::c_int;
use std::marker::PhantomData;

/// Whether there is anything to call: the static library, or the stub.
pub const LINKED: bool = cfg!(linked);

/// Whether it is the stub.
pub const STUB: bool = cfg!(feature = "stub");

/// What a load answers.
#[derive(Clone, Copy, Debug, PartialEq, Eq)]
pub struct Load {
    /// 0 if accepted.
    pub refusal: u64,
    pub place: u64,
    /// The bytes that refusal 11 needs.
    pub needed: u64,
    pub warnings: u64,
    pub length: u64,
    /// The table starts where it was to be, or nowhere if refused.
    pub agrees: bool,
}

/// What the list of warnings answers.
#[derive(Clone, Copy, Debug, PartialEq, Eq)]
pub struct List {
    pub refusal: u64,
    pub place: u64,
    pub count: u64,
    /// The header's list is that of the proved function.
    pub agrees: bool,
}

/// What an export answers.
#[derive(Clone, Copy, Debug, PartialEq, Eq)]
pub struct Export {
    /// 20, 27, 28, or 0 if written.
    pub refusal: u64,
    /// The bytes that refusal 28 needs.
    pub needed: u64,
    pub length: u64,
    /// The text starts where it was to be, or nowhere if refused, and the proved
    /// function's number says the same.
    pub agrees: bool,
}

#[derive(Clone, Copy, Debug, PartialEq, Eq)]
pub struct Decision {
    /// 20, 21, 26, or 0 if answered.
    pub refusal: u64,
    /// 0 NONE, 1 READ, 2 WRITE.
    pub access: u64,
    pub trap: bool,
    /// `A` to `U`, or 0 for none, as C has it.
    pub letter: u8,
    /// The proved function's number says the same.
    pub agrees: bool,
}

/// Where the name of an input or of an access group stands in the table.
#[derive(Clone, Copy, Debug, PartialEq, Eq)]
pub struct Found {
    /// 20, 22, or 0 if found.
    pub refusal: u64,
    pub place: u64,
    pub length: u64,
    /// The name is the part of the table at the place.
    pub agrees: bool,
}

/// A question without its table. Letter i has `states[i]`: 0 never heard, 2
/// `values[i]`, anything else invalid; past the end of `states` it is never
/// heard, with state 2 past the end of `values` invalid.
#[derive(Clone, Copy, Debug)]
pub struct Asked<'a> {
    pub group: &'a [u8],
    pub user: &'a [u8],
    pub host: &'a [u8],
    pub roles: &'a [Vec<u8>],
    pub level: u32,
    pub states: &'a [u8],
    pub values: &'a [f64],
}

/// Roles as the proved function takes them: all bytes one behind the other, and
/// the length of each.
#[derive(Clone, Debug)]
pub struct Pool {
    pub bytes: Vec<u8>,
    pub lengths: Vec<u8>,
}

impl Pool {
    /// A role of more bytes than a length can tell is too long anyway.
    pub fn of(roles: &[Vec<u8>]) -> Pool {
        let length = |role: &Vec<u8>| role.len().min(u8::MAX.into()) as u8;
        Pool { bytes: roles.concat(), lengths: roles.iter().map(length).collect() }
    }
}

/// A question as C has it.
pub struct Question<'a> {
    made: *mut Made,
    parts: PhantomData<&'a [u8]>,
}

/// The header's struct, which Rust does not look into.
pub enum Made {}

/// The functions in C, or the same names with nothing behind them, so that the
/// tests build.
macro_rules! calls {
    ($(fn $name:ident($($part:ident: $t:ty),* $(,)?) $(-> $answer:ty)?;)*) => {
        #[cfg(linked)]
        mod calls {
            use super::*;
            extern "C" {
                $(pub fn $name($($part: $t),*) $(-> $answer)?;)*
            }
        }
        #[cfg(not(linked))]
        #[allow(clippy::too_many_arguments)]
        mod calls {
            use super::*;
            $(pub unsafe fn $name($(_: $t),*) $(-> $answer)? {
                panic!("the static library is not linked")
            })*
        }
    };
}

pub mod register;

type In = *const u8;

calls! {
    fn library_load(text: In, text_length: usize, table: *mut u8, table_length: usize, out: *mut u64);
    fn library_list_warnings(
        text: In, text_length: usize, skip: usize, numbers: *mut u8, numbers_length: usize, places: *mut u16,
        places_length: usize, out: *mut u64,
    );
    fn library_export(table: In, table_length: usize, text: *mut u8, text_length: usize, out: *mut u64);
    fn library_export_number(table: In, table_length: usize, text: *mut u8, text_length: usize) -> u64;
    fn library_is_table(table: In, table_length: usize) -> c_int;
    fn library_question(
        group: In, group_length: usize, user: In, user_length: usize, host: In, host_length: usize,
        roles: *const In, role_lengths: *const usize, role_count: usize, level: u32, states: In,
        states_length: usize, values: *const f64, values_length: usize,
    ) -> *mut Made;
    fn library_forget(question: *mut Made);
    fn library_decide(checked: c_int, table: In, table_length: usize, question: *const Made, out: *mut u64);
    fn library_decide_number(
        checked: c_int, table: In, table_length: usize, group: In, group_length: usize, user: In,
        user_length: usize, host: In, host_length: usize, roles: In, roles_length: usize, lengths: In,
        lengths_length: usize, level: u32, states: In, states_length: usize, values: *const f64,
        values_length: usize,
    ) -> u64;
    fn library_find_input(
        checked: c_int, table: In, table_length: usize, group: In, group_length: usize, letter: u32,
        out: *mut u64,
    );
    fn library_find_input_number(
        checked: c_int, table: In, table_length: usize, group: In, group_length: usize, letter: u32,
    ) -> u64;
    fn library_stopping_input(
        table: In, table_length: usize, group: In, group_length: usize, letter: u8, out: *mut u64,
    );
    fn library_group_at(checked: c_int, table: In, table_length: usize, number: usize, out: *mut u64);
    fn library_group_at_number(checked: c_int, table: In, table_length: usize, number: usize) -> u64;
    fn library_walk(
        checked: c_int, table: In, table_length: usize, out: *mut [u64; 5], most: usize, ends: *mut c_int,
    ) -> usize;
    fn library_version(out: *mut u32);
    fn library_limits(out: *mut u64);
    fn library_allowed(text: In, text_length: usize) -> c_int;
}

pub fn load(text: &[u8], table: &mut [u8]) -> Load {
    let mut out = [0; 6];
    // SAFETY: each pointer is a slice's own, with its length; `out` has as many
    // numbers as are written.
    unsafe {
        calls::library_load(text.as_ptr(), text.len(), table.as_mut_ptr(), table.len(), out.as_mut_ptr());
    }
    let [refusal, place, needed, warnings, length, agrees] = out;
    Load { refusal, place, needed, warnings, length, agrees: agrees != 0 }
}

pub fn list_warnings(text: &[u8], skip: usize, numbers: &mut [u8], places: &mut [u16]) -> List {
    let mut out = [0; 4];
    // SAFETY: as above.
    unsafe {
        calls::library_list_warnings(
            text.as_ptr(),
            text.len(),
            skip,
            numbers.as_mut_ptr(),
            numbers.len(),
            places.as_mut_ptr(),
            places.len(),
            out.as_mut_ptr(),
        );
    }
    let [refusal, place, count, agrees] = out;
    List { refusal, place, count, agrees: agrees != 0 }
}

/// By the header, and by the number of the proved function on a copy of the lent
/// bytes, which it must leave alike. A table is lent here as something that can be
/// written, so that it is seen if it is.
pub fn export(table: &mut [u8], text: &mut [u8]) -> Export {
    let start = table.as_mut_ptr().cast_const();
    let mut copy = text.to_vec();
    let mut out = [0; 4];
    // SAFETY: as above; an export may be asked of any bytes.
    unsafe { calls::library_export(start, table.len(), text.as_mut_ptr(), text.len(), out.as_mut_ptr()) };
    let number = export_number(table, &mut copy);
    let [refusal, needed, length, agrees] = out;
    let packed = needed + length | refusal << 48;
    Export { refusal, needed, length, agrees: agrees != 0 && packed == number && copy == text }
}

/// The number of the proved function.
pub fn export_number(table: &[u8], text: &mut [u8]) -> u64 {
    // SAFETY: as above. A pointer of a slice is never NULL.
    unsafe { calls::library_export_number(table.as_ptr(), table.len(), text.as_mut_ptr(), text.len()) }
}

pub fn is_table(table: &[u8]) -> bool {
    // SAFETY: as above.
    unsafe { calls::library_is_table(table.as_ptr(), table.len()) != 0 }
}

impl<'a> Question<'a> {
    pub fn new(asked: &Asked<'a>) -> Question<'a> {
        let (roles, role_lengths): (Vec<In>, Vec<usize>) =
            asked.roles.iter().map(|role| (role.as_ptr(), role.len())).unzip();
        // SAFETY: as above; the parts live as long as the question.
        let made = unsafe {
            calls::library_question(
                asked.group.as_ptr(),
                asked.group.len(),
                asked.user.as_ptr(),
                asked.user.len(),
                asked.host.as_ptr(),
                asked.host.len(),
                roles.as_ptr(),
                role_lengths.as_ptr(),
                roles.len(),
                asked.level,
                asked.states.as_ptr(),
                asked.states.len(),
                asked.values.as_ptr(),
                asked.values.len(),
            )
        };
        Question { made, parts: PhantomData }
    }

    pub fn decide(&self, table: &[u8]) -> Decision {
        // SAFETY: any bytes may be asked.
        unsafe { self.ask(false, table) }
    }

    /// The same without the check.
    ///
    /// # Safety
    /// `is_table` has said so of these bytes.
    pub unsafe fn decide_checked(&self, table: &[u8]) -> Decision {
        self.ask(true, table)
    }

    unsafe fn ask(&self, checked: bool, table: &[u8]) -> Decision {
        let mut out = [0; 4];
        calls::library_decide(checked.into(), table.as_ptr(), table.len(), self.made, out.as_mut_ptr());
        let [refusal, access, trap, letter] = out;
        Decision { refusal, access, trap: trap != 0, letter: letter as u8, agrees: true }
    }
}

impl Drop for Question<'_> {
    fn drop(&mut self) {
        // SAFETY: it was made by `library_question`, and is forgotten once.
        unsafe { calls::library_forget(self.made) }
    }
}

/// By the header's question, and by the number of the proved function.
pub fn decide(table: &[u8], asked: &Asked) -> Decision {
    beside(Question::new(asked).decide(table), decide_pool(table, asked, &Pool::of(asked.roles)))
}

/// The same without the check.
///
/// # Safety
/// `is_table` has said so of these bytes.
pub unsafe fn decide_checked(table: &[u8], asked: &Asked) -> Decision {
    let number = decide_pool_checked(table, asked, &Pool::of(asked.roles));
    beside(Question::new(asked).decide_checked(table), number)
}

/// The proved function's number; the roles are those of the pool.
pub fn decide_pool(table: &[u8], asked: &Asked, pool: &Pool) -> u64 {
    // SAFETY: any bytes may be asked.
    unsafe { decide_number(false, table, asked, pool) }
}

/// The same without the check.
///
/// # Safety
/// `is_table` has said so of these bytes.
pub unsafe fn decide_pool_checked(table: &[u8], asked: &Asked, pool: &Pool) -> u64 {
    decide_number(true, table, asked, pool)
}

impl Decision {
    /// As the proved function answers it.
    pub fn number(&self) -> u64 {
        self.access | u64::from(self.trap) << 2 | letter_number(self.letter) << 3 | self.refusal << 48
    }
}

/// 1 for `A` and so on, 0 for none.
pub fn letter_number(letter: u8) -> u64 {
    if letter == 0 {
        0
    } else {
        u64::from(letter.wrapping_sub(b'A' - 1))
    }
}

fn beside(decision: Decision, number: u64) -> Decision {
    Decision { agrees: number == decision.number(), ..decision }
}

unsafe fn decide_number(checked: bool, table: &[u8], asked: &Asked, pool: &Pool) -> u64 {
    calls::library_decide_number(
        checked.into(),
        table.as_ptr(),
        table.len(),
        asked.group.as_ptr(),
        asked.group.len(),
        asked.user.as_ptr(),
        asked.user.len(),
        asked.host.as_ptr(),
        asked.host.len(),
        pool.bytes.as_ptr(),
        pool.bytes.len(),
        pool.lengths.as_ptr(),
        pool.lengths.len(),
        asked.level,
        asked.states.as_ptr(),
        asked.states.len(),
        asked.values.as_ptr(),
        asked.values.len(),
    )
}

/// What a look-up writes into four numbers.
fn found(look_up: impl FnOnce(*mut u64)) -> Found {
    let mut out = [0; 4];
    look_up(out.as_mut_ptr());
    let [refusal, place, length, agrees] = out;
    Found { refusal, place, length, agrees: agrees != 0 }
}

/// By the header and by the number of the proved function.
pub fn find_input(table: &[u8], group: &[u8], letter: u32) -> Found {
    // SAFETY: any bytes may be asked.
    unsafe { find(false, table, group, letter) }
}

/// The same without the check.
///
/// # Safety
/// `is_table` has said so of these bytes.
pub unsafe fn find_input_checked(table: &[u8], group: &[u8], letter: u32) -> Found {
    find(true, table, group, letter)
}

unsafe fn find(checked: bool, table: &[u8], group: &[u8], letter: u32) -> Found {
    let (start, name) = (table.as_ptr(), group.as_ptr());
    let by_header = found(|out| {
        calls::library_find_input(checked.into(), start, table.len(), name, group.len(), letter, out);
    });
    by_header.beside(calls::library_find_input_number(
        checked.into(),
        start,
        table.len(),
        name,
        group.len(),
        letter,
    ))
}

/// By the letter of an answer, as C has it.
pub fn stopping_input(table: &[u8], group: &[u8], letter: u8) -> Found {
    // SAFETY: as above.
    found(|out| unsafe {
        calls::library_stopping_input(table.as_ptr(), table.len(), group.as_ptr(), group.len(), letter, out);
    })
}

/// By the header and by the number of the proved function. A table is lent here as
/// something that can be written, so that it is seen if one is.
pub fn group_at(table: &mut [u8], number: usize) -> Found {
    // SAFETY: any bytes may be asked.
    unsafe { name(false, table, number) }
}

/// The same without the check.
///
/// # Safety
/// `is_table` has said so of these bytes.
pub unsafe fn group_at_checked(table: &mut [u8], number: usize) -> Found {
    name(true, table, number)
}

unsafe fn name(checked: bool, table: &mut [u8], number: usize) -> Found {
    let start = table.as_mut_ptr().cast_const();
    let by_header = found(|out| calls::library_group_at(checked.into(), start, table.len(), number, out));
    by_header.beside(calls::library_group_at_number(checked.into(), start, table.len(), number))
}

impl Found {
    /// Whether the proved function's number says the same.
    fn beside(self, number: u64) -> Found {
        let packed = self.place | self.length << 32 | self.refusal << 48;
        Found { agrees: self.agrees && packed == number, ..self }
    }
}

/// No walk tells more inputs.
const MOST_TOLD: usize = paper::MOST[paper::table::ACCESS_GROUPS] * paper::LETTERS;

/// What a walk over a table tells, up to one more than there can be; and whether it
/// then stays at its end, with the input as it was.
pub fn walk(table: &mut [u8]) -> (Vec<Input>, bool) {
    // SAFETY: a walk may go over any bytes.
    unsafe { told(false, table) }
}

/// The same without the check.
///
/// # Safety
/// `is_table` has said so of these bytes.
pub unsafe fn walk_checked(table: &mut [u8]) -> (Vec<Input>, bool) {
    told(true, table)
}

unsafe fn told(checked: bool, table: &mut [u8]) -> (Vec<Input>, bool) {
    let mut out = vec![[0; 5]; MOST_TOLD + 1];
    let mut ends = 0;
    let start = table.as_mut_ptr().cast_const();
    let told =
        calls::library_walk(checked.into(), start, table.len(), out.as_mut_ptr(), out.len(), &mut ends);
    let input = |numbers: &[u64; 5]| {
        let [group, group_length, letter, name, name_length] = numbers.map(|n| n as usize);
        Input { group: (group, group_length), letter: letter as u32, name: (name, name_length) }
    };
    (out[..told].iter().map(input).collect(), ends != 0)
}

/// The header's version; the library's by the header; the number of the proved
/// function.
pub fn version() -> [u32; 3] {
    let mut out = [0; 3];
    // SAFETY: three numbers are written.
    unsafe { calls::library_version(out.as_mut_ptr()) };
    out
}

/// The header's numbers: bytes of a file and of a table, readings, bytes of a text,
/// roles, bytes of a role, places, access groups, inputs.
pub fn limits() -> [u64; 9] {
    let mut out = [0; 9];
    // SAFETY: nine numbers are written.
    unsafe { calls::library_limits(out.as_mut_ptr()) };
    out
}

pub fn allowed(text: &[u8]) -> bool {
    // SAFETY: as above.
    unsafe { calls::library_allowed(text.as_ptr(), text.len()) != 0 }
}
