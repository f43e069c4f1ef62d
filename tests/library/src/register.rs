//! The register: by the header on its struct, and by the proved functions on
//! slices of any length.

use paper::script::Call;
use paper::Reading;
use std::ffi::c_int;
use std::marker::PhantomData;
use std::ptr::{null, null_mut};

/// How a call is put: without the check of the table, where there is such a
/// function, and with which state for an invalid reading.
#[derive(Clone, Copy, Debug)]
pub struct How {
    pub checked: bool,
    pub invalid: u8,
}

/// What a call answers by the header; what does not belong to it is 0.
#[derive(Clone, Copy, Debug, PartialEq, Eq)]
pub struct Outcome {
    /// 0 if not refused.
    pub refusal: u64,
    /// Of a client, or of a load's refusal.
    pub place: u64,
    pub needed: u64,
    pub warnings: u64,
    pub length: u64,
    /// A bit for each place whose right is another.
    pub changed: u64,
    /// The table starts where it was to be, or nowhere if refused.
    pub agrees: bool,
}

/// The right of a place.
#[derive(Clone, Copy, Debug, PartialEq, Eq)]
pub struct Right {
    /// 0 NONE, 1 READ, 2 WRITE.
    pub access: u64,
    pub trap: bool,
    /// `A` to `U`, or 0 for none, as C has it.
    pub letter: u8,
}

/// The header's struct, zeroed at first.
pub struct Register {
    made: *mut Made,
}

/// Rust does not look into it.
pub enum Made {}

/// A register as slices, and a word for the changed places.
pub struct Lent<'a> {
    pub places: &'a mut [u8],
    pub states: &'a mut [u8],
    pub values: &'a mut [f64],
    pub changed: &'a mut [u64],
}

/// A call as C has it, to be made again and again.
pub struct Ready<'a> {
    number: c_int,
    given: Given,
    parts: PhantomData<&'a Call>,
}

/// `struct lent` of register.c.
#[repr(C)]
struct LentParts {
    places: *mut u8,
    places_length: usize,
    states: *mut u8,
    states_length: usize,
    values: *mut f64,
    values_length: usize,
    changed: *mut u64,
    changed_length: usize,
}

/// `struct given` of register.c.
#[repr(C)]
struct Given {
    checked: c_int,
    level: u32,
    letter: u32,
    state: u32,
    value: f64,
    place: usize,
    table: *mut u8,
    table_length: usize,
    texts: [*const u8; 4],
    lengths: [usize; 4],
}

calls! {
    fn library_register() -> *mut Made;
    fn library_forget_register(register: *mut Made);
    fn library_parts(register: *mut Made, parts: *mut LentParts);
    fn library_call(call: c_int, register: *mut Made, given: *const Given, out: *mut u64);
    fn library_right(register: *const Made, place: usize, out: *mut u64);
    fn library_call_number(call: c_int, lent: *const LentParts, given: *const Given) -> u64;
    fn library_right_number(places: *const u8, places_length: usize, place: usize) -> u8;
}

impl Given {
    /// With no table yet.
    fn new(call: &Call, how: How) -> Given {
        let mut given = Given {
            checked: how.checked.into(),
            level: 0,
            letter: 0,
            state: 0,
            value: 0.0,
            place: 0,
            table: null_mut(),
            table_length: 0,
            texts: [null(); 4],
            lengths: [0; 4],
        };
        let texts = texts(call);
        (given.texts, given.lengths) = (texts.map(|t| t.as_ptr()), texts.map(|t| t.len()));
        match call {
            Call::Add(client) => given.level = client.level,
            Call::Change(place, client) => (given.place, given.level) = (*place, client.level),
            Call::Remove(place) => given.place = *place,
            Call::Set(_, letter, reading) => {
                given.letter = *letter;
                (given.state, given.value) = match reading {
                    Reading::NeverHeard => (0, 1.0),
                    Reading::Invalid => (how.invalid.into(), 1.0),
                    Reading::Value(value) => (2, *value),
                };
            }
            Call::Load(_) => {}
        }
        given
    }

    fn lend(&mut self, table: &mut [u8]) {
        (self.table, self.table_length) = (table.as_mut_ptr(), table.len());
    }
}

impl<'a> Ready<'a> {
    pub fn new(call: &'a Call, how: How) -> Ready<'a> {
        Ready { number: number_of(call), given: Given::new(call, how), parts: PhantomData }
    }
}

/// Text, group, user, host.
fn texts(call: &Call) -> [&[u8]; 4] {
    match call {
        Call::Add(c) | Call::Change(_, c) => [&[], &c.group, &c.user, &c.host],
        Call::Set(group, ..) => [&[], group, &[], &[]],
        Call::Load(text) => [text, &[], &[], &[]],
        Call::Remove(_) => [&[]; 4],
    }
}

/// The call's number in register.c.
fn number_of(call: &Call) -> c_int {
    match call {
        Call::Add(_) => 0,
        Call::Change(..) => 1,
        Call::Remove(_) => 2,
        Call::Set(..) => 3,
        Call::Load(_) => 4,
    }
}

impl Register {
    pub fn empty() -> Register {
        // SAFETY: nothing is given.
        Register { made: unsafe { calls::library_register() } }
    }

    /// What stands in it: places, states, values.
    pub fn parts(&mut self) -> (&mut [u8], &mut [u8], &mut [f64]) {
        let mut parts = std::mem::MaybeUninit::uninit();
        // SAFETY: C writes all of `parts`, and each part is in the struct, apart
        // from the others; none lives longer than the borrow of the struct.
        unsafe {
            calls::library_parts(self.made, parts.as_mut_ptr());
            let parts: LentParts = parts.assume_init();
            (
                std::slice::from_raw_parts_mut(parts.places, parts.places_length),
                std::slice::from_raw_parts_mut(parts.states, parts.states_length),
                std::slice::from_raw_parts_mut(parts.values, parts.values_length),
            )
        }
    }

    /// By the header. Only a load writes the table.
    ///
    /// # Safety
    /// If it is checked, `is_table` has said so of these bytes.
    pub unsafe fn call(&mut self, table: &mut [u8], call: &Call, how: How) -> Outcome {
        self.make(table, &mut Ready::new(call, how))
    }

    /// The same for a call that was made ready.
    ///
    /// # Safety
    /// As of `call`.
    pub unsafe fn make(&mut self, table: &mut [u8], ready: &mut Ready) -> Outcome {
        let mut out = [0; 7];
        ready.given.lend(table);
        calls::library_call(ready.number, self.made, &ready.given, out.as_mut_ptr());
        let [refusal, place, needed, warnings, length, changed, agrees] = out;
        Outcome { refusal, place, needed, warnings, length, changed, agrees: agrees != 0 }
    }

    pub fn right(&self, place: usize) -> Right {
        let mut out = [0; 3];
        // SAFETY: the struct was made by `library_register`; three numbers are written.
        unsafe { calls::library_right(self.made, place, out.as_mut_ptr()) };
        Right { access: out[0], trap: out[1] != 0, letter: out[2] as u8 }
    }
}

impl Drop for Register {
    fn drop(&mut self) {
        // SAFETY: it was made by `library_register`, and is forgotten once.
        unsafe { calls::library_forget_register(self.made) }
    }
}

/// The proved function's number.
///
/// # Safety
/// If it is checked, `is_table` has said so of these bytes.
pub unsafe fn number(lent: &mut Lent, table: &mut [u8], call: &Call, how: How) -> u64 {
    let parts = LentParts {
        places: lent.places.as_mut_ptr(),
        places_length: lent.places.len(),
        states: lent.states.as_mut_ptr(),
        states_length: lent.states.len(),
        values: lent.values.as_mut_ptr(),
        values_length: lent.values.len(),
        changed: lent.changed.as_mut_ptr(),
        changed_length: lent.changed.len(),
    };
    let mut given = Given::new(call, how);
    given.lend(table);
    calls::library_call_number(number_of(call), &parts, &given)
}

/// The proved function's number for a right.
pub fn right_number(places: &[u8], place: usize) -> u8 {
    // SAFETY: the pointer is the slice's own, with its length.
    unsafe { calls::library_right_number(places.as_ptr(), places.len(), place) }
}
