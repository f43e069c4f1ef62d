//! EPICS's own access security, if its library is installed: Debian's libCom
//! 3.17.6 (EPICS 7.0.3.1), opened as the program runs. Debian has no headers;
//! the layouts are those of x86-64.

pub mod clients;

use crate::shared::Shared;
use std::ffi::{c_char, c_int, c_long, c_ulong, c_void, CStr, CString};
use std::ptr::null_mut;

/// A-L have values in this edition.
const VALUES: usize = 12;

#[repr(C)]
struct Node {
    next: *mut Node,
    previous: *mut Node,
}

#[repr(C)]
struct List {
    ends: Node,
    count: c_int,
}

#[repr(C)]
struct Rule {
    node: Node,
    access: c_int,
    level: c_int,
    letters: c_ulong,
    result: c_int,
}

#[repr(C)]
struct Input {
    node: Node,
    name: *mut c_char,
    channel: *mut c_void,
    group: *mut Group,
    letter: c_int,
}

#[repr(C)]
struct Group {
    node: Node,
    name: *mut c_char,
    inputs: List,
    rules: List,
    members: List,
    values: *mut f64,
    bad: c_ulong,
    changed: c_ulong,
}

#[repr(C)]
struct Member {
    node: Node,
    group: *mut Group,
}

#[repr(C)]
struct Client {
    node: Node,
    member: *mut Member,
    user: *const c_char,
    host: *mut c_char,
    private: *mut c_void,
    callback: *mut c_void,
    level: c_int,
    access: c_int,
    trap: c_int,
}

const _: () = assert!(std::mem::size_of::<List>() == 24);
const _: () = assert!(std::mem::offset_of!(Group, values) == 96);
const _: () = assert!(std::mem::offset_of!(Client, access) == 60);

/// The functions that are called.
#[derive(Clone, Copy)]
pub struct Epics {
    init: unsafe extern "C" fn(*const c_char, *const c_char) -> c_long,
    add_member: unsafe extern "C" fn(*mut *mut Member, *const c_char) -> c_long,
    remove_member: unsafe extern "C" fn(*mut *mut Member) -> c_long,
    add_client:
        unsafe extern "C" fn(*mut *mut Client, *mut Member, c_int, *const c_char, *mut c_char) -> c_long,
    remove_client: unsafe extern "C" fn(*mut *mut Client) -> c_long,
    compute: unsafe extern "C" fn(*mut Client) -> c_long,
    compute_group: unsafe extern "C" fn(*mut Group) -> c_long,
}

/// A question's parts, as C has them.
pub struct Asked {
    group: CString,
    user: CString,
    host: Vec<u8>,
    level: c_int,
    values: [f64; 2],
}

impl Asked {
    /// A and B read these values.
    pub fn new(group: &str, user: &str, host: &str, level: u32, values: [f64; 2]) -> Asked {
        let text = |s: &str| CString::new(s).expect("no NUL in a sample's names");
        let host = text(host).into_bytes_with_nul();
        Asked { group: text(group), user: text(user), host, level: level as c_int, values }
    }
}

impl Epics {
    /// The library by HRAZVANUT_EPICS, or by its name; none if not installed.
    pub fn open() -> Option<Epics> {
        let given = std::env::var("HRAZVANUT_EPICS").unwrap_or("libCom.so.3.17.6".to_string());
        let library = Shared::open(&given)?;
        // SAFETY: the types of the functions are those of libCom 3.17.6.
        unsafe {
            let quiet: unsafe extern "C" fn(c_int) -> c_int = library.function(c"eltc")?;
            quiet(0);
            Some(Epics {
                init: library.function(c"asInitMem")?,
                add_member: library.function(c"asAddMember")?,
                remove_member: library.function(c"asRemoveMember")?,
                add_client: library.function(c"asAddClient")?,
                remove_client: library.function(c"asRemoveClient")?,
                compute: library.function(c"asCompute")?,
                compute_group: library.function(c"asComputeAsg")?,
            })
        }
    }

    /// asInitMem; whether it accepts.
    pub fn load(&self, text: &CStr) -> bool {
        // SAFETY: the text ends in NUL.
        unsafe { (self.init)(text.as_ptr(), std::ptr::null()) == 0 }
    }

    /// A whole question, nothing being kept: the group by its name, a reading
    /// for each input, the calculations, the client. The answer is the access.
    pub fn question(&self, asked: &mut Asked) -> Option<u8> {
        let mut member: *mut Member = null_mut();
        let mut client: *mut Client = null_mut();
        // SAFETY: what EPICS made is handed back to it, once.
        unsafe {
            self.admit(asked, &mut member, &mut client)?;
            let access = (*client).access;
            (self.remove_client)(&mut client);
            (self.remove_member)(&mut member);
            Some(access as u8)
        }
    }

    unsafe fn admit(
        &self,
        asked: &mut Asked,
        member: &mut *mut Member,
        client: &mut *mut Client,
    ) -> Option<()> {
        self.open_group(asked, member)?;
        self.connect(asked, *member, client)
    }

    /// The group by its name, with its readings and calculations.
    unsafe fn open_group(&self, asked: &Asked, member: &mut *mut Member) -> Option<()> {
        if (self.add_member)(member, asked.group.as_ptr()) != 0 {
            return None;
        }
        let group = (**member).group;
        put_readings(group, asked.values);
        (self.compute_group)(group);
        Some(())
    }

    /// The client keeps pointers to the names.
    unsafe fn connect(&self, asked: &mut Asked, member: *mut Member, client: &mut *mut Client) -> Option<()> {
        let (user, host) = (asked.user.as_ptr(), asked.host.as_mut_ptr().cast());
        ((self.add_client)(client, member, asked.level, user, host) == 0).then_some(())
    }
}

/// The group as it is before any event, then an event for A and for B.
unsafe fn put_readings(group: *mut Group, values: [f64; 2]) {
    let mut rule = (*group).rules.ends.next.cast::<Rule>();
    while !rule.is_null() {
        (*rule).result = 0;
        rule = (*rule).node.next.cast();
    }
    for letter in 0..VALUES {
        *(*group).values.add(letter) = 0.0;
    }
    ((*group).bad, (*group).changed) = (0, 0);
    let mut input = (*group).inputs.ends.next.cast::<Input>();
    while !input.is_null() {
        let letter = (*input).letter as usize;
        if let Some(value) = values.get(letter) {
            *(*group).values.add(letter) = *value;
            (*group).changed |= 1 << letter;
        } else {
            (*group).bad |= 1 << letter;
        }
        input = (*input).node.next.cast();
    }
}
