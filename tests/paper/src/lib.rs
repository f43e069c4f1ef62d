//! Document 01, written down once more in plain Rust: from the paper and the
//! EPICS text that it follows, not from the proved code.
//!
//! The modules follow the paper's headings: `text` (tokens), `grammar`,
//! `file` (refusals 5 to 10 and 12, and warnings), `table` (bytes and check),
//! `question` (decision and look-up), `calculation`, `programs`. `register` is
//! document 02's first request, `script` its calls as lines; its second, roles,
//! is part of `question`, its third, bad arithmetic, of `calculation`, its fourth,
//! undefined groups, of `file`, its fifth, the stopping letter, of `calculation`
//! and `question`; its sixth is `export`. `walk` tells which groups and inputs a
//! table has.
#![forbid(unsafe_code)]

pub mod calculation;
pub mod export;
pub mod file;
pub mod grammar;
pub mod programs;
pub mod question;
pub mod register;
pub mod script;
pub mod table;
pub mod text;
pub mod walk;

pub use calculation::{allowed, Reading, Readings};
pub use export::{export, text_of, TEXT_BYTES};
pub use question::{decide, decide_checked, find_input, Access, Answer, Question};
pub use register::{Client, Register};
pub use table::is_table;
pub use walk::{group_at, inputs, Input};

/// Limits of refusals 1, 3 and 5.
pub const FILE_BYTES: usize = 16_384;
pub const OPEN_BRACES: usize = 16;
pub const NAME_BYTES: usize = 60;
pub const CALCULATION_BYTES: usize = 79;

/// The most that the table's sections may hold, in the order of the sections.
/// The first seven are refusal 6's limits.
pub const MOST: [usize; 8] = [64, 64, 1024, 64, 512, 256, 1024, FILE_BYTES];

/// No table is longer.
pub const TABLE_BYTES: usize = 35_108;

/// Letters A to U.
pub const LETTERS: usize = 21;

/// Places of the register.
pub const PLACES: usize = 64;

/// Limits of refusal 26.
pub const ROLES: usize = 16;
pub const ROLE_BYTES: usize = 60;

/// A load's refusal: its number, and its place (for 11 the bytes needed).
#[derive(Clone, Copy, Debug, PartialEq, Eq)]
pub struct Refusal {
    pub number: u8,
    pub place: usize,
}

/// A warning: 1 unknown item, 2 unknown predicate.
#[derive(Clone, Copy, Debug, PartialEq, Eq)]
pub struct Warning {
    pub number: u8,
    pub place: usize,
}

/// What a load answers if it accepts.
#[derive(Clone, Copy, Debug, PartialEq, Eq)]
pub struct Loaded {
    pub length: usize,
    pub warnings: usize,
}

/// Refusals 1 to 10 and 12, or the file.
pub fn read(text: &[u8]) -> Result<file::File<'_>, Refusal> {
    if text.len() > FILE_BYTES {
        return Err(Refusal { number: 1, place: 0 });
    }
    read_any_length(text)
}

/// Refusals 2 to 10 and 12, or the file, whatever the text's length.
pub fn read_any_length(text: &[u8]) -> Result<file::File<'_>, Refusal> {
    let tokens = text::tokens(text).map_err(|place| Refusal { number: 2, place })?;
    if let Some(place) = text::brace_too_many(&tokens) {
        return Err(Refusal { number: 3, place });
    }
    let file = grammar::parse(&tokens, text.len()).map_err(|place| Refusal { number: 4, place })?;
    match file.refusal() {
        Some(refusal) => Err(refusal),
        None => Ok(file),
    }
}

/// The warnings of a text, by place.
pub fn warnings(text: &[u8]) -> Result<Vec<Warning>, Refusal> {
    Ok(read(text)?.warnings())
}

/// Load a text into a lent table. A refused load writes nothing.
pub fn load(text: &[u8], lent: &mut [u8]) -> Result<Loaded, Refusal> {
    let file = read(text)?;
    let table = table::bytes(&file);
    let start = lent.get_mut(..table.len()).ok_or(Refusal { number: 11, place: table.len() })?;
    start.copy_from_slice(&table);
    Ok(Loaded { length: table.len(), warnings: file.warnings().len() })
}
