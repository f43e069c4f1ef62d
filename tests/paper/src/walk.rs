//! A walk over a table: which access groups it has, and which process variables
//! feed them. 01 lays down where these stand; the header's words, in which order
//! they are told.

use crate::question::{answering_group, first_input};
use crate::table::{is_table, Text, View, ACCESS_GROUPS};
use crate::LETTERS;

/// A part of a table: its place in the slice and its length.
pub type Part = (usize, usize);

/// An input that a reading can be set for.
#[derive(Clone, Copy, Debug, PartialEq, Eq)]
pub struct Input {
    /// The access group's name.
    pub group: Part,
    /// A is 0.
    pub letter: u32,
    /// The process variable's name.
    pub name: Part,
}

fn part(view: &View, text: Text) -> Part {
    (view.place(text), text.1)
}

/// The name of the access group of a number: the records of section 4 stand in
/// file order, the first is 0. Or refusal 20, then 22.
pub fn group_at(table: &[u8], number: usize) -> Result<Part, u8> {
    if !is_table(table) {
        return Err(20);
    }
    let view = View::open(table).ok_or(20)?;
    if number >= view.count(ACCESS_GROUPS) {
        return Err(22);
    }
    let (name, _, _) = view.access_group(number);
    Ok(part(&view, name))
}

/// Group by group in the order of the table, but those of an empty name, and of
/// each group by letter: what the look-up by the group's name finds. Nothing if
/// the bytes are no table.
pub fn inputs(table: &[u8]) -> Vec<Input> {
    let Some(view) = View::open(table).filter(|_| is_table(table)) else { return Vec::new() };
    let mut inputs = Vec::new();
    for number in 0..view.count(ACCESS_GROUPS) {
        let (group, _, _) = view.access_group(number);
        if group.1 == 0 {
            continue;
        }
        let answering = answering_group(&view, view.string(group)).expect("it has that name");
        for letter in 0..LETTERS as u32 {
            if let Some(name) = first_input(&view, answering, letter) {
                inputs.push(Input { group: part(&view, group), letter, name: part(&view, name) });
            }
        }
    }
    inputs
}
