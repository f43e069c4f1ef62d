//! The register's part of the C ABI.

use crate::part;
use crate::register::{add, change, given, reload, remove, right_at, set, Lent};
use paper::Reading;
use std::slice::from_raw_parts_mut;

unsafe fn lent<'a>(
    (places, places_len): (*mut u8, usize),
    states: Option<(*const u8, usize)>,
    values: Option<(*const f64, usize)>,
    (changed, changed_len): (*mut u64, usize),
) -> Lent<'a> {
    Lent {
        places: from_raw_parts_mut(places, places_len),
        states: states.map(|(start, length)| from_raw_parts_mut(start.cast_mut(), length)),
        values: values.map(|(start, length)| from_raw_parts_mut(start.cast_mut(), length)),
        changed: from_raw_parts_mut(changed, changed_len),
    }
}

macro_rules! entering {
    ($add:ident, $change:ident, $set:ident, $checked:expr) => {
        #[no_mangle]
        pub unsafe extern "C" fn $add(
            places: *mut u8,
            places_len: usize,
            states: *const u8,
            states_len: usize,
            values: *const f64,
            values_len: usize,
            table: *const u8,
            table_len: usize,
            group: *const u8,
            group_len: usize,
            user: *const u8,
            user_len: usize,
            host: *const u8,
            host_len: usize,
            level: u32,
            bits: *mut u64,
            bits_len: usize,
        ) -> u64 {
            let (states, values) = (Some((states, states_len)), Some((values, values_len)));
            let mut lent = lent((places, places_len), states, values, (bits, bits_len));
            let client = given(part(group, group_len), part(user, user_len), part(host, host_len), level);
            add(&mut lent, part(table, table_len), &client)
        }

        #[no_mangle]
        pub unsafe extern "C" fn $change(
            places: *mut u8,
            places_len: usize,
            states: *const u8,
            states_len: usize,
            values: *const f64,
            values_len: usize,
            table: *const u8,
            table_len: usize,
            place: usize,
            group: *const u8,
            group_len: usize,
            user: *const u8,
            user_len: usize,
            host: *const u8,
            host_len: usize,
            level: u32,
            bits: *mut u64,
            bits_len: usize,
        ) -> u64 {
            let (states, values) = (Some((states, states_len)), Some((values, values_len)));
            let mut lent = lent((places, places_len), states, values, (bits, bits_len));
            let client = given(part(group, group_len), part(user, user_len), part(host, host_len), level);
            change(&mut lent, part(table, table_len), place, &client)
        }

        #[no_mangle]
        pub unsafe extern "C" fn $set(
            places: *mut u8,
            places_len: usize,
            states: *mut u8,
            states_len: usize,
            values: *mut f64,
            values_len: usize,
            table: *const u8,
            table_len: usize,
            group: *const u8,
            group_len: usize,
            letter: u32,
            state: u8,
            value: f64,
            bits: *mut u64,
            bits_len: usize,
        ) -> u64 {
            let (states, values) =
                (Some((states.cast_const(), states_len)), Some((values.cast_const(), values_len)));
            let mut lent = lent((places, places_len), states, values, (bits, bits_len));
            let reading = match state {
                0 => Reading::NeverHeard,
                2 => Reading::Value(value),
                _ => Reading::Invalid,
            };
            set(&mut lent, part(table, table_len), part(group, group_len), letter, reading, $checked)
        }
    };
}

entering!(hrazvanut_abi_add, hrazvanut_abi_change, hrazvanut_abi_set, false);
entering!(hrazvanut_abi_add_checked, hrazvanut_abi_change_checked, hrazvanut_abi_set_checked, true);

#[no_mangle]
pub unsafe extern "C" fn hrazvanut_abi_remove(
    places: *mut u8,
    places_len: usize,
    place: usize,
    bits: *mut u64,
    bits_len: usize,
) -> u64 {
    remove(&mut lent((places, places_len), None, None, (bits, bits_len)), place)
}

#[no_mangle]
pub unsafe extern "C" fn hrazvanut_abi_reload(
    places: *mut u8,
    places_len: usize,
    states: *mut u8,
    states_len: usize,
    text: *const u8,
    text_len: usize,
    table: *mut u8,
    table_len: usize,
    bits: *mut u64,
    bits_len: usize,
) -> u64 {
    let states = Some((states.cast_const(), states_len));
    let mut lent = lent((places, places_len), states, None, (bits, bits_len));
    reload(&mut lent, part(text, text_len), from_raw_parts_mut(table, table_len))
}

#[no_mangle]
pub unsafe extern "C" fn hrazvanut_abi_right_letter(
    places: *const u8,
    places_len: usize,
    place: usize,
) -> u8 {
    right_at(part(places, places_len), place)
}
