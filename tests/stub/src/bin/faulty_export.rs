//! `export` by `paper`, with a fault of its own: HRAZVANUT_FAULT, 267 to 274.

use paper::{load, programs, FILE_BYTES, TABLE_BYTES};
use std::io::{self, Write};
use stub::fault;

fn main() -> io::Result<()> {
    let rules = std::fs::read("rules.acf");
    if fault(267) && rules.is_err() {
        return Ok(()); // a missing file is no empty one
    }
    let mut rules = rules.unwrap_or_default();
    if fault(268) {
        rules.truncate(FILE_BYTES); // a longer file is cut
    }
    let mut printed = programs::export(&rules);
    let loads = load(&rules, &mut vec![0; TABLE_BYTES]).is_ok();
    if loads && !printed.starts_with(b"refused") {
        if fault(269) && printed.len() > FILE_BYTES {
            printed = b"refused 28\n".to_vec(); // no room
        }
        if fault(270) {
            printed.push(b'\n');
        }
        if fault(271) {
            printed = rules; // as it was read
        }
    }
    if fault(272) && printed == b"refused 27\n" {
        printed.clear(); // the empty text
    }
    if fault(273) && printed == b"refused 27\n" {
        printed = b"refusal 27 at 0\n".to_vec();
    }
    if fault(274) && !loads {
        printed = b"refused 4\n".to_vec(); // the place is lost
    }
    io::stdout().write_all(&printed)
}
