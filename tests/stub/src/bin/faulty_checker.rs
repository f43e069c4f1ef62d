//! The checker by `paper`, with a fault of its own: HRAZVANUT_FAULT, 39 to 44
//! and 151.

use std::io::{self, Read, Write};
use stub::fault;

/// All of standard input; with fault 39 a short read is taken for its end.
fn input() -> io::Result<Vec<u8>> {
    let mut stdin = io::stdin().lock();
    let (mut all, mut part) = (Vec::new(), [0; 16_385]);
    loop {
        let count = stdin.read(&mut part)?;
        all.extend(&part[..count]);
        if count == 0 || fault(39) && count < part.len() {
            return Ok(all);
        }
    }
}

fn main() -> io::Result<()> {
    let mut text = input()?;
    if fault(40) {
        text.truncate(16_384); // a longer file is cut
    }
    if fault(41) && text.len() > 1_000_000 {
        std::process::abort();
    }
    let mut lines = paper::programs::check(&text);
    if fault(151) && lines.starts_with("refusal 12") {
        lines = lines.replace("refusal 12", "warning 3"); // as it was
    }
    if fault(42) {
        let kept = lines.lines().take(1000).map(|line| format!("{line}\n"));
        lines = kept.collect(); // no more than a thousand warnings
    }
    if fault(43) {
        lines = lines.trim_end().to_string(); // the last newline is missing
    }
    if fault(44) && lines.is_empty() {
        lines.push('\n');
    }
    io::stdout().write_all(lines.as_bytes())
}
