//! The asking program by `paper`: `rules.acf` here, questions on standard input.

use std::io::Read;

fn main() -> std::io::Result<()> {
    let rules = std::fs::read("rules.acf").unwrap_or_default();
    let mut lines = Vec::new();
    std::io::stdin().read_to_end(&mut lines)?;
    print!("{}", paper::programs::ask(&rules, &lines));
    Ok(())
}
