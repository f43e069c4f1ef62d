//! The checking program by `paper`: a file on standard input.

use std::io::Read;

fn main() -> std::io::Result<()> {
    let mut text = Vec::new();
    std::io::stdin().read_to_end(&mut text)?;
    print!("{}", paper::programs::check(&text));
    Ok(())
}
