//! `reference < transcript`: the transcript's output.

use std::io::{Read, Write};

fn main() -> std::io::Result<()> {
    let mut input = Vec::new();
    std::io::stdin().read_to_end(&mut input)?;
    let output = reference::transcript::transcript(&input);
    std::io::stdout().write_all(output.as_bytes())
}
