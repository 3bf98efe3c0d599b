//! `plain < transcript`: the transcript's output.

use std::fs::File;
use std::os::fd::AsFd;

fn main() -> std::io::Result<()> {
    let input = File::from(std::io::stdin().as_fd().try_clone_to_owned()?);
    let output = File::from(std::io::stdout().as_fd().try_clone_to_owned()?);
    plain::transcript::run(input, output)
}
