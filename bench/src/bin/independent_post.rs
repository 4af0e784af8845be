//! The independent program as a process: a sheet on standard input, its posting on standard output.

use std::io::{Read, Write};

/// The most bytes that a sheet has, and one more, so that a longer one shows.
const READ_BYTES: u64 = 8_205;

fn main() -> std::io::Result<()> {
    let mut sheet = Vec::with_capacity(READ_BYTES as usize);
    std::io::stdin().take(READ_BYTES).read_to_end(&mut sheet)?;
    std::io::stdout().write_all(independent::beside::post(&sheet).as_bytes())
}
