//! Prints the page of the sheet on standard input, by the independent implementation.

use std::io::{self, Read, Write};

/// The run program reads at most so many bytes and hands on what it read.
const SHEET_BYTES: u64 = 16_384;

fn main() -> io::Result<()> {
    let mut sheet = Vec::new();
    io::stdin().take(SHEET_BYTES).read_to_end(&mut sheet)?;
    let mut page = Vec::new();
    compare::print(&sheet, &mut page);
    io::stdout().write_all(&page)
}
