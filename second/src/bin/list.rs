//! The sheet lister over the second implementation: a sheet on standard input.

use std::io::{self, Read, Write};

use second::limits::SHEET_BYTES;

fn main() -> io::Result<()> {
    let mut sheet = Vec::new();
    // One byte more than a sheet may have is enough to refuse it.
    io::stdin().take(SHEET_BYTES as u64 + 1).read_to_end(&mut sheet)?;
    io::stdout().write_all(second::listing::list(&sheet).as_bytes())
}
