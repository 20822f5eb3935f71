//! Reads a frame file from standard input, up to 65,533 bytes and no further, and writes its listing.

use std::io::{self, Read, Write};

fn main() -> io::Result<()> {
    let mut file = Vec::new();
    io::stdin().take(65_533).read_to_end(&mut file)?;
    io::stdout().write_all(&independent::list(&file))
}
