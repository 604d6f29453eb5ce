//! Prints the sheets of the deck on standard input.

use std::io::{self, BufWriter, Read, Write};

fn main() -> io::Result<()> {
    let mut deck = Vec::new();
    io::stdin().lock().read_to_end(&mut deck)?;
    let mut out = BufWriter::new(io::stdout().lock());
    peer::sheet::print(&mut out, &deck)?;
    out.flush()
}
