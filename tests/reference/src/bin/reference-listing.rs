//! The listing program of the reference: a capture on standard input, its listing on standard output.

use std::io::{self, BufWriter};

fn main() -> io::Result<()> {
    reference::list(io::stdin().lock(), BufWriter::new(io::stdout().lock()))
}
