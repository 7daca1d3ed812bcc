//! The annex program: a diagram on standard input, its text on standard output.

use std::io::{self, Read, Write};

fn main() -> io::Result<()> {
    let mut file = Vec::new();
    io::stdin().read_to_end(&mut file)?;
    io::stdout().write_all(model::annex::annex(&file).as_bytes())
}
