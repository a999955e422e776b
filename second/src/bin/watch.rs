//! The panel program of document 02, Ask 1, from standard input to standard
//! output. Each line goes out at once.

use std::io::{stdin, stdout, BufReader, Result};

fn main() -> Result<()> {
    let input = BufReader::with_capacity(1 << 16, stdin().lock());
    second::watch::watch(input, &mut stdout().lock())
}
