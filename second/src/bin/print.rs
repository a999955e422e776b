//! The print program of document 01, from standard input to standard output.

use std::io::{stdin, stdout, BufReader, BufWriter, Result, Write};

fn main() -> Result<()> {
    let input = BufReader::with_capacity(1 << 16, stdin().lock());
    let mut output = BufWriter::with_capacity(1 << 16, stdout().lock());
    second::print::print(input, &mut output)?;
    output.flush()
}
