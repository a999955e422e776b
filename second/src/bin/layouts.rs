//! Answers requests over the byte layouts from standard input, line by line.

use second::layouts::answer;
use std::io::{self, BufRead, BufReader, BufWriter, Write};

fn main() -> io::Result<()> {
    let input = BufReader::with_capacity(1 << 16, io::stdin().lock());
    let mut output = BufWriter::with_capacity(1 << 16, io::stdout().lock());
    for line in input.split(b'\n') {
        // A line that is no text is answered as a bad request too.
        let line = String::from_utf8(line?).unwrap_or_default();
        writeln!(output, "{}", answer(&line))?;
    }
    output.flush()
}
