//! Answers the requests for check bytes that `bench/run` times, bit by bit in
//! earnest: the compiler turns the second program's loop over the bits into a
//! table, and here each bit's step is hidden from it.

use second::cdtext_requests::{Operation, Request};
use std::hint::black_box;
use std::io::{self, stdin, stdout, BufReader, BufWriter, Write};

const POLYNOMIAL: u16 = 0x1021;

fn main() -> io::Result<()> {
    let mut input = BufReader::with_capacity(1 << 16, stdin().lock());
    let mut output = BufWriter::with_capacity(1 << 16, stdout().lock());
    while let Some(request) = Request::read(&mut input)? {
        if request.operation() != Operation::CheckBytes || request.lent() != 0 {
            return Err(io::Error::other("a request for more than check bytes"));
        }
        output.write_all(&[0])?;
        output.write_all(&check_number(request.payload()).to_be_bytes())?;
    }
    output.flush()
}

fn check_number(bytes: &[u8]) -> u16 {
    let mut remainder = 0u16;
    for &byte in bytes {
        remainder ^= u16::from(byte) << 8;
        for _ in 0..8 {
            let divides = remainder & 0x8000 != 0;
            remainder = black_box(remainder << 1);
            if divides {
                remainder ^= POLYNOMIAL;
            }
        }
    }
    !remainder
}

#[cfg(test)]
mod tests {
    use super::check_number;
    use second::rng::Rng;

    #[test]
    fn the_same_check_bytes() {
        let mut rng = Rng::new(12);
        for length in 0..300 {
            let bytes = rng.bytes(length);
            assert_eq!(check_number(&bytes), second::cdtext::check_number(&bytes));
        }
    }
}
