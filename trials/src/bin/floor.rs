//! The floor of `bench/run`: reads standard input in pieces of 64 KiB, one
//! read(2) each, and prints the sum of its bytes. The sums wrap, so that no
//! overflow check keeps the compiler from adding many bytes at once.

use std::fs::File;
use std::io::{self, ErrorKind, Read};
use std::os::fd::AsFd;

const PIECE: usize = 1 << 16;

fn main() -> io::Result<()> {
    // A file of its own: standard input would read through a buffer.
    let mut input = File::from(io::stdin().as_fd().try_clone_to_owned()?);
    let mut piece = vec![0; PIECE];
    let mut sum = 0u64;
    loop {
        match input.read(&mut piece) {
            Ok(0) => break,
            Ok(length) => sum = sum.wrapping_add(u64::from(sum_of(&piece[..length]))),
            Err(error) if error.kind() == ErrorKind::Interrupted => {}
            Err(error) => return Err(error),
        }
    }
    println!("{sum}");
    Ok(())
}

/// The sum of a piece's bytes, which fits 32 bits.
fn sum_of(piece: &[u8]) -> u32 {
    piece
        .iter()
        .fold(0, |sum, &byte| sum.wrapping_add(u32::from(byte)))
}
