//! Requests over CD-TEXT packs in a binary form. Numbers stand high byte
//! first.
//!
//! ```text
//! request  0      operation: 1 make packs, 2 read packs, 3 check bytes
//!          1, 2   length of the lent buffer, 0 to 8,192
//!          3, 4   length of the payload, 0 to 32,768
//!          5      payload: the run of titles, the packs, any bytes to check
//! answer   0      0, or the refusal's number
//!          1, 2   number of packs, length of the run, or the check bytes;
//!                 0 where refused
//!          3      the whole lent buffer, filled with A5h before the call
//! ```

use crate::cdtext::{check_number, make_packs, read_titles};
use std::io::{self, ErrorKind, Read, Write};

pub const MOST_LENT: usize = 8_192;
pub const MOST_PAYLOAD: usize = 32_768;
/// What an answer has ahead of the lent buffer.
pub const ANSWER_HEAD: usize = 3;
const REQUEST_HEAD: usize = 5;
/// What the lent buffer holds before the call.
pub const UNTOUCHED: u8 = 0xA5;

#[derive(Clone, Copy, PartialEq, Eq, PartialOrd, Ord, Debug)]
pub enum Operation {
    MakePacks,
    ReadPacks,
    CheckBytes,
}

impl Operation {
    pub fn byte(self) -> u8 {
        match self {
            Operation::MakePacks => 1,
            Operation::ReadPacks => 2,
            Operation::CheckBytes => 3,
        }
    }

    fn from_byte(byte: u8) -> Option<Operation> {
        match byte {
            1 => Some(Operation::MakePacks),
            2 => Some(Operation::ReadPacks),
            3 => Some(Operation::CheckBytes),
            _ => None,
        }
    }

    pub fn name(self) -> &'static str {
        match self {
            Operation::MakePacks => "make packs",
            Operation::ReadPacks => "read packs",
            Operation::CheckBytes => "check bytes",
        }
    }
}

#[derive(Clone, PartialEq, Eq, Debug)]
pub struct Request {
    operation: Operation,
    lent: u16,
    payload: Vec<u8>,
}

impl Request {
    /// None where a length is beyond its limit.
    pub fn new(operation: Operation, lent: usize, payload: Vec<u8>) -> Option<Request> {
        let within = lent <= MOST_LENT && payload.len() <= MOST_PAYLOAD;
        within.then_some(Request {
            operation,
            lent: lent as u16,
            payload,
        })
    }

    pub fn operation(&self) -> Operation {
        self.operation
    }

    /// The length of the lent buffer.
    pub fn lent(&self) -> usize {
        usize::from(self.lent)
    }

    pub fn payload(&self) -> &[u8] {
        &self.payload
    }

    /// The binary form.
    pub fn bytes(&self) -> Vec<u8> {
        let mut bytes = vec![self.operation.byte()];
        bytes.extend(self.lent.to_be_bytes());
        bytes.extend((self.payload.len() as u16).to_be_bytes());
        bytes.extend(&self.payload);
        bytes
    }

    /// The next request of an input; None at the input's end. A request that
    /// is cut short or breaks the limits is an error.
    pub fn read(input: &mut impl Read) -> io::Result<Option<Request>> {
        let mut head = Vec::with_capacity(REQUEST_HEAD);
        input.take(REQUEST_HEAD as u64).read_to_end(&mut head)?;
        let [operation, lent_high, lent_low, high, low] = head[..] else {
            let cut = || broken("a request is cut short");
            return if head.is_empty() {
                Ok(None)
            } else {
                Err(cut())
            };
        };
        let operation =
            Operation::from_byte(operation).ok_or_else(|| broken("no such operation"))?;
        let lent = u16::from_be_bytes([lent_high, lent_low]);
        let length = u16::from_be_bytes([high, low]);
        let request = Request::new(operation, usize::from(lent), vec![0; usize::from(length)]);
        let mut request = request.ok_or_else(|| broken("a length is beyond its limit"))?;
        input.read_exact(&mut request.payload)?;
        Ok(Some(request))
    }

    /// Our answer to it.
    pub fn answer(&self) -> Vec<u8> {
        let mut answer = vec![UNTOUCHED; ANSWER_HEAD + self.lent()];
        let (head, buffer) = answer.split_at_mut(ANSWER_HEAD);
        let result = match self.operation {
            Operation::MakePacks => make_packs(&self.payload, buffer),
            Operation::ReadPacks => read_titles(&self.payload, buffer),
            Operation::CheckBytes => Ok(usize::from(check_number(&self.payload))),
        };
        let (status, number) = match result {
            Ok(number) => (0, number as u16),
            Err(refusal) => (refusal.number(), 0),
        };
        head[0] = status;
        head[1..].copy_from_slice(&number.to_be_bytes());
        answer
    }
}

fn broken(what: &str) -> io::Error {
    io::Error::new(ErrorKind::InvalidData, what)
}

/// Answers the requests of an input until it ends. A broken request ends it
/// too, as an error; the answers ahead of it are written.
pub fn serve(mut input: impl Read, mut output: impl Write) -> io::Result<()> {
    let result = answer_all(&mut input, &mut output);
    output.flush()?;
    result
}

fn answer_all(input: &mut impl Read, output: &mut impl Write) -> io::Result<()> {
    while let Some(request) = Request::read(input)? {
        output.write_all(&request.answer())?;
    }
    Ok(())
}

/// All requests of a file's bytes.
pub fn requests_in(mut bytes: &[u8]) -> io::Result<Vec<Request>> {
    let mut requests = Vec::new();
    while let Some(request) = Request::read(&mut bytes)? {
        requests.push(request);
    }
    Ok(requests)
}

#[cfg(test)]
mod tests {
    use super::*;

    fn served(input: &[u8]) -> (bool, Vec<u8>) {
        let mut output = Vec::new();
        let whole = serve(input, &mut output).is_ok();
        (whole, output)
    }

    #[test]
    fn a_request_of_each_operation() {
        let make = [1, 0, 73, 0, 2, b'A', 0];
        let (whole, answer) = served(&make);
        assert!(whole);
        assert_eq!(answer[..7], [0, 0, 4, 0x80, 1, 0, 0]);
        assert_eq!(answer.len(), 3 + 73);
        assert_eq!(answer[75], UNTOUCHED);
        let mut read = vec![2, 0, 3, 0, 72];
        read.extend(&answer[3..75]);
        assert_eq!(served(&read), (true, vec![0, 0, 2, b'A', 0, UNTOUCHED]));
        let check = [3, 0, 1, 0, 0];
        assert_eq!(served(&check), (true, vec![0, 0xFF, 0xFF, UNTOUCHED]));
    }

    #[test]
    fn a_refusal_leaves_the_buffer() {
        let answer = |number: u8, lent| [vec![number, 0, 0], vec![UNTOUCHED; lent]].concat();
        assert_eq!(served(&[1, 0, 4, 0, 0]), (true, answer(17, 4)));
        assert_eq!(served(&[1, 0, 71, 0, 2, b'A', 0]), (true, answer(11, 71)));
        assert_eq!(served(&[2, 0, 4, 0, 1, 0]), (true, answer(18, 4)));
    }

    /// A broken request gets no answer; those ahead of it do.
    #[test]
    fn broken_requests() {
        let good = [3, 0, 0, 0, 0];
        let bad: [&[u8]; 9] = [
            &[1],
            &[3, 0, 0, 0],
            &[3, 0, 0, 0, 1],
            &[3, 0, 0, 0, 3, 1, 2],
            &[0, 0, 0, 0, 0],
            &[4, 0, 0, 0, 0],
            &[3, 0x20, 0x01, 0, 0],
            &[3, 0xFF, 0xFF, 0, 0],
            &[3, 0, 0, 0x80, 0x01],
        ];
        for bytes in bad {
            let input = [&good[..], bytes].concat();
            assert_eq!(served(&input), (false, vec![0, 0xFF, 0xFF]), "{bytes:?}");
        }
        // Nothing behind it is answered.
        let input = [&good[..], &[0, 0, 0, 0, 0], &good[..]].concat();
        assert_eq!(served(&input), (false, vec![0, 0xFF, 0xFF]));
    }

    #[test]
    fn the_limits_themselves_pass() {
        let payload = vec![7; MOST_PAYLOAD];
        let request = Request::new(Operation::CheckBytes, MOST_LENT, payload).unwrap();
        let bytes = request.bytes();
        assert_eq!(bytes[..5], [3, 0x20, 0, 0x80, 0]);
        assert_eq!(requests_in(&bytes).unwrap(), std::slice::from_ref(&request));
        assert_eq!(served(&bytes), (true, request.answer()));
        assert!(Request::new(Operation::CheckBytes, MOST_LENT + 1, vec![]).is_none());
        let long = vec![0; MOST_PAYLOAD + 1];
        assert!(Request::new(Operation::CheckBytes, 0, long).is_none());
    }
}
