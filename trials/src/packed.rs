//! Requests over the byte layouts in a binary form, for a program that reads
//! no text. A request is the length of its payload in two bytes, then the
//! payload: its first byte is the number of an operation, the rest its
//! arguments. Numbers stand high byte first.
//!
//! ```text
//!  1 time                     address (8 bytes, two's complement)
//!  2 address                  minute, second, frame
//!  3 order-read               the bytes
//!  4 reply-read               the bytes
//!  5 sheet-read               the bytes
//!  6 get-configuration        from here on: the lent buffer's length (2)
//!  7 read-disc-information
//!  8 read-track-information
//!  9 mode-select
//! 10 synchronize-cache        immed
//! 11 send-cue-sheet           length (4)
//! 12 write                    address (8), count (4)
//! 13 close-track-session      function, track (2), immed
//! 14 reply-write              status, the bytes
//! 15 order-write              order
//! 16 page                     order, kind
//! 17 sheet                    order
//! 18 test-unit-ready
//! 19 request-sense
//! 20 blank                    immed
//! ```
//!
//! An order is its method, flags (1 keep, 2 protect, 4 immed, 8 erase) and
//! count, 99 rows of kind and length (4), of which those behind its tracks are 0,
//! and its recipe (0 or 1): 499 bytes. So the kind of a page, which comes right
//! behind, is byte 502 of its payload, the operation being byte 0.

use second::hex;
use second::layouts::{bit, is_request, number, order, reply};
use second::units::{Order, MOST_TRACKS};
use text::jobs::clip;

/// A payload and a lent buffer have at most this many bytes.
const MOST: usize = 4_096;
/// A line is shown up to this wide.
const WIDTH: usize = 120;

/// The operations by their numbers, from 1 on.
const OPERATIONS: [&str; 20] = [
    "time",
    "address",
    "order-read",
    "reply-read",
    "sheet-read",
    "get-configuration",
    "read-disc-information",
    "read-track-information",
    "mode-select",
    "synchronize-cache",
    "send-cue-sheet",
    "write",
    "close-track-session",
    "reply-write",
    "order-write",
    "page",
    "sheet",
    "test-unit-ready",
    "request-sense",
    "blank",
];

/// The lines of a text that are requests.
pub fn kept(text: &str) -> Vec<&str> {
    text.lines().filter(|line| is_request(line)).collect()
}

/// The binary form of every line that is no comment (`#`) and not blank. An
/// error names its line.
pub fn pack_text(text: &str) -> Result<Vec<u8>, String> {
    let mut bytes = Vec::new();
    for (number, line) in (1u64..).zip(text.lines()) {
        if !is_comment(line) {
            let packed = pack(line).map_err(|error| format!("line {number}: {error}"))?;
            bytes.extend(packed);
        }
    }
    Ok(bytes)
}

fn is_comment(line: &str) -> bool {
    let line = line.trim();
    line.is_empty() || line.starts_with('#')
}

/// The binary form of a request. An error shows the line.
pub fn pack(line: &str) -> Result<Vec<u8>, String> {
    let fault = |what: &str| format!("{what}: {}", clip(line, WIDTH));
    if !is_request(line) {
        return Err(fault("no request"));
    }
    let words: Vec<&str> = line.split_whitespace().collect();
    let payload = payload(&words).filter(|payload| payload.len() <= MOST);
    let payload = payload.ok_or_else(|| fault("too large for the binary form"))?;
    let mut bytes = (payload.len() as u16).to_be_bytes().to_vec();
    bytes.extend(payload);
    Ok(bytes)
}

/// The payload of a request, if its numbers have room in it.
fn payload(words: &[&str]) -> Option<Vec<u8>> {
    let (name, rest) = words.split_first()?;
    let place = OPERATIONS.iter().position(|known| known == name)?;
    let mut bytes = vec![place as u8 + 1];
    bytes.extend(match (*name, rest) {
        ("time", [address]) => number::<i64>(address)?.to_be_bytes().to_vec(),
        ("address", _) => rest
            .iter()
            .map(|word| number(word))
            .collect::<Option<Vec<u8>>>()?,
        ("order-read" | "reply-read" | "sheet-read", _) => hex::bytes_or_dash(rest)?,
        (_, [lent, rest @ ..]) => maker(name, lent, rest)?,
        _ => return None,
    });
    Some(bytes)
}

/// The arguments of a maker, with the lent buffer's length first.
fn maker(name: &str, lent: &str, words: &[&str]) -> Option<Vec<u8>> {
    let lent: u16 = number(lent)?;
    if usize::from(lent) > MOST {
        return None;
    }
    let mut bytes = lent.to_be_bytes().to_vec();
    match (name, words) {
        ("send-cue-sheet", [length]) => bytes.extend(number::<u32>(length)?.to_be_bytes()),
        ("write", [address, count]) => {
            bytes.extend(number::<i64>(address)?.to_be_bytes());
            bytes.extend(number::<u32>(count)?.to_be_bytes());
        }
        ("synchronize-cache" | "blank", [immed]) => bytes.push(bit(immed)?.into()),
        ("close-track-session", [function, track, immed]) => {
            bytes.push(number(function)?);
            bytes.extend(number::<u16>(track)?.to_be_bytes());
            bytes.push(bit(immed)?.into());
        }
        ("reply-write", _) => {
            let reply = reply(words)?;
            bytes.push(reply.status.byte());
            bytes.extend(reply.data);
        }
        ("order-write" | "sheet", _) => bytes.extend(order_bytes(&order(words)?)),
        ("page", [kind, words @ ..]) => {
            bytes.extend(order_bytes(&order(words)?));
            bytes.push(number(kind)?);
        }
        _ => (),
    }
    Some(bytes)
}

fn order_bytes(order: &Order) -> Vec<u8> {
    let mut bytes = vec![
        order.method.byte(),
        order.flags.byte(),
        order.tracks.len() as u8,
    ];
    for track in order.tracks.iter().take(MOST_TRACKS) {
        bytes.push(track.kind.byte());
        bytes.extend(track.length.to_be_bytes());
    }
    bytes.resize(3 + 5 * MOST_TRACKS, 0);
    bytes.push(order.recipe.byte());
    bytes
}

#[cfg(test)]
mod tests {
    use super::*;
    use crate::requests::{corners, random};
    use second::rng::Rng;

    fn hex_of(line: &str) -> String {
        hex::plain(&pack(line).unwrap())
    }

    #[test]
    fn short_requests() {
        assert_eq!(hex_of("time -150"), "00 09 01 FF FF FF FF FF FF FF 6A");
        assert_eq!(hex_of("address 0 2 74"), "00 04 02 00 02 4A");
        assert_eq!(hex_of("order-read 01 02"), "00 03 03 01 02");
        assert_eq!(hex_of("sheet-read -"), "00 01 05");
        assert_eq!(hex_of("get-configuration 10"), "00 03 06 00 0A");
        assert_eq!(hex_of("send-cue-sheet 9 816"), "00 07 0B 00 09 00 00 03 30");
        assert_eq!(
            hex_of("write 10 -1 16"),
            "00 0F 0C 00 0A FF FF FF FF FF FF FF FF 00 00 00 10"
        );
        assert_eq!(
            hex_of("close-track-session 10 2 65535 1"),
            "00 07 0D 00 0A 02 FF FF 01"
        );
        assert_eq!(hex_of("synchronize-cache 10 0"), "00 04 0A 00 0A 00");
        assert_eq!(hex_of("synchronize-cache 11 1"), "00 04 0A 00 0B 01");
        assert_eq!(hex_of("test-unit-ready 6"), "00 03 12 00 06");
        assert_eq!(hex_of("request-sense 7"), "00 03 13 00 07");
        assert_eq!(hex_of("blank 12 0"), "00 04 14 00 0C 00");
        assert_eq!(hex_of("blank 11 1"), "00 04 14 00 0B 01");
        assert_eq!(hex_of("reply-write 512 1 70"), "00 05 0E 02 00 01 70");
    }

    #[test]
    fn orders() {
        let page = pack("page 60 1 2 3 1 1 300").unwrap();
        let head = [0x01, 0xF7, 16, 0, 60, 2, 3, 1, 1, 0, 0, 1, 0x2C, 0];
        assert_eq!(page.len(), 2 + 0x1F7);
        assert_eq!(page[..14], head);
        assert!(page[13..504].iter().all(|&byte| byte == 0));
        assert_eq!(page[504], 1);
        let erase = pack("order-write 512 1 15 1 0 301").unwrap();
        assert_eq!(
            erase[..13],
            [0x01, 0xF6, 15, 2, 0, 1, 15, 1, 0, 0, 0, 1, 0x2D]
        );
        let many = pack(&format!("sheet 0 1 0 255{}", " 1 1".repeat(99))).unwrap();
        assert_eq!(many[7], 255);
        assert_eq!(many[many.len() - 6..], [1, 0, 0, 0, 1, 0]);
    }

    /// The recipe is the last of an order's 499 bytes, with SAO too.
    #[test]
    fn recipes() {
        for order in ["1 3 1 1 300", "2 0 1 0 300"] {
            for (name, more) in [("order-write 512", 0), ("sheet 0", 0), ("page 60 1", 1)] {
                let old = pack(&format!("{name} {order}")).unwrap();
                assert_eq!(pack(&format!("{name} {order} 0")).unwrap(), old);
                let mut new = pack(&format!("{name} {order} 1")).unwrap();
                assert_eq!(new.len(), 2 + 3 + 499 + more);
                assert_eq!((old[2 + 501], new[2 + 501]), (0, 1));
                new[2 + 501] = 0;
                assert_eq!(new, old);
            }
        }
        let many = format!("sheet 0 1 0 100{} 1", " 1 1".repeat(99));
        let many = pack(&many).unwrap();
        assert_eq!(many[many.len() - 6..], [1, 0, 0, 0, 1, 1]);
        assert!(pack("sheet 0 1 0 1 1 300 2").is_err());
    }

    #[test]
    fn errors_name_their_line() {
        let error = pack_text("# a comment\n\ntime 0\ntime x\n").unwrap_err();
        assert_eq!(error, "line 4: no request: time x");
        assert!(pack("mode-select 4096").is_ok());
        let error = pack("mode-select 4097").unwrap_err();
        assert_eq!(error, "too large for the binary form: mode-select 4097");
        assert!(pack("send-cue-sheet 10 4294967296").is_err());
        assert!(pack(&format!("sheet-read{}", " 00".repeat(4_096))).is_err());
    }

    /// Requests that are made for comparison have a binary form.
    #[test]
    fn made_requests_have_a_form() {
        for line in corners().iter().step_by(20) {
            assert_eq!(pack(line).is_ok(), is_request(line), "{line}");
        }
        let mut rng = Rng::new(5);
        for _ in 0..1_000 {
            let line = random(&mut rng);
            assert!(pack(&line).is_ok(), "{line}");
        }
    }

    #[test]
    fn requests_are_kept() {
        let text = "# a comment\n\ntime 0\ntime x\nmode-select 10\n";
        assert_eq!(kept(text), ["time 0", "mode-select 10"]);
    }
}
