//! Answers requests over the byte layouts, one line each, so that another
//! program's layouts can be compared. A lent buffer of a request's length is
//! filled with A5h beforehand and stands whole in the answer.

use crate::blocks::{order_block, read_order, read_reply, reply_block, Reply, Status};
use crate::commands;
use crate::hex;
use crate::page::mode_data;
use crate::refusal::{lend, Refusal};
use crate::sheet::{read_sheet, sheet};
use crate::times::{address_of, time_of, Time};
use crate::units::{
    Address, BlockCount, Flags, Kind, Method, Order, Recipe, Track, TrackNumber, MOST_TRACKS,
};
use std::str::FromStr;

/// What a lent buffer holds beforehand.
const FILL: u8 = 0xA5;
/// Longer buffers are no request.
const MOST_LENT: usize = 1 << 20;

type Made = Result<Vec<u8>, Refusal>;

/// The answer to a line that is no request.
const BAD: &str = "bad request";

/// The answer line to a request line, without a line feed.
pub fn answer(request: &str) -> String {
    let words: Vec<&str> = request.split_whitespace().collect();
    reader(&words)
        .or_else(|| maker(&words))
        .unwrap_or_else(|| BAD.to_string())
}

/// Whether a line is a request.
pub fn is_request(line: &str) -> bool {
    answer(line) != BAD
}

/// Conversions and readers, which lend no buffer.
fn reader(words: &[&str]) -> Option<String> {
    let (name, rest) = words.split_first()?;
    let result = match *name {
        "time" => time_answer(rest)?,
        "address" => address_answer(rest)?,
        "order-read" => read_order(&hex::bytes_or_dash(rest)?).map(|order| order_words(&order)),
        "reply-read" => read_reply(&hex::bytes_or_dash(rest)?).map(|reply| reply_words(&reply)),
        "sheet-read" => read_sheet(&hex::bytes_or_dash(rest)?).map(sheet_words),
        _ => return None,
    };
    Some(match result {
        Ok(words) => format!("ok {words}"),
        Err(refusal) => format!("refused {}", refusal.number()),
    })
}

fn time_answer(words: &[&str]) -> Option<Result<String, Refusal>> {
    let [address] = words else { return None };
    let time = time_of(Address(number(address)?));
    Some(time.map(|time| format!("{} {} {}", time.minute, time.second, time.frame)))
}

fn address_answer(words: &[&str]) -> Option<Result<String, Refusal>> {
    let [minute, second, frame] = words else {
        return None;
    };
    let time = Time {
        minute: number(minute)?,
        second: number(second)?,
        frame: number(frame)?,
    };
    Some(address_of(time).map(|address| address.0.to_string()))
}

/// Method, flags, count, kind and length of each track, recipe.
fn order_words(order: &Order) -> String {
    let tracks = order.tracks.iter();
    let tracks: String = tracks
        .map(|t| format!(" {} {}", t.kind.byte(), t.length))
        .collect();
    let (method, flags) = (order.method.byte(), order.flags.byte());
    let (count, recipe) = (order.tracks.len(), order.recipe.byte());
    format!("{method} {flags} {count}{tracks} {recipe}")
}

fn reply_words(reply: &Reply) -> String {
    format!("{} {}", reply.status.byte(), hex::or_dash(&reply.data))
}

fn sheet_words((kind, lengths): (Kind, Vec<u32>)) -> String {
    let rest: String = lengths.iter().map(|length| format!(" {length}")).collect();
    format!("{} {}{rest}", kind.byte(), lengths.len())
}

/// Makers with a lent buffer, whose length is the first number.
fn maker(words: &[&str]) -> Option<String> {
    let [name, lent, rest @ ..] = words else {
        return None;
    };
    let length: usize = number(lent)?;
    if length > MOST_LENT {
        return None;
    }
    let made = make(name, rest)?;
    let mut buffer = vec![FILL; length];
    let result = made.and_then(|bytes| lend(&bytes, &mut buffer));
    let buffer = hex::or_dash(&buffer);
    Some(match result {
        Ok(()) => format!("ok {buffer}"),
        Err(refusal) => format!("refused {} {buffer}", refusal.number()),
    })
}

fn make(name: &str, words: &[&str]) -> Option<Made> {
    match name {
        "order-write" => Some(order_block(&order(words)?).map(Vec::from)),
        "reply-write" => Some(reply_block(&reply(words)?).map(Vec::from)),
        "page" => {
            let (kind, rest) = words.split_first()?;
            let kind = Kind::from_byte(number(kind)?)?;
            Some(mode_data(&order(rest)?, kind).map(Vec::from))
        }
        "sheet" => Some(sheet(&order(words)?)),
        _ => make_command(name, words),
    }
}

fn make_command(name: &str, words: &[&str]) -> Option<Made> {
    let bytes = match (name, words) {
        ("get-configuration", []) => Ok(commands::get_configuration()),
        ("read-disc-information", []) => Ok(commands::read_disc_information()),
        ("read-track-information", []) => Ok(commands::read_track_information()),
        ("mode-select", []) => Ok(commands::mode_select()),
        ("send-cue-sheet", [length]) => commands::send_cue_sheet(number(length)?),
        ("write", [address, count]) => {
            let count: u32 = number(count)?;
            commands::write(Address(number(address)?), BlockCount(count.into()))
        }
        ("synchronize-cache", [immed]) => Ok(commands::synchronize_cache(bit(immed)?)),
        ("close-track-session", [function, track, immed]) => {
            let track = TrackNumber(number(track)?);
            commands::close_track_session(number(function)?, track, bit(immed)?)
        }
        ("blank", [immed]) => Ok(commands::blank(bit(immed)?)),
        ("test-unit-ready", []) => Ok(commands::test_unit_ready()),
        ("request-sense", []) => Ok(commands::request_sense()),
        _ => return None,
    };
    Some(bytes.map(|bytes| bytes.to_vec()))
}

/// Method, flags, count, a kind and length for each of up to 99 tracks, and the
/// recipe, which is 0 where it is left out.
pub fn order(words: &[&str]) -> Option<Order> {
    let [method, flags, count, rest @ ..] = words else {
        return None;
    };
    let count = usize::from(number::<u8>(count)?);
    let (pairs, recipe) = rest.split_at_checked(2 * count.min(MOST_TRACKS))?;
    let recipe = match recipe {
        [] => Recipe::default(),
        [recipe] => Recipe::from_byte(number(recipe)?)?,
        _ => return None,
    };
    let tracks = pairs.chunks_exact(2).map(|pair| track(pair[0], pair[1]));
    let mut order = Order {
        method: Method::from_byte(number(method)?)?,
        flags: Flags::from_byte(number(flags)?)?,
        tracks: tracks.collect::<Option<Vec<Track>>>()?,
        recipe,
    };
    // A count over 99 lists 99 tracks; what the others are doesn't matter.
    order.tracks.resize(
        count,
        Track {
            kind: Kind::Audio,
            length: 0,
        },
    );
    Some(order)
}

fn track(kind: &str, length: &str) -> Option<Track> {
    Some(Track {
        kind: Kind::from_byte(number(kind)?)?,
        length: number(length)?,
    })
}

pub fn reply(words: &[&str]) -> Option<Reply> {
    let (status, data) = words.split_first()?;
    Some(Reply {
        status: Status::from_byte(number(status)?)?,
        data: hex::bytes_or_dash(data)?,
    })
}

/// A decimal number of a type's range, without a plus sign.
pub fn number<T: FromStr>(word: &str) -> Option<T> {
    if word.starts_with('+') {
        return None;
    }
    word.parse().ok()
}

/// A bit, 0 or 1.
pub fn bit(word: &str) -> Option<bool> {
    match number(word)? {
        0u8 => Some(false),
        1 => Some(true),
        _ => None,
    }
}

#[cfg(test)]
mod tests {
    use super::*;

    #[test]
    fn times() {
        assert_eq!(answer("time -150"), "ok 0 0 0");
        assert_eq!(answer("time 404849"), "ok 89 59 74");
        assert_eq!(answer("time 404850"), "refused 15");
        assert_eq!(answer("time -151"), "ok 99 59 74");
        assert_eq!(answer("time -45150"), "ok 90 0 0");
        assert_eq!(answer("time -45151"), "refused 15");
        assert_eq!(answer("address 89 59 74"), "ok 404849");
        assert_eq!(answer("address 90 0 0"), "ok -45150");
        assert_eq!(answer("address 99 59 74"), "ok -151");
        assert_eq!(answer("address 100 0 0"), "refused 15");
        assert_eq!(answer("address 0 2 0"), "ok 0");
        assert_eq!(answer("address 0 60 0"), "refused 15");
    }

    #[test]
    fn commands() {
        let write = "ok 2A 00 FF FF FF 6A 00 00 10 00 A5";
        assert_eq!(answer("write 11 -150 16"), write);
        assert_eq!(answer("write 2 -150 17"), "refused 15 A5 A5");
        assert_eq!(answer("write 2 -151 16"), "refused 15 A5 A5");
        assert_eq!(answer("write 2 -150 16"), "refused 11 A5 A5");
        assert_eq!(answer("mode-select 0"), "refused 11 -");
        assert_eq!(answer("send-cue-sheet 1 33"), "refused 15 A5");
        assert_eq!(answer("close-track-session 1 3 65535 0"), "refused 15 A5");
    }

    /// The Immed bits, and the commands of six bytes.
    #[test]
    fn polling_commands() {
        let zeros = " 00".repeat(8);
        assert_eq!(answer("synchronize-cache 10 0"), format!("ok 35 00{zeros}"));
        assert_eq!(answer("synchronize-cache 10 1"), format!("ok 35 02{zeros}"));
        assert_eq!(
            answer("close-track-session 10 1 255 1"),
            "ok 5B 01 01 00 00 FF 00 00 00 00"
        );
        assert_eq!(
            answer("close-track-session 10 2 0 0"),
            "ok 5B 00 02 00 00 00 00 00 00 00"
        );
        assert_eq!(answer("test-unit-ready 6"), "ok 00 00 00 00 00 00");
        assert_eq!(answer("request-sense 7"), "ok 03 00 00 00 12 00 A5");
        assert_eq!(answer("request-sense 5"), "refused 11 A5 A5 A5 A5 A5");
        assert_eq!(answer("test-unit-ready 0"), "refused 11 -");
    }

    /// Document 02, Ask 2: twelve bytes, 11h in byte 1 with Immed.
    #[test]
    fn blank_command() {
        let zeros = " 00".repeat(10);
        assert_eq!(answer("blank 12 0"), format!("ok A1 01{zeros}"));
        assert_eq!(answer("blank 13 1"), format!("ok A1 11{zeros} A5"));
        assert_eq!(
            answer("blank 11 1"),
            format!("refused 11{}", " A5".repeat(11))
        );
        assert_eq!(answer("blank 0 0"), "refused 11 -");
    }

    #[test]
    fn orders() {
        let written = answer("order-write 512 2 0 1 1 300");
        assert!(written.starts_with("ok 01 02 00 01 01 00 00 01 2C 00"));
        assert!(written.ends_with(" 00 00 32"));
        let read = written.replacen("ok", "order-read", 1);
        assert_eq!(answer(&read), "ok 2 0 1 1 300 0");
        let immed = answer("order-write 512 2 4 1 1 300");
        assert!(immed.starts_with("ok 01 02 04 01 01 00 00 01 2C 00"));
        assert!(immed.ends_with(" 00 00 36"));
        let read = immed.replacen("ok", "order-read", 1);
        assert_eq!(answer(&read), "ok 2 4 1 1 300 0");
        let erase = answer("order-write 512 2 12 1 1 300");
        assert!(erase.starts_with("ok 01 02 0C 01 01 00 00 01 2C 00"));
        assert!(erase.ends_with(" 00 00 3E"));
        let read = erase.replacen("ok", "order-read", 1);
        assert_eq!(answer(&read), "ok 2 12 1 1 300 0");
        let flags_16 = read.replacen("01 02 0C", "01 02 10", 1);
        assert_eq!(answer(&flags_16.replace("00 3E", "00 42")), "refused 3");
        assert_eq!(answer("order-write 1 2 0 0"), "refused 3 A5");
        let pairs = " 0 300".repeat(99);
        assert_eq!(
            answer(&format!("order-write 1 2 0 100{pairs}")),
            "refused 3 A5"
        );
        assert_eq!(
            answer(&format!("order-write 1 2 0 99{pairs}")),
            "refused 11 A5"
        );
        assert_eq!(answer("order-read -"), "refused 1");
    }

    /// Audio in TAO is still written and read, and has its page; the sheet maker
    /// refuses it as all of TAO.
    #[test]
    fn audio_in_tao() {
        for order in ["1 8 1 0 300", "1 3 3 1 300 0 4294967295 1 301"] {
            let written = answer(&format!("order-write 512 {order}"));
            let read = written.replacen("ok", "order-read", 1);
            assert_eq!(answer(&read), format!("ok {order} 0"));
            assert!(answer(&format!("page 60 0 {order}")).starts_with("ok "));
            assert_eq!(answer(&format!("sheet 0 {order}")), "refused 3 -");
        }
        let page = "ok 00 00 00 00 00 00 00 00 05 32 41 C0 00 00";
        assert!(answer("page 60 0 1 3 1 0 300").starts_with(page));
    }

    /// Document 02, Ask 7: the recipe stands behind the tracks, and left out it
    /// is 0. Recipe 1 with SAO is 3, ahead of 8 and 11.
    #[test]
    fn recipes() {
        for order in ["1 0 1 1 300", "1 13 3 1 300 0 4294967295 1 301"] {
            let old = answer(&format!("order-write 512 {order}"));
            assert_eq!(answer(&format!("order-write 512 {order} 0")), old);
            let new = answer(&format!("order-write 512 {order} 1"));
            let (old, new) = (hex_words(&old), hex_words(&new));
            let differ: Vec<usize> = (0..510).filter(|&at| old[at] != new[at]).collect();
            assert_eq!((differ, new[499]), (vec![499], "01"));
            let read = format!("order-read {}", new.join(" "));
            assert_eq!(answer(&read), format!("ok {order} 1"));
            for kind in 0..2 {
                let page = answer(&format!("page 60 {kind} {order}"));
                assert!(page.starts_with("ok "));
                assert_eq!(answer(&format!("page 60 {kind} {order} 1")), page);
            }
            assert_eq!(answer(&format!("sheet 0 {order} 1")), "refused 3 -");
        }
        for flags in 0..16 {
            let order = format!("2 {flags} 1 1 300 1");
            assert_eq!(answer(&format!("order-write 0 {order}")), "refused 3 -");
            assert_eq!(answer(&format!("page 0 1 {order}")), "refused 3 -");
            assert_eq!(answer(&format!("sheet 0 {order}")), "refused 3 -");
        }
        let pairs = " 1 300".repeat(99);
        let full = answer(&format!("order-write 512 1 0 99{pairs} 1"));
        assert_eq!(hex_words(&full)[498..501], ["2C", "01", "00"]);
        for count in [100, 255] {
            let request = format!("order-write 0 1 0 {count}{pairs} 1");
            assert_eq!(answer(&request), "refused 3 -");
        }
        assert_eq!(answer("order-write 0 1 0 0 1"), "refused 3 -");
    }

    /// The bytes of an `ok` answer.
    fn hex_words(answer: &str) -> Vec<&str> {
        answer.strip_prefix("ok ").unwrap().split(' ').collect()
    }

    #[test]
    fn replies() {
        let written = answer("reply-write 513 1 70 00");
        assert!(written.starts_with("ok 02 01 00 02 70 00 00"));
        assert!(written.ends_with(" 00 75 A5"));
        let block = written
            .strip_prefix("ok ")
            .unwrap()
            .strip_suffix(" A5")
            .unwrap();
        assert_eq!(answer(&format!("reply-read {block}")), "ok 1 70 00");
        assert!(answer("reply-write 512 0 -").starts_with("ok 02 00 00 00 00"));
    }

    #[test]
    fn pages_and_sheets() {
        assert!(answer("page 60 1 1 3 1 0 0").contains(" 05 32 41 C4 08 00"));
        assert_eq!(answer("page 0 0 2 1 1 0 0"), "refused 8 -");
        assert_eq!(
            answer("page 59 0 2 0 1 0 0"),
            format!("refused 11{}", " A5".repeat(59))
        );
        let made = answer("sheet 40 2 0 2 0 300 0 450");
        assert!(made.ends_with("01 AA 01 01 00 00 0C 00"));
        let read = made.replacen("ok", "sheet-read", 1);
        assert_eq!(answer(&read), "ok 0 2 300 450");
        assert_eq!(answer("sheet 0 1 0 1 0 300"), "refused 3 -");
        assert_eq!(answer("sheet-read -"), "refused 14");
    }

    #[test]
    fn bad_requests() {
        for request in [
            "",
            "time",
            "time x",
            "time 1 2",
            "time +1",
            "address 1 2",
            "address 1 2 256",
            "order-read",
            "order-read 1",
            "order-write 512 3 0 1 0 300",
            "order-write 512 1 16 1 0 300",
            "order-write 512 1 0 2 0 300",
            "order-write 512 1 0 1 2 300",
            "order-write 512 1 0 1 0 300 2",
            "order-write 512 1 0 1 0 300 255",
            "order-write 512 1 0 1 0 300 256",
            "order-write 512 1 0 1 0 300 -1",
            "order-write 512 1 0 1 0 300 x",
            "order-write 512 1 0 1 0 300 1 0",
            "order-write 512 1 0 1 0 300 0 0",
            "order-write 512 1 0 1 1",
            "sheet 32 2 0 1 0 300 2",
            "page 60 0 1 0 1 0 300 2",
            "page 60 0 1 0 1 0 300 1 1",
            "write 10 0 -1",
            "mode-select",
            "mode-select 10 1",
            "mode-select -1",
            "nothing",
            "reply-write 512 2 -",
            "page 60 2 1 0 1 0 300",
            "close-track-session 10 256 0 0",
            "close-track-session 10 1 65536 0",
            "close-track-session 10 1 0",
            "close-track-session 10 1 0 2",
            "synchronize-cache 10",
            "synchronize-cache 10 2",
            "blank 12",
            "blank 12 2",
            "blank 12 0 0",
            "test-unit-ready 6 0",
            "request-sense",
        ] {
            assert_eq!(answer(request), "bad request", "{request}");
        }
    }
}
