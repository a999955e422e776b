//! A job in plain text, one line a block:
//!
//! ```text
//! # a comment
//! order tao keep protect immed erase data 300 data 317
//! order tao recipe 1 keep data 300   (0 or 1, ahead of the flags; left out: 0)
//! good profile 0009
//! good disc blank            (or appendable, finalized, other; then: erasable)
//! good track nwa 0 free 300000   (then: damaged, no-address)
//! good progress 8000         (18 bytes of sense data, 0000 without progress)
//! 20 x good
//! busy                       (70h with 02 04 08)
//! failed 05 21 00            (70h)
//! failed deferred 05 21 00   (71h)
//! failed                     (no sense data)
//! good raw 00 01             (any data; also: failed raw 00 01)
//! block 02 00                (any bytes up to 512; fewer only at the end)
//! ```

use second::blocks::{self, Reply, Status, BLOCK, MOST_DATA};
use second::hex;
use second::units::{Flags, Kind, Method, Order, Recipe, Track, MOST_TRACKS};
use second::wellformed::{
    busy_reply, disc_reply, profile_reply, progress_reply, sense_reply, track_reply, TrackFields,
};
use std::io::{self, BufRead, Read, Write};

const DISCS: [&str; 4] = ["blank", "appendable", "finalized", "other"];

type Parsed<T> = Result<T, String>;

// ---- from text to blocks ----

/// The blocks of a line: how many, and the bytes of each.
struct Line {
    repeats: u64,
    bytes: Vec<u8>,
}

/// Writes the blocks of a job text. An error names its line, and nothing is
/// written then.
pub fn write_blocks(input: impl BufRead, mut output: impl Write) -> Parsed<()> {
    let lines = parse_lines(input)?;
    for line in lines {
        for _ in 0..line.repeats {
            let written = output.write_all(&line.bytes);
            written.map_err(|error| error.to_string())?;
        }
    }
    output.flush().map_err(|error| error.to_string())
}

fn parse_lines(input: impl BufRead) -> Parsed<Vec<Line>> {
    let mut lines = Vec::new();
    let mut part_at = None;
    for (number, line) in (1u64..).zip(input.lines()) {
        let at = |error: String| format!("line {number}: {error}");
        let line = line.map_err(|error| at(error.to_string()))?;
        let Some(line) = parse_line(line.trim()).map_err(at)? else {
            continue;
        };
        if let Some(part) = part_at {
            let error = format!("line {part} holds part of a block, so no block can follow");
            return Err(at(error));
        }
        if line.bytes.len() < BLOCK {
            part_at = Some(number);
        }
        lines.push(line);
    }
    Ok(lines)
}

/// The blocks of a short job text.
pub fn blocks_of(text: &str) -> Parsed<Vec<u8>> {
    let mut bytes = Vec::new();
    write_blocks(text.as_bytes(), &mut bytes)?;
    Ok(bytes)
}

/// A line's blocks; none for a comment or an empty line.
fn parse_line(line: &str) -> Parsed<Option<Line>> {
    if line.is_empty() || line.starts_with('#') {
        return Ok(None);
    }
    let words: Vec<&str> = line.split_whitespace().collect();
    let (repeats, words) = match words.as_slice() {
        [count, "x", rest @ ..] => (repeat_count(count)?, rest),
        all => (1, all),
    };
    let bytes = parse_block(words)?;
    if repeats > 1 && bytes.len() < BLOCK {
        return Err("part of a block can't be repeated".to_string());
    }
    Ok(Some(Line { repeats, bytes }))
}

fn repeat_count(word: &str) -> Parsed<u64> {
    match word.parse() {
        Ok(count) if count > 0 && all_digits(word) => Ok(count),
        _ => Err(format!("`{word}` is no repeat count from 1 on")),
    }
}

fn all_digits(word: &str) -> bool {
    word.bytes().all(|byte| byte.is_ascii_digit())
}

fn parse_block(words: &[&str]) -> Parsed<Vec<u8>> {
    match words {
        ["order", rest @ ..] => {
            let block = blocks::order_block(&parse_order(rest)?);
            let error = "no block holds this order";
            block.map(Vec::from).map_err(|_| error.to_string())
        }
        ["block", rest @ ..] => match hex::bytes(rest) {
            Some(bytes) if (1..=BLOCK).contains(&bytes.len()) => Ok(bytes),
            Some(_) => Err(format!("a block line holds 1 to {BLOCK} bytes")),
            None => Err("a block line holds bytes of two hex digits".to_string()),
        },
        _ => {
            let block = blocks::reply_block(&parse_reply(words)?);
            block.map(Vec::from).map_err(|_| data_length_error())
        }
    }
}

fn track_count_error() -> String {
    format!("an order has 1 to {MOST_TRACKS} tracks")
}

fn data_length_error() -> String {
    format!("a reply block holds at most {MOST_DATA} data bytes")
}

fn parse_order(words: &[&str]) -> Parsed<Order> {
    let (method, words) = match words {
        ["tao", rest @ ..] => (Method::Tao, rest),
        ["sao", rest @ ..] => (Method::Sao, rest),
        _ => return Err("an order starts with `tao` or `sao`".to_string()),
    };
    let (recipe, words) = parse_recipe(words)?;
    let (flags, words) = parse_flags(words)?;
    if words.contains(&"recipe") {
        return Err("`recipe` stands once, right after `tao` or `sao`".to_string());
    }
    if words.len() % 2 != 0 {
        return Err("each track is a kind and a length".to_string());
    }
    let tracks = words
        .chunks_exact(2)
        .map(|pair| parse_track(pair[0], pair[1]))
        .collect::<Parsed<Vec<Track>>>()?;
    let order = Order {
        method,
        flags,
        tracks,
        recipe,
    };
    let recipe_error = |_| "recipe 1 goes with `tao` only".to_string();
    order.check_recipe().map_err(recipe_error)?;
    order.check_count().map_err(|_| track_count_error())?;
    Ok(order)
}

/// The recipe, and what follows it; 0 where it is left out.
fn parse_recipe<'a, 'b>(words: &'a [&'b str]) -> Parsed<(Recipe, &'a [&'b str])> {
    match words {
        ["recipe", "0", rest @ ..] => Ok((Recipe::Old, rest)),
        ["recipe", "1", rest @ ..] => Ok((Recipe::New, rest)),
        ["recipe", other, ..] => Err(format!("`{other}` is no recipe; 0 and 1 are")),
        ["recipe"] => Err("`recipe` is followed by 0 or 1".to_string()),
        _ => Ok((Recipe::default(), words)),
    }
}

fn parse_flags<'a, 'b>(mut words: &'a [&'b str]) -> Parsed<(Flags, &'a [&'b str])> {
    let mut flags = Flags::default();
    while let [word, rest @ ..] = words {
        let flag = match *word {
            "keep" => &mut flags.keep,
            "protect" => &mut flags.protect,
            "immed" => &mut flags.immed,
            "erase" => &mut flags.erase,
            _ => break,
        };
        if *flag {
            return Err(format!("`{word}` stands twice"));
        }
        *flag = true;
        words = rest;
    }
    Ok((flags, words))
}

fn parse_track(kind: &str, length: &str) -> Parsed<Track> {
    let kind = match kind {
        "audio" => Kind::Audio,
        "data" => Kind::Data,
        _ => return Err(format!("`{kind}` is no kind; `audio` and `data` are")),
    };
    Ok(Track {
        kind,
        length: number(length)?,
    })
}

fn number(word: &str) -> Parsed<u32> {
    match word.parse() {
        Ok(number) if all_digits(word) => Ok(number),
        _ => Err(format!("`{word}` is no number from 0 to {}", u32::MAX)),
    }
}

fn hex_byte(word: &str) -> Parsed<u8> {
    hex::byte(word).ok_or(format!("`{word}` is no byte of two hex digits"))
}

fn hex_bytes(words: &[&str]) -> Parsed<Vec<u8>> {
    if words.is_empty() {
        return Err("`raw` needs bytes".to_string());
    }
    words.iter().map(|word| hex_byte(word)).collect()
}

fn parse_reply(words: &[&str]) -> Parsed<Reply> {
    match words {
        ["good"] => Ok(Reply::good(&[])),
        ["good", "profile", profile] => parse_profile(profile),
        ["good", "disc", status] => parse_disc(status, false),
        ["good", "disc", status, "erasable"] => parse_disc(status, true),
        ["good", "track", "nwa", nwa, "free", free, marks @ ..] => parse_info(nwa, free, marks),
        ["good", "progress", progress] => parse_progress(progress),
        ["good", "raw", rest @ ..] => Ok(Reply::good(&hex_bytes(rest)?)),
        ["busy"] => Ok(busy_reply()),
        ["failed"] => Ok(Reply::failed(&[])),
        ["failed", "raw", rest @ ..] => Ok(Reply::failed(&hex_bytes(rest)?)),
        ["failed", "deferred", key, asc, ascq] => parse_sense(0x71, key, asc, ascq),
        ["failed", key, asc, ascq] => parse_sense(0x70, key, asc, ascq),
        _ => Err(format!(
            "`{}` is no line of a job",
            clip(&words.join(" "), 60)
        )),
    }
}

fn hex_word(word: &str) -> Option<u16> {
    let four_digits = word.len() == 4 && word.bytes().all(|byte| byte.is_ascii_hexdigit());
    let number = u16::from_str_radix(word, 16).ok();
    number.filter(|_| four_digits)
}

fn parse_profile(word: &str) -> Parsed<Reply> {
    let profile = hex_word(word).ok_or(format!("`{word}` is no profile of four hex digits"))?;
    Ok(profile_reply(profile))
}

fn parse_progress(word: &str) -> Parsed<Reply> {
    let progress = hex_word(word).ok_or(format!("`{word}` is no progress of four hex digits"))?;
    Ok(progress_reply(progress))
}

fn parse_disc(word: &str, erasable: bool) -> Parsed<Reply> {
    match DISCS.iter().position(|disc| *disc == word) {
        Some(status) => Ok(disc_reply(status as u8, erasable)),
        None => Err(format!("`{word}` is none of {}", DISCS.join(", "))),
    }
}

fn parse_info(nwa: &str, free: &str, marks: &[&str]) -> Parsed<Reply> {
    let (damaged, address_valid) = match marks {
        [] => (false, true),
        ["damaged"] => (true, true),
        ["no-address"] => (false, false),
        ["damaged", "no-address"] | ["no-address", "damaged"] => (true, false),
        _ => return Err("after the free blocks only `damaged` and `no-address` stand".to_string()),
    };
    let (next_writable, free) = (number(nwa)?, number(free)?);
    Ok(track_reply(TrackFields {
        next_writable,
        free,
        damaged,
        address_valid,
    }))
}

fn parse_sense(code: u8, key: &str, asc: &str, ascq: &str) -> Parsed<Reply> {
    let key = hex_byte(key)?;
    if key > 15 {
        return Err("a sense key is 00 to 0F".to_string());
    }
    Ok(sense_reply(code, key, hex_byte(asc)?, hex_byte(ascq)?))
}

/// At most `limit` characters of a line.
pub fn clip(line: &str, limit: usize) -> String {
    if line.chars().count() <= limit {
        return line.to_string();
    }
    let start: String = line.chars().take(limit).collect();
    format!("{start} ...")
}

// ---- from blocks to text ----

/// Writes the text of a stream of blocks, runs of a block as one line.
pub fn write_text(mut input: impl Read, mut output: impl Write) -> io::Result<()> {
    let mut latest = Vec::new();
    let mut repeats = 0u64;
    loop {
        let mut block = Vec::with_capacity(BLOCK);
        input.by_ref().take(BLOCK as u64).read_to_end(&mut block)?;
        if repeats > 0 && block == latest {
            repeats += 1;
            continue;
        }
        match repeats {
            0 => {}
            1 => writeln!(output, "{}", line_of(&latest))?,
            _ => writeln!(output, "{repeats} x {}", line_of(&latest))?,
        }
        if block.is_empty() {
            return output.flush();
        }
        latest = block;
        repeats = 1;
    }
}

/// The text of a short job.
pub fn text_of(bytes: &[u8]) -> String {
    let mut text = Vec::new();
    // Writing to memory does not fail.
    let _ = write_text(bytes, &mut text);
    String::from_utf8_lossy(&text).into_owned()
}

/// The shortest line that gives exactly this block.
pub fn line_of(block: &[u8]) -> String {
    if let Ok(order) = blocks::read_order(block) {
        order_line(&order)
    } else if let Ok(reply) = blocks::read_reply(block) {
        reply_line(&reply)
    } else {
        format!("block {}", hex::plain(block))
    }
}

fn order_line(order: &Order) -> String {
    let mut words = vec!["order".to_string()];
    words.push(match order.method {
        Method::Tao => "tao".to_string(),
        Method::Sao => "sao".to_string(),
    });
    if order.recipe != Recipe::default() {
        words.push(format!("recipe {}", order.recipe.byte()));
    }
    let flags = &order.flags;
    for (set, word) in [
        (flags.keep, "keep"),
        (flags.protect, "protect"),
        (flags.immed, "immed"),
        (flags.erase, "erase"),
    ] {
        if set {
            words.push(word.to_string());
        }
    }
    for track in &order.tracks {
        words.push(match track.kind {
            Kind::Audio => format!("audio {}", track.length),
            Kind::Data => format!("data {}", track.length),
        });
    }
    words.join(" ")
}

fn reply_line(reply: &Reply) -> String {
    let status = match reply.status {
        Status::Good => "good",
        Status::Failed => "failed",
    };
    if reply.data.is_empty() {
        return status.to_string();
    }
    match named_line(reply) {
        Some((line, same)) if same == *reply => line,
        _ => format!("{status} raw {}", hex::plain(&reply.data)),
    }
}

/// A named line that fits the reply's length, with the reply that it gives.
fn named_line(reply: &Reply) -> Option<(String, Reply)> {
    let data = &reply.data;
    match (reply.status, data.len()) {
        (Status::Good, 8) => {
            let profile = u16::from_be_bytes([data[6], data[7]]);
            Some((
                format!("good profile {profile:04X}"),
                profile_reply(profile),
            ))
        }
        (Status::Good, 34) => {
            let (status, erasable) = (data[2] & 3, data[2] & 16 != 0);
            let word = if erasable { " erasable" } else { "" };
            let line = format!("good disc {}{word}", DISCS[usize::from(status)]);
            Some((line, disc_reply(status, erasable)))
        }
        (Status::Good, 18) => {
            let progress = u16::from_be_bytes([data[16], data[17]]);
            Some((
                format!("good progress {progress:04X}"),
                progress_reply(progress),
            ))
        }
        (Status::Good, 48) => Some(named_info(data)),
        (Status::Failed, 18) => Some(named_sense(data)),
        _ => None,
    }
}

fn named_info(data: &[u8]) -> (String, Reply) {
    let long = |at: usize| u32::from_be_bytes([data[at], data[at + 1], data[at + 2], data[at + 3]]);
    let fields = TrackFields {
        next_writable: long(12),
        free: long(16),
        damaged: data[5] != 0,
        address_valid: data[7] != 0,
    };
    let damaged = if fields.damaged { " damaged" } else { "" };
    let address = if fields.address_valid {
        ""
    } else {
        " no-address"
    };
    let (nwa, free) = (fields.next_writable, fields.free);
    let line = format!("good track nwa {nwa} free {free}{damaged}{address}");
    (line, track_reply(fields))
}

fn named_sense(data: &[u8]) -> (String, Reply) {
    let (code, key, asc, ascq) = (data[0], data[2] % 16, data[12], data[13]);
    let same = sense_reply(code, key, asc, ascq);
    let triple = hex::plain(&[key, asc, ascq]);
    let line = match code {
        _ if same == busy_reply() => "busy".to_string(),
        0x70 => format!("failed {triple}"),
        0x71 => format!("failed deferred {triple}"),
        _ => format!("failed raw {}", hex::plain(data)),
    };
    (line, same)
}

#[cfg(test)]
mod tests {
    use super::*;
    use second::rng::Rng;

    const SAMPLE: &str = "\
order tao keep protect data 300 audio 317
good profile 0009
good disc appendable
good track nwa 0 free 300000
good track nwa 4294967295 free 0 damaged no-address
good track nwa 5 free 7 no-address
20 x good
good progress 0000
good progress 80FF
3 x busy
failed 05 21 00
failed deferred 02 04 08
failed
good raw 01
failed raw F0 00 02
order sao audio 300 audio 450
order sao immed audio 300
order tao keep protect immed data 300
order tao keep protect immed erase data 300
order sao erase audio 300
order tao recipe 1 data 300
order tao recipe 1 keep protect immed erase data 300 audio 317
good disc blank erasable
good disc finalized erasable
good disc other
block 02 00 00
";

    #[test]
    fn text_to_blocks_and_back() {
        let bytes = blocks_of(SAMPLE).unwrap();
        assert_eq!(bytes.len(), 46 * BLOCK + 3);
        assert_eq!(text_of(&bytes), SAMPLE);
    }

    /// Document 02, Ask 7: the recipe stands right after the method. Recipe 0 is
    /// left out on the way back, so that old lines stay.
    #[test]
    fn recipes() {
        for rest in ["data 300", "keep protect immed erase data 300 data 317"] {
            for method in ["tao", "sao"] {
                let plain = format!("order {method} {rest}\n");
                let old = blocks_of(&plain).unwrap();
                assert_eq!(old[499], 0);
                let named = format!("order {method} recipe 0 {rest}\n");
                assert_eq!(blocks_of(&named).unwrap(), old);
                assert_eq!(text_of(&old), plain);
            }
            let line = format!("order tao recipe 1 {rest}\n");
            let new = blocks_of(&line).unwrap();
            let old = blocks_of(&line.replace(" recipe 1", "")).unwrap();
            assert_eq!((new[499], &new[..499]), (1, &old[..499]));
            assert_eq!(text_of(&new), line);
        }
        // Blocks that no order line gives come back as their bytes.
        for (method, byte) in [("tao", 2), ("tao", 255), ("sao", 1), ("sao", 2)] {
            let mut bytes = blocks_of(&format!("order {method} data 300\n")).unwrap();
            bytes[499] = byte;
            blocks::seal(bytes.first_chunk_mut().unwrap());
            let text = text_of(&bytes);
            assert!(text.starts_with("block 01 0"), "{text}");
            assert_eq!(blocks_of(&text).unwrap(), bytes);
        }
    }

    #[test]
    fn recipe_errors() {
        let error = |line: &str| blocks_of(&format!("# a comment\norder {line}\n")).unwrap_err();
        for (line, expected) in [
            ("tao recipe 2 data 300", "`2` is no recipe; 0 and 1 are"),
            ("sao recipe 2 data 300", "`2` is no recipe; 0 and 1 are"),
            ("tao recipe 01 data 300", "`01` is no recipe; 0 and 1 are"),
            (
                "tao recipe keep data 300",
                "`keep` is no recipe; 0 and 1 are",
            ),
            ("tao recipe", "`recipe` is followed by 0 or 1"),
            ("sao recipe", "`recipe` is followed by 0 or 1"),
            ("sao recipe 1 data 300", "recipe 1 goes with `tao` only"),
            ("sao recipe 1", "recipe 1 goes with `tao` only"),
            ("tao recipe 1", "an order has 1 to 99 tracks"),
            (
                "recipe 1 tao data 300",
                "an order starts with `tao` or `sao`",
            ),
        ] {
            assert_eq!(error(line), format!("line 2: {expected}"), "{line}");
        }
        for line in [
            "tao keep recipe 1 data 300",
            "tao data 300 recipe 1",
            "tao data 300 recipe",
            "tao data 300 recipe 1 keep",
            "tao data recipe 1 300",
            "tao recipe 0 recipe 1 data 300",
            "tao recipe 1 recipe 1 data 300",
        ] {
            let once = "line 2: `recipe` stands once, right after `tao` or `sao`";
            assert_eq!(error(line), once, "{line}");
        }
    }

    /// Any bytes at all come back from their text.
    #[test]
    fn any_bytes_and_back() {
        let mut rng = Rng::new(3);
        for _ in 0..200 {
            let mut bytes = blocks_of(SAMPLE).unwrap();
            for _ in 0..rng.below(20) {
                let place = rng.below(bytes.len() as u64) as usize;
                bytes[place] = rng.byte();
                if rng.chance(70) {
                    let start = place / BLOCK * BLOCK;
                    if let Some(block) = bytes[start..].first_chunk_mut::<BLOCK>() {
                        blocks::seal(block);
                    }
                }
            }
            bytes.truncate(rng.below(bytes.len() as u64 + 1) as usize);
            assert_eq!(blocks_of(&text_of(&bytes)).unwrap(), bytes);
        }
    }

    #[test]
    fn errors_name_the_line() {
        let error = |text: &str| blocks_of(text).unwrap_err();
        assert!(error("# fine\norder tao data 300\nbad\n").starts_with("line 3: "));
        assert!(error("order tao\n").contains("1 to 99 tracks"));
        assert!(error("order tao data\n").contains("kind and a length"));
        assert!(error("order dao data 300\n").contains("`tao` or `sao`"));
        assert!(error("order tao keep keep data 300\n").contains("twice"));
        assert!(error("order tao immed immed data 300\n").contains("`immed` stands twice"));
        assert!(error("good progress 256\n").contains("four hex digits"));
        assert!(error("order tao text 300\n").contains("`text`"));
        assert!(error("order tao data 4294967296\n").contains("4294967296"));
        assert!(error("0 x good\n").contains("repeat count"));
        assert!(error("good disc wet\n").contains("`wet`"));
        assert!(error("good disc wet erasable\n").contains("`wet`"));
        assert!(error("good disc blank erased\n").contains("no line of a job"));
        assert!(error("good disc erasable\n").contains("`erasable`"));
        assert!(error("order tao erase immed erase data 300\n").contains("`erase` stands twice"));
        assert!(error("good profile 9\n").contains("four hex digits"));
        assert!(error("failed 10 00 00\n").contains("00 to 0F"));
        assert!(error("failed 1 00 00\n").contains("two hex digits"));
        assert!(error("good raw\n").contains("needs bytes"));
        assert!(error(&format!("good raw{}\n", " 00".repeat(507))).contains("506"));
        assert!(error("block 01\n\ngood\n").starts_with("line 3: "));
        assert!(error("2 x block 01\n").contains("repeated"));
        assert!(error(&format!("block{}\n", " 00".repeat(513))).contains("512"));
    }
}
