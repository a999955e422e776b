//! Corner jobs for document 02, Ask 1, at least one for each sentence that a
//! job can show. They come behind those of `corners`.

use crate::corners::{join, lines_of, List, OPEN, TWO};
use second::hex;
use Ends::{Stop, Waiting, Well};

/// A polling of one round: 00h succeeds, and 03h reports progress 0.
pub(crate) const POLL: &str = "good\ngood progress 0000\n";
/// TAO of one track of 300 after the opening, up to the good reply to 35h.
const TO_35H: &str = "21 x good\n";
/// SAO of one track of 300 after the opening, up to the good reply to 35h.
const TO_SAO_35H: &str = "32 x good\n";

/// TAO of one track of 300 after the opening, with this polling or none.
pub(crate) fn tao_one(poll: &str) -> String {
    format!("{TO_35H}{poll}good\n{poll}good\n{poll}")
}

/// All corner jobs of the polling.
pub(crate) fn polling(list: &mut List) {
    flag_mixes(list);
    order_flags(list);
    where_polled(list);
    at_every_place(list);
    every_command(list);
    repeats_first(list);
    closing_fails(list);
    other_commands(list);
    numbers_with_the_flag(list);
    long_jobs(list);
}

/// A job up to a polling: what comes before its first 00h, what comes after
/// it, how many commands are given by then, and by the end with one round.
pub(crate) struct Place {
    pub(crate) name: &'static str,
    pub(crate) before: String,
    pub(crate) after: String,
    pub(crate) given: u64,
    pub(crate) total: u64,
}

fn places() -> [Place; 5] {
    let tao = format!("order tao immed data 300\n{OPEN}{TO_35H}");
    let two = format!(
        "order tao keep immed data 300 data 301\n{OPEN}{TO_35H}{POLL}good\n{POLL}\
         good track nwa 452 free 299548\n{TO_35H}"
    );
    let place = |name, before: String, after: String, given, total| Place { name, before, after, given, total };
    [
        place("35h", tao.clone(), format!("good\n{POLL}good\n{POLL}"), 25, 32),
        place("5bh-1", format!("{tao}{POLL}good\n"), format!("good\n{POLL}"), 28, 32),
        place("5bh-2", format!("{tao}{POLL}good\n{POLL}good\n"), String::new(), 31, 32),
        place("second-35h", two, format!("good\n{POLL}good\n{POLL}"), 52, 59),
        place("sao-35h", format!("order sao immed data 300\n{OPEN}{TO_SAO_35H}"), String::new(), 36, 37),
    ]
}

/// How a polling ends.
enum Ends {
    /// Properly, after this many polls in all.
    Well(u64),
    /// With this number at the poll with this number, counted from 1; a
    /// triple may follow.
    Stop(u8, u64, &'static str),
    /// The replies run out at the poll with this number.
    Waiting(u64),
}

/// A polling: its name, what it shows, its replies, and its end.
struct Case {
    name: String,
    shows: &'static str,
    replies: String,
    ends: Ends,
}

struct Cases(Vec<Case>);

impl Cases {
    fn add(&mut self, name: impl Into<String>, ends: Ends, shows: &'static str, replies: impl Into<String>) {
        let (name, replies) = (name.into(), replies.into());
        self.0.push(Case { name, shows, replies, ends });
    }
}

/// Pollings after each command that has one; those about a reply's bytes
/// after the first 35h of either method.
fn at_every_place(list: &mut List) {
    for place in places() {
        polled_at(list, &place);
        if place.name == "35h" || place.name == "sao-35h" {
            polled_in_detail(list, &place);
        }
    }
}

/// The pollings that are gone through at every place.
pub(crate) fn polled_at(list: &mut List, place: &Place) {
    polled_as(list, "poll", place);
}

/// The same, under names that begin with another word.
pub(crate) fn polled_as(list: &mut List, word: &str, place: &Place) {
    put(list, word, place, &[rounds, unready, sense_busy, input_ends]);
}

/// The pollings about a reply's bytes.
pub(crate) fn polled_in_detail(list: &mut List, place: &Place) {
    put(list, "poll", place, &[ready_fails, ready_data, sense_fails, sense_lengths, sense_progress, sense_bytes]);
}

fn put(list: &mut List, word: &str, place: &Place, groups: &[fn(&mut Cases)]) {
    let mut cases = Cases(Vec::new());
    for group in groups {
        group(&mut cases);
    }
    for case in &cases.0 {
        let ends = match case.ends {
            Well(polls) => format!("done {}", place.total - 2 + polls),
            Stop(12, at, triple) => format!("stop 12 {} {triple}", place.given + at - 1),
            Stop(number, at, _) => format!("stop {number} {}", place.given + at - 1),
            Waiting(at) => format!("waiting {}", place.given + at - 1),
        };
        let after = if matches!(case.ends, Well(_)) { &place.after } else { "" };
        list.job(
            &format!("{word}-{}-{}", place.name, case.name),
            &ends,
            &format!("polling after {}: {}", place.name, case.shows),
            &format!("{}{}{after}", place.before, case.replies),
        );
    }
}

/// Good 00h and good 03h: the polling goes on while progress is not 0.
fn rounds(cases: &mut Cases) {
    cases.add("once", Well(2), "00h succeeds and 03h reports 0 at once", POLL);
    for progress in ["0001", "00FF", "0100", "7FFF", "8000", "FF00", "FFFF"] {
        let name = format!("progress-{}", progress.to_lowercase());
        cases.add(name, Well(4), "progress above 0: one more round", format!("good\ngood progress {progress}\n{POLL}"));
    }
    cases.add("rising", Well(10), "progress rises from round to round", format!(
        "good\ngood progress 0001\ngood\ngood progress 4000\ngood\ngood progress C000\ngood\ngood progress FFFF\n{POLL}"
    ));
    cases.add("falling", Well(8), "progress may fall", format!(
        "good\ngood progress FFFF\ngood\ngood progress 8000\ngood\ngood progress 0001\n{POLL}"
    ));
    cases.add("standing", Well(42), "progress stands still for 20 rounds", format!("{}{POLL}", "good\ngood progress 1234\n".repeat(20)));
}

/// 00h fails with code 70h and 02h/04h: the 03h follows all the same.
fn unready(cases: &mut Cases) {
    for ascq in ["00", "01", "04", "07", "08", "FF"] {
        for code in ["70", "F0"] {
            let sense = format!("failed raw {code} 00 02 00 00 00 00 0A 00 00 00 00 04 {ascq} 00 00 00 00\n");
            let name = |what: &str| format!("unready-{}h-{}-{what}", code.to_lowercase(), ascq.to_lowercase());
            cases.add(name("0"), Well(4), "00h not ready, 03h follows; progress 0 is one more round", format!("{sense}good progress 0000\n{POLL}"));
            cases.add(name("8000"), Well(4), "00h not ready, 03h follows and reports progress", format!("{sense}good progress 8000\n{POLL}"));
        }
    }
    let zero = "good progress 0000\n";
    cases.add("unready-twice", Well(6), "00h not ready twice: two more rounds", format!("failed 02 04 07\n{zero}failed 02 04 08\n{zero}{POLL}"));
    cases.add("unready-many", Well(102), "00h not ready in 50 rounds", format!("{}{POLL}", format!("busy\n{zero}").repeat(50)));
    cases.add("unready-later", Well(6), "the latest 00h counts: good, then not ready with progress 0", format!("good\ngood progress 0005\nfailed 02 04 07\n{zero}{POLL}"));
    cases.add("unready-first", Well(4), "the latest 00h counts: not ready, then good with progress 0", format!("failed 02 04 07\ngood progress 9000\n{POLL}"));
    cases.add("unready-by-turns", Well(8), "good and not ready by turns", format!("good\ngood progress 0001\nbusy\n{zero}good\ngood progress 0002\n{POLL}"));
    cases.add("unready-14-bytes", Well(4), "not ready in 14 bytes", format!("failed raw 70 00 02 00 00 00 00 0A 00 00 00 00 04 01\n{zero}{POLL}"));
    cases.add("unready-key-bits", Well(4), "the key's upper bits don't count", format!("failed raw 70 FF F2 FF FF FF FF FF FF FF FF FF 04 07 FF FF FF FF\n{zero}{POLL}"));
    cases.add("unready-506-bytes", Well(4), "not ready in 506 bytes", format!("failed raw 70 00 02 00 00 00 00 0A 00 00 00 00 04 07{}\n{zero}{POLL}", " FF".repeat(492)));
    cases.add("unready-with-progress", Well(4), "a failed 00h's own bytes 15 to 17 don't count", format!("failed raw 70 00 02 00 00 00 00 0A 00 00 00 00 04 07 00 80 80 00\n{zero}{POLL}"));
}

/// Another failure of 00h stops with 12.
fn ready_fails(cases: &mut Cases) {
    let raw = |code: &str, key: &str, asc: &str, ascq: &str| format!("failed raw {code} 00 {key} 00 00 00 00 0A 00 00 00 00 {asc} {ascq} 00 00 00 00\n");
    for (code, key, asc, ascq, triple) in [
        ("71", "02", "04", "00", "02 04 00"),
        ("71", "02", "04", "07", "02 04 07"),
        ("71", "02", "04", "08", "02 04 08"),
        ("F1", "02", "04", "01", "02 04 01"),
        ("F1", "02", "04", "08", "02 04 08"),
        ("70", "02", "3A", "00", "02 3A 00"),
        ("70", "02", "05", "08", "02 05 08"),
        ("70", "02", "03", "04", "02 03 04"),
        ("70", "02", "00", "04", "02 00 04"),
        ("70", "00", "04", "08", "00 04 08"),
        ("70", "01", "04", "08", "01 04 08"),
        ("70", "03", "04", "07", "03 04 07"),
        ("F0", "F3", "04", "08", "03 04 08"),
        ("70", "06", "28", "00", "06 28 00"),
        ("70", "05", "20", "00", "05 20 00"),
        ("70", "04", "02", "00", "04 02 00"),
        ("70", "00", "00", "00", "00 00 00"),
        ("F0", "0F", "FF", "FF", "0F FF FF"),
        ("72", "02", "04", "08", "00 00 00"),
        ("73", "02", "04", "04", "00 00 00"),
        ("F2", "02", "04", "08", "00 00 00"),
        ("6F", "02", "04", "08", "00 00 00"),
        ("00", "02", "04", "08", "00 00 00"),
    ] {
        let name = format!("00h-fails-{code}h-{key}-{asc}-{ascq}").to_lowercase();
        cases.add(name, Stop(12, 1, triple), "another failure of 00h: 12", raw(code, key, asc, ascq));
    }
    cases.add("00h-fails-no-data", Stop(12, 1, "00 00 00"), "00h fails without data: 12 with 0, 0, 0", "failed\n");
    cases.add("00h-fails-13-bytes", Stop(12, 1, "00 00 00"), "13 bytes can't say not ready: 12 with 0, 0, 0", "failed raw 70 00 02 00 00 00 00 0A 00 00 00 00 04\n");
    cases.add("00h-fails-in-round-2", Stop(12, 3, "04 09 00"), "00h fails in the second round: 12", "good\ngood progress 4000\nfailed 04 09 00\n");
    cases.add("00h-fails-after-unready", Stop(12, 3, "02 3A 00"), "not ready, then another failure: 12", "failed 02 04 07\ngood progress 0000\nfailed 02 3A 00\n");
    cases.add("00h-deferred-after-unready", Stop(12, 3, "02 04 04"), "71h is no not ready in a later round either: 12", "failed 02 04 04\ngood progress 0000\nfailed deferred 02 04 04\n");
}

/// The data of a good 00h is ignored.
fn ready_data(cases: &mut Cases) {
    let zero = "good progress 0000\n";
    for (name, data) in [
        ("1-byte", "FF".to_string()),
        ("busy", "70 00 02 00 00 00 00 0A 00 00 00 00 04 08 00 00 00 00".to_string()),
        ("failure", "70 00 05 00 00 00 00 0A 00 00 00 00 24 00".to_string()),
        ("progress", "70 00 02 00 00 00 00 0A 00 00 00 00 04 08 00 80 80 00".to_string()),
        ("506-bytes", hex::plain(&[0xFF; 506])),
    ] {
        cases.add(format!("00h-data-{name}"), Well(2), "a good 00h's data is ignored", format!("good raw {data}\n{zero}"));
    }
}

/// A busy 03h is sent again alone, and what the 00h said still counts.
fn sense_busy(cases: &mut Cases) {
    let zero = "good progress 0000\n";
    for (name, row) in [("once", 1), ("twice", 2), ("many", 100)] {
        let busy = format!("{row} x busy\n");
        cases.add(format!("03h-busy-{name}"), Well(2 + row), "a busy 03h goes again, then the good 00h ends the polling", format!("good\n{busy}{zero}"));
        cases.add(format!("03h-busy-{name}-unready"), Well(4 + row), "a busy 03h goes again, and the failed 00h still counts", format!("failed 02 04 07\n{busy}{zero}{POLL}"));
        cases.add(format!("03h-busy-{name}-progress"), Well(4 + row), "a busy 03h goes again, then it reports progress", format!("good\n{busy}good progress 8000\n{POLL}"));
    }
    cases.add("03h-busy-each-round", Well(9), "busy in each of three rounds", format!("busy\nbusy\n{zero}good\nbusy\ngood progress 0100\ngood\nbusy\n{zero}"));
    cases.add("03h-busy-f0h", Well(3), "F0h is busy too", format!("good\nfailed raw F0 00 02 00 00 00 00 0A 00 00 00 00 04 08\n{zero}"));
    cases.add("03h-busy-key-bits", Well(3), "the key's upper bits don't count", format!("good\nfailed raw 70 00 F2 00 00 00 00 0A 00 00 00 00 04 08\n{zero}"));
    cases.add("03h-busy-with-progress", Well(3), "a busy 03h's own bytes 15 to 17 don't count", format!("good\nfailed raw 70 00 02 00 00 00 00 0A 00 00 00 00 04 08 00 80 80 00\n{zero}"));
    cases.add("03h-busy-keeps-progress", Well(8), "progress, then busy in the next round", format!("good\ngood progress C000\nbusy\n2 x busy\n{zero}{POLL}"));
}

/// Every other failure of 03h stops with 12.
fn sense_fails(cases: &mut Cases) {
    for (code, key, asc, ascq, triple) in [
        ("70", "02", "04", "07", "02 04 07"),
        ("70", "02", "04", "00", "02 04 00"),
        ("70", "02", "04", "01", "02 04 01"),
        ("F0", "02", "04", "FF", "02 04 FF"),
        ("71", "02", "04", "08", "02 04 08"),
        ("F1", "02", "04", "08", "02 04 08"),
        ("70", "02", "05", "08", "02 05 08"),
        ("70", "03", "04", "08", "03 04 08"),
        ("70", "05", "24", "00", "05 24 00"),
        ("70", "06", "29", "00", "06 29 00"),
        ("70", "00", "00", "00", "00 00 00"),
        ("72", "02", "04", "08", "00 00 00"),
        ("F2", "02", "04", "08", "00 00 00"),
        ("00", "02", "04", "08", "00 00 00"),
    ] {
        let sense = format!("failed raw {code} 00 {key} 00 00 00 00 0A 00 00 00 00 {asc} {ascq} 00 80 00 00\n");
        let name = format!("03h-fails-{code}h-{key}-{asc}-{ascq}").to_lowercase();
        cases.add(name.clone(), Stop(12, 2, triple), "another failure of 03h: 12", format!("good\n{sense}"));
        cases.add(format!("{name}-unready"), Stop(12, 2, triple), "another failure of 03h after a failed 00h: 12", format!("failed 02 04 08\n{sense}"));
    }
    cases.add("03h-fails-no-data", Stop(12, 2, "00 00 00"), "03h fails without data: 12 and not 4", "good\nfailed\n");
    cases.add("03h-fails-13-bytes", Stop(12, 2, "00 00 00"), "13 bytes can't say busy: 12 with 0, 0, 0", "good\nfailed raw 70 00 02 00 00 00 00 0A 00 00 00 00 04\n");
    cases.add("03h-fails-after-busy", Stop(12, 5, "02 04 07"), "busy, then another failure: 12", "good\n3 x busy\nfailed 02 04 07\n");
    cases.add("03h-fails-in-round-2", Stop(12, 4, "04 03 00"), "03h fails in the second round: 12", "good\ngood progress 4000\ngood\nfailed 04 03 00\n");
}

/// A good 03h under 18 bytes is 4.
fn sense_lengths(cases: &mut Cases) {
    let data = |length: usize| {
        let mut data = vec![0xFF; length.max(18)];
        data[15..18].copy_from_slice(&[0x80, 0, 0]);
        data.truncate(length);
        if data.is_empty() { "good\n".to_string() } else { format!("good raw {}\n", hex::plain(&data)) }
    };
    for length in [0, 1, 8, 14, 15, 16, 17] {
        cases.add(format!("03h-{length}-bytes"), Stop(4, 2, ""), "a good 03h under 18 bytes: 4", format!("good\n{}", data(length)));
    }
    cases.add("03h-0-bytes-unready", Stop(4, 2, ""), "a good 03h without data after a failed 00h: 4", "busy\ngood\n");
    cases.add("03h-17-bytes-unready", Stop(4, 2, ""), "a good 03h of 17 bytes after a failed 00h: 4", format!("busy\n{}", data(17)));
    cases.add("03h-17-bytes-busy", Stop(4, 4, ""), "busy twice, then 17 bytes: 4", format!("good\n2 x busy\n{}", data(17)));
    cases.add("03h-17-bytes-round-2", Stop(4, 4, ""), "17 bytes in the second round: 4", format!("good\ngood progress 0001\ngood\n{}", data(17)));
    for length in [18, 19, 252, 506] {
        cases.add(format!("03h-{length}-bytes"), Well(2), "18 bytes or more pass", format!("good\n{}", data(length)));
    }
    let long = format!("good raw {} 80 00 01 {}\n", hex::plain(&[0; 15]), hex::plain(&[0; 234]));
    cases.add("03h-252-bytes-progress", Well(4), "progress in 252 bytes", format!("good\n{long}{POLL}"));
}

/// A good 00h, and a good 03h with these first bytes and bytes 15 to 17.
fn sense_of(head: &[u8], tail: [u8; 3]) -> String {
    let mut data = [0; 18];
    data[..head.len()].copy_from_slice(head);
    data[15..].copy_from_slice(&tail);
    format!("good\ngood raw {}\n", hex::plain(&data))
}

/// Progress is bytes 16 and 17 when bit 7 of byte 15 is set, else 0.
fn sense_progress(cases: &mut Cases) {
    for (name, tail) in [
        ("00-ff-ff", [0x00, 0xFF, 0xFF]),
        ("00-80-00", [0x00, 0x80, 0x00]),
        ("7f-00-01", [0x7F, 0x00, 0x01]),
        ("40-12-34", [0x40, 0x12, 0x34]),
        ("01-01-00", [0x01, 0x01, 0x00]),
    ] {
        cases.add(format!("03h-not-valid-{name}"), Well(2), "bit 7 of byte 15 is clear: progress 0", sense_of(&[], tail));
    }
    for (name, tail) in [("80-00-00", [0x80, 0, 0]), ("ff-00-00", [0xFF, 0, 0]), ("c0-00-00", [0xC0, 0, 0])] {
        cases.add(format!("03h-valid-{name}"), Well(2), "progress is valid and 0", sense_of(&[], tail));
    }
    for (name, tail) in [
        ("80-00-01", [0x80, 0x00, 0x01]),
        ("80-01-00", [0x80, 0x01, 0x00]),
        ("ff-00-01", [0xFF, 0x00, 0x01]),
        ("ff-ff-ff", [0xFF, 0xFF, 0xFF]),
        ("80-80-00", [0x80, 0x80, 0x00]),
    ] {
        cases.add(format!("03h-valid-{name}"), Well(4), "progress is valid and not 0: one more round", format!("{}{POLL}", sense_of(&[], tail)));
    }
}

/// Of a good 03h bytes 15 to 17 count and nothing else.
fn sense_bytes(cases: &mut Cases) {
    for (name, head) in [
        ("failure", [0x70, 0, 0x05, 0, 0, 0, 0, 10, 0, 0, 0, 0, 0x24, 0x00]),
        ("busy", [0x70, 0, 0x02, 0, 0, 0, 0, 10, 0, 0, 0, 0, 0x04, 0x08]),
        ("not-ready", [0x70, 0, 0x02, 0, 0, 0, 0, 10, 0, 0, 0, 0, 0x04, 0x07]),
        ("deferred", [0x71, 0, 0x03, 0, 0, 0, 0, 10, 0, 0, 0, 0, 0x0C, 0x00]),
        ("72h", [0x72, 0x02, 0x04, 0x08, 0, 0, 0, 10, 0, 0, 0, 0, 0, 0]),
        ("ones", [0xFF; 14]),
        ("length-0", [0x70, 0, 0x02, 0, 0, 0, 0, 0, 0, 0, 0, 0, 0x04, 0x04]),
    ] {
        cases.add(format!("03h-data-{name}"), Well(2), "a triple in a good 03h is not read", sense_of(&head, [0, 0, 0]));
        cases.add(format!("03h-data-{name}-progress"), Well(4), "a triple in a good 03h is not read, progress is", format!("{}{POLL}", sense_of(&head, [0x80, 0, 9])));
    }
    let mut ones = [0xFF; 40];
    ones[15..18].copy_from_slice(&[0x80, 0, 0]);
    cases.add("03h-other-bytes", Well(2), "all other bytes don't count", format!("good\ngood raw {}\n", hex::plain(&ones)));
    ones[14..19].copy_from_slice(&[0x80, 0, 0x80, 0, 0x80]);
    cases.add("03h-neighbour-bytes", Well(2), "bytes 14 and 18 don't count", format!("good\ngood raw {}\n", hex::plain(&ones)));
}

/// The replies run out at each stage of a polling, or a block is bad there.
fn input_ends(cases: &mut Cases) {
    cases.add("ends-at-00h", Waiting(1), "the replies run out at the 00h: not done", "");
    cases.add("ends-at-03h", Waiting(2), "the replies run out at the 03h: not done", "good\n");
    cases.add("ends-at-03h-unready", Waiting(2), "the replies run out at the 03h after a failed 00h", "busy\n");
    cases.add("ends-at-busy-03h", Waiting(4), "the replies run out at a repeated 03h", "good\n2 x busy\n");
    cases.add("ends-at-second-00h", Waiting(3), "the replies run out at the second round's 00h", "good\ngood progress 8000\n");
    cases.add("ends-at-second-00h-unready", Waiting(3), "progress 0 after a failed 00h: a second round", "busy\ngood progress 0000\n");
    cases.add("ends-at-second-03h", Waiting(4), "the replies run out at the second round's 03h", "good\ngood progress 8000\ngood\n");
    let bad = format!("block 02 02{}\n", " 00".repeat(509) + " 04");
    cases.add("bad-block-at-00h", Stop(3, 1, ""), "a bad block where 00h awaits its reply: 3", bad.clone());
    cases.add("bad-block-at-03h", Stop(3, 2, ""), "a bad block where 03h awaits its reply: 3", format!("good\n{bad}"));
    let check = format!("block 02{}\n", " 00".repeat(511));
    cases.add("bad-check-at-00h", Stop(2, 1, ""), "a check that differs at 00h: 2", check.clone());
    cases.add("bad-check-at-03h", Stop(2, 2, ""), "a check that differs at 03h: 2", format!("busy\n{check}"));
    cases.add("part-at-00h", Stop(1, 1, ""), "part of a block at 00h: 1", "block 02\n");
    cases.add("part-at-03h", Stop(1, 2, ""), "part of a block at 03h: 1", "good\nblock 02 00\n");
}

/// The words of a flags byte in an order's line.
pub(crate) fn flag_words(flags: u8) -> String {
    [(1, " keep"), (2, " protect"), (4, " immed"), (8, " erase")]
        .into_iter()
        .filter_map(|(bit, word)| (flags & bit != 0).then_some(word))
        .collect()
}

/// Every mix of flags with both methods: Immed bits and polls with the flag,
/// everything as before without it. Audio in TAO is 24.
fn flag_mixes(list: &mut List) {
    for flags in 0..8 {
        let words = flag_words(flags);
        let immed = flags & 4 != 0;
        let poll = if immed { POLL } else { "" };
        let shows = if immed { "35h and 5Bh with Immed, each polled" } else { "35h and 5Bh without Immed, nothing is polled" };
        for kind in ["audio", "data"] {
            let ends = match (kind, immed) {
                ("audio", _) => "stop 24 3",
                (_, true) => "done 32",
                _ => "done 26",
            };
            list.job(
                &format!("immed-tao-{flags}-{kind}"), ends, shows,
                &format!("order tao{words} {kind} 300\n{OPEN}{}", tao_one(poll)),
            );
            let ends = match (flags & 1, immed) {
                (1, _) => "stop 8 3",
                (_, true) => "done 37",
                _ => "done 35",
            };
            list.job(
                &format!("immed-sao-{flags}-{kind}"), ends, shows,
                &format!("order sao{words} {kind} 300\n{OPEN}{TO_SAO_35H}{poll}"),
            );
        }
    }
}

/// "flag bit 2 leaves 3": the flags byte of an order block.
fn order_flags(list: &mut List) {
    let job = format!("order tao data 300\n{OPEN}");
    for value in [4, 5, 6, 7] {
        let name = format!("order-flags-{value}");
        list.changed(&name, "waiting 4", "order: flag bit 2 passes in every mix", &job, (0, 2, value));
    }
    let sao = format!("order sao data 300\n{OPEN}");
    list.changed("order-flags-sao-4", "waiting 4", "order: flag bit 2 passes in SAO too", &sao, (0, 2, 4));
    for value in [20, 36, 68, 132, 244] {
        let name = format!("order-flags-sao-{value}");
        list.changed(&name, "stop 3 0", "order: a flag bit that isn't listed, with flag bit 2: 3", &sao, (0, 2, value));
    }
    list.unsealed("order-flags-check", "stop 2 0", "order: flag bit 2 set, the check not: 2", &job, (0, 2, 4));
}

/// A polling follows each 35h and 5Bh, and nothing else.
fn where_polled(list: &mut List) {
    let track = format!("{TO_35H}{POLL}good\n{POLL}");
    let three = format!(
        "order tao keep immed data 300 data 301 data 302\ngood profile 0009\ngood disc appendable\n\
         good track nwa 11700 free 340000\n{track}good track nwa 12152 free 339000\n{track}\
         good track nwa 12605 free 338000\n{track}"
    );
    list.job("polled-three-tracks", "done 86", "TAO, three tracks: seven pollings", &format!("{three}good\n{POLL}"));
    list.job("polled-three-session-open", "waiting 84", "the last 5Bh unanswered: no polling yet", &three);
    list.job("polled-three-last-00h", "waiting 85", "done only after the last polling: 00h", &format!("{three}good\n"));
    list.job("polled-three-last-03h", "waiting 86", "done only after the last polling: 03h", &format!("{three}good\ngood\n"));
    list.job("polled-three-last-round", "waiting 87", "done only after the last polling: a round more", &format!("{three}good\ngood\ngood progress 0001\n"));
    list.job("polled-sao-five", "done 132", "SAO, five tracks: one polling", &format!("order sao immed audio 300 audio 301 audio 350 audio 400 audio 450\n{OPEN}127 x good\n{POLL}"));
    list.job("polled-more-after-done", "done 37", "later blocks are not read after the last polling", &format!("order sao immed data 300\n{OPEN}{TO_SAO_35H}{POLL}{POLL}busy\nblock 00\n"));
    list.job("polled-more-after-stop", "stop 12 36 02 3A 00", "later blocks are not read after a stop in a polling", &format!("order sao immed data 300\n{OPEN}{TO_SAO_35H}failed 02 3A 00\n{POLL}"));
    list.job("polled-as-if-not", "stop 4 26", "a plain good to the 03h is too short: 4", &format!("order tao immed data 300\n{OPEN}23 x good\n"));
    list.job("polled-sao-as-if-not", "waiting 36", "SAO, 35h answered: not done before the polling", &format!("order sao immed data 300\n{OPEN}{TO_SAO_35H}"));
    list.job("polled-fresh-progress", "done 36", "the progress of one polling is no other's", &format!(
        "order tao immed data 300\n{OPEN}{TO_35H}good\ngood progress FFFF\n{POLL}good\nbusy\ngood progress 0000\n{POLL}good\n{POLL}"
    ));
    list.job("polled-fresh-ready", "done 34", "the 00h of one polling is no other's", &format!(
        "order tao immed data 300\n{OPEN}{TO_35H}{POLL}good\nfailed 02 04 07\ngood progress 0000\n{POLL}good\n{POLL}"
    ));
}

/// Each command of a polled job fails, and each is answered busy.
fn every_command(list: &mut List) {
    let blank = "good profile 000A\ngood disc blank\n";
    let tao = format!(
        "{blank}good track nwa 0 free 753\n{TO_35H}{POLL}good\n{POLL}good track nwa 300 free 301\n{}", tao_one(POLL)
    );
    let sao = format!("{blank}good track nwa 0 free 300\n{TO_SAO_35H}{POLL}");
    each_disturbed(list, "polled", "tao", "order tao protect immed data 300 data 301\n", &tao);
    each_disturbed(list, "polled", "sao", "order sao protect immed data 300\n", &sao);
}

/// An all-good job of this sort: its order, and its replies, in whose place a
/// failure comes, or busy ahead of it, one after the other.
pub(crate) fn each_disturbed(list: &mut List, sort: &str, method: &str, order: &str, replies: &str) {
    let lines = lines_of(replies);
    for place in 0..lines.len() {
        let before = format!("{order}{}", join(&lines[..place]));
        let number = place + 1;
        let name = |what: &str| format!("every-{sort}-{method}-{number:02}-{what}");
        list.job(
            &name("fails"),
            &format!("stop 12 {number} 04 08 03"),
            &format!("command {number} of the {sort} job fails: 12"),
            &format!("{before}failed 04 08 03\n"),
        );
        // A 00h is never busy: the 03h follows and another round.
        let polls = lines.get(place + 1).is_some_and(|next| next == "good progress 0000");
        let busy = if polls { "busy\ngood progress 0000\n" } else { "2 x busy\n" };
        list.job(
            &name("busy"),
            &format!("done {}", lines.len() + 2),
            &format!("command {number} is answered busy, and goes again unless it is a 00h"),
            &format!("{before}{busy}{}", join(&lines[place..])),
        );
    }
}

/// Busy repeats of the command with Immed come ahead of its polling.
fn repeats_first(list: &mut List) {
    let tao = |a: &str, b: &str, c: &str| {
        format!("order tao immed data 300\n{OPEN}20 x good\n{a}good\n{POLL}{b}good\n{POLL}{c}good\n{POLL}")
    };
    list.job("repeat-35h", "done 35", "35h is busy three times, then polled", &tao("3 x busy\n", "", ""));
    list.job("repeat-5bh-1", "done 35", "5Bh function 1 is busy three times, then polled", &tao("", "3 x busy\n", ""));
    list.job("repeat-5bh-2", "done 35", "5Bh function 2 is busy three times, then polled", &tao("", "", "3 x busy\n"));
    list.job("repeat-each", "done 92", "each of them is busy twenty times", &tao("20 x busy\n", "20 x busy\n", "20 x busy\n"));
    list.job("repeat-sao-35h", "done 41", "SAO: 35h is busy four times, then polled", &format!("order sao immed data 300\n{OPEN}31 x good\n4 x busy\ngood\n{POLL}"));
    list.job("repeat-35h-waits", "waiting 27", "35h stays busy: no polling", &format!("order tao immed data 300\n{OPEN}20 x good\n3 x busy\n"));
    list.job("repeat-then-unready", "done 36", "35h busy, then polled while not ready", &tao("busy\n", "", "").replacen("good\ngood progress 0000", "busy\nbusy\ngood progress 0000\ngood\ngood progress 0000", 1));
}

/// A 35h or 5Bh with Immed that fails stops as before.
fn closing_fails(list: &mut List) {
    let tao = format!("order tao immed data 300\n{OPEN}20 x good\n");
    let fails = [
        ("triple", "failed 04 09 00", "04 09 00"),
        ("02-04-07", "failed 02 04 07", "02 04 07"),
        ("02-04-00", "failed 02 04 00", "02 04 00"),
        ("deferred", "failed deferred 02 04 08", "02 04 08"),
        ("no-data", "failed", "00 00 00"),
    ];
    for (name, reply, triple) in fails {
        let mut add = |at: &str, number: u64, before: &str| {
            list.job(
                &format!("immed-{at}-fails-{name}"),
                &format!("stop 12 {number} {triple}"),
                "a failing command with Immed: 12, and no polling",
                &format!("{before}{reply}\n{POLL}"),
            );
        };
        add("35h", 24, &tao);
        add("5bh-1", 27, &format!("{tao}good\n{POLL}"));
        add("5bh-2", 30, &format!("{tao}good\n{POLL}good\n{POLL}"));
        add("sao-35h", 35, &format!("order sao immed data 300\n{OPEN}31 x good\n"));
    }
    for (name, data) in [("progress", "70 00 02 00 00 00 00 0A 00 00 00 00 04 08 00 80 80 00"), ("1-byte", "00")] {
        list.job(
            &format!("immed-35h-good-{name}"), "done 32",
            "the data of a good 35h or 5Bh is ignored, with Immed too",
            &format!("{tao}good raw {data}\n{POLL}good raw {data}\n{POLL}good raw {data}\n{POLL}"),
        );
    }
}

/// 55h, 5Dh and 2Ah have no Immed; no other command is polled.
fn other_commands(list: &mut List) {
    let tao = |reply: &str| format!("order tao immed data 300\n{OPEN}5 x good\n{reply}\n16 x good\n{POLL}good\n{POLL}good\n{POLL}");
    list.job("immed-write-not-ready", "stop 12 9 02 04 07", "a WRITE that is not ready: 12 as before", &tao("failed 02 04 07"));
    list.job("immed-write-busy", "done 34", "a busy WRITE goes again as before", &tao("2 x busy"));
    list.job("immed-55h-not-ready", "stop 12 4 02 04 01", "55h not ready: 12 as before", &format!("order tao immed data 300\n{OPEN}failed 02 04 01\n"));
    list.job("immed-5dh-not-ready", "stop 12 5 02 04 01", "5Dh not ready: 12 as before", &format!("order sao immed data 300\n{OPEN}good\nfailed 02 04 01\n"));
    list.job("immed-46h-not-ready", "stop 12 1 02 04 01", "46h not ready: 12 as before", "order sao immed data 300\nfailed 02 04 01\n");
    list.job("immed-46h-busy", "done 39", "busy at 46h and at 52h as before", &format!(
        "order sao immed data 300\nbusy\n{TWO}busy\ngood track nwa 0 free 300\n{TO_SAO_35H}{POLL}"
    ));
    list.job("immed-52h-busy", "done 62", "a later 52h is busy after two pollings", &format!(
        "order tao immed data 300 data 301\n{OPEN}{TO_35H}{POLL}good\n{POLL}3 x busy\ngood track nwa 300 free 301\n{TO_35H}{POLL}good\n{POLL}good\n{POLL}"
    ));
}

/// Numbers 3 to 10 are judged as without the flag.
fn numbers_with_the_flag(list: &mut List) {
    let job = |order: &str, profile: &str, disc: &str, third: &str| {
        format!("order {order}\ngood profile {profile}\ngood disc {disc}\n{third}\n40 x good\n")
    };
    let bad = "sao keep immed data 299 audio 4294967295";
    let damaged = "good track nwa 0 free 0 damaged no-address";
    let full = "good track nwa 0 free 0";
    let room = "good track nwa 0 free 300";
    list.job("immed-number-4-46h", "stop 4 1", "46h too short with the flag: 4", "order tao immed data 300\ngood\n");
    list.job("immed-number-4-51h", "stop 4 2", "51h too short with the flag: 4", "order tao immed data 300\ngood profile 0009\ngood\n");
    list.job("immed-number-4-52h", "stop 4 3", "52h too short with the flag: 4", &job(bad, "0008", "finalized", "good"));
    list.job("immed-number-5", "stop 5 3", "another profile with the flag: 5", &job(bad, "0008", "finalized", damaged));
    list.job("immed-number-6", "stop 6 3", "a finalized disc with the flag: 6", &job(bad, "0009", "finalized", damaged));
    list.job("immed-number-6-sao", "stop 6 3", "SAO on an appendable disc with the flag: 6", &job("sao immed data 300", "0009", "appendable", room));
    list.job("immed-number-7", "stop 7 3", "damage with the flag: 7", &job(bad, "0009", "blank", damaged));
    list.job("immed-number-7-tao", "stop 7 3", "NWA_V clear with the flag: 7", &job("tao immed data 300", "0009", "blank", "good track nwa 0 free 300 no-address"));
    list.job("immed-number-8", "stop 8 3", "SAO, mixed or kept appendable, with the flag: 8", &job(bad, "0009", "blank", full));
    list.job("immed-number-8-mixed", "stop 8 3", "SAO of mixed kinds with the flag: 8", &job("sao immed data 300 audio 300", "0009", "blank", full));
    list.job("immed-number-9", "stop 9 3", "a track of 299 with the flag: 9", &job("sao immed data 299", "0009", "blank", full));
    list.job("immed-number-10", "stop 10 3", "no room with the flag: 10", &job("tao immed data 301", "0009", "blank", room));
    list.job("immed-number-10-sao", "stop 10 3", "SAO beyond the lead-out limit with the flag: 10", &job("sao immed data 404850", "0009", "blank", "good track nwa 0 free 4294967295"));
    list.job("immed-number-10-old-limit", "stop 10 3", "SAO with S 449,849 with the flag: 10", &job("sao immed data 449849", "0009", "blank", "good track nwa 0 free 4294967295"));
    list.job("immed-number-10-tao", "stop 10 3", "TAO beyond the lead-out limit with the flag: 10", &job("tao immed data 300", "0009", "blank", "good track nwa 404550 free 300"));
    list.job("immed-limit-sao", "waiting 44", "SAO with S 404,849 with the flag passes", &job("sao immed data 404849", "0009", "blank", "good track nwa 0 free 404849"));
    list.job("immed-limit-tao", "done 32", "TAO: lead-out at 404,849 with the flag passes", &format!("order tao immed data 300\n{TWO}good track nwa 404549 free 300\n{TO_35H}{POLL}good\n{POLL}good\n{POLL}"));
    let first = format!("order tao immed data 300 data 301\n{TWO}good track nwa 1000 free 753\n{TO_35H}{POLL}good\n{POLL}");
    list.job("immed-later-4", "stop 4 30", "the second 52h is too short: 4", &format!("{first}good\n"));
    list.job("immed-later-7", "stop 7 30", "the second 52h has a stale address: 7", &format!("{first}good track nwa 1299 free 301\n"));
    list.job("immed-later-10", "stop 10 30", "no room at the second 52h: 10", &format!("{first}good track nwa 1300 free 300\n"));
    list.job("immed-later-limit", "done 59", "lead-out limit at the second 52h: 404,849 passes", &format!("{first}good track nwa 404548 free 301\n{TO_35H}{POLL}good\n{POLL}good\n{POLL}"));
    list.job("immed-later-over-limit", "stop 10 30", "lead-out limit at the second 52h: 404,850: 10", &format!("{first}good track nwa 404549 free 301\n"));
    list.job("immed-later-passes", "done 59", "the second address equal to the previous end passes", &format!("{first}good track nwa 1300 free 301\n{TO_35H}{POLL}good\n{POLL}good\n{POLL}"));
    let slow = first.replace(POLL, &format!("good\ngood progress 8000\n{POLL}"));
    list.job("immed-later-after-rounds", "stop 7 34", "long pollings change no address: 7", &format!("{slow}good track nwa 1299 free 301\n"));
}

/// Polls count in N and are many.
fn long_jobs(list: &mut List) {
    let track = format!("{TO_35H}{POLL}good\n{POLL}");
    let many: String = (1..99).map(|i| format!("{track}good track nwa {} free 50000\n", 301 * i)).collect();
    list.job("polled-99-tao", "done 2678", "TAO, 99 tracks of 300: 2280 commands and 199 pollings", &format!(
        "order tao immed{}\n{OPEN}{many}{track}good\n{POLL}", " data 300".repeat(99)
    ));
    list.job("polled-99-sao", "done 1899", "SAO, 99 tracks of 300: 1897 commands and a polling", &format!(
        "order sao immed{}\n{OPEN}1894 x good\n{POLL}", " audio 300".repeat(99)
    ));
    let rounds: String = (1..=1_000).map(|i| format!("good\ngood progress {:04X}\n", 65 * i)).collect();
    list.job("polled-1000-rounds", "done 2037", "a polling of a thousand rounds", &format!("order sao immed data 300\n{OPEN}{TO_SAO_35H}{rounds}{POLL}"));
    list.job("polled-1000-busy", "done 1037", "03h busy a thousand times", &format!("order sao immed data 300\n{OPEN}{TO_SAO_35H}good\n1000 x busy\ngood progress 0000\n"));
}
