//! Corner jobs for document 02, Ask 2, at least one for each sentence that a
//! job can show. They come behind those of `polling_corners`.

use crate::corners::{disc_data, join, lines_of, track_data, List, OPEN, SAO_300, TAO_300, TWO};
use second::hex;
use crate::polling_corners::{each_disturbed, flag_words, polled_at, polled_in_detail, tao_one, Place, POLL};

/// 46h and 51h of a used CD-RW.
pub(crate) const USED: &str = "good profile 000A\ngood disc appendable erasable\n";
const FINALIZED: &str = "good profile 000A\ngood disc finalized erasable\n";
/// A1h without Immed, and the second 51h.
pub(crate) const ERASED: &str = "good\ngood disc blank\n";
/// A 52h reply with ample room.
pub(crate) const ROOM: &str = "good track nwa 0 free 300000\n";

/// All corner jobs of the erasing.
pub(crate) fn erasing(list: &mut List) {
    every_mix(list);
    flag_mixes(list);
    order_flags(list);
    first_numbers(list);
    number_4_first(list);
    sum_alone(list);
    short_tracks(list);
    replies_46h(list);
    first_51h(list);
    first_byte_2(list);
    second_51h(list);
    blank_fails(list);
    blank_busy(list);
    blank_data(list);
    blank_polled(list);
    track_information(list);
    later_tracks(list);
    every_command(list);
    opening_ends(list);
    after_the_end(list);
    long_jobs(list);
}

/// An order's method and tracks: how it goes on after the first 52h, with the
/// polling given; its commands without erasing and polls; and its pollings.
struct Shape {
    name: &'static str,
    tracks: &'static str,
    rest: fn(&str) -> String,
    count: u64,
    pollings: u64,
}

const SHAPES: [Shape; 4] = [
    Shape { name: "tao", tracks: "data 300", rest: tao_one, count: 26, pollings: 3 },
    Shape { name: "tao-two", tracks: "data 300 data 301", rest: tao_two, count: 49, pollings: 5 },
    Shape { name: "sao", tracks: "data 300", rest: |poll| format!("32 x good\n{poll}"), count: 35, pollings: 1 },
    Shape { name: "sao-two", tracks: "audio 300 audio 301", rest: |poll| format!("51 x good\n{poll}"), count: 54, pollings: 1 },
];

fn tao_two(poll: &str) -> String {
    format!("21 x good\n{poll}good\n{poll}good track nwa 450 free 299550\n{}", tao_one(poll))
}

impl Shape {
    fn method(&self) -> &str {
        &self.name[..3]
    }
}

/// Both flags, methods with one and two tracks, each status and profile, and
/// Erasable.
fn every_mix(list: &mut List) {
    for shape in &SHAPES {
        for (flags, immed, erase) in [("", false, false), (" immed", true, false), (" erase", false, true), (" immed erase", true, true)] {
            for disc in ["blank", "appendable", "finalized", "other"] {
                for profile in ["0009", "000A", "0008", "001B", "0000"] {
                    for erasable in [false, true] {
                        mix(list, shape, flags, (immed, erase), disc, profile, erasable);
                    }
                }
            }
        }
    }
}

fn mix(list: &mut List, shape: &Shape, flags: &str, (immed, erase): (bool, bool), disc: &str, profile: &str, erasable: bool) {
    let poll = if immed { POLL } else { "" };
    let polls = if immed { 2 } else { 0 };
    let known = profile == "0009" || profile == "000A";
    let used = disc == "appendable" || disc == "finalized";
    let suits = disc == "blank" || (disc == "appendable" && shape.method() == "tao");
    let recorded = shape.count + polls * shape.pollings;
    let (ends, shows) = match erase {
        true if !known => ("stop 5 2".to_string(), "another profile: 5 after the first 51h"),
        true if disc == "other" => ("stop 6 2".to_string(), "status 3: 6 after the first 51h"),
        true if used && (profile != "000A" || !erasable) => ("stop 16 2".to_string(), "a used disc that can't be erased: 16"),
        true if used => (format!("done {}", recorded + 2 + polls), "a used disc is erased, then recorded"),
        true => (format!("done {recorded}"), "a blank disc is recorded without erasing"),
        false if !known => ("stop 5 3".to_string(), "without the flag 5 after the third reply"),
        false if !suits => ("stop 6 3".to_string(), "without the flag 6 after the third reply"),
        false => (format!("done {recorded}"), "without the flag nothing is erased"),
    };
    let erased = if erase && used { format!("good\n{poll}good disc blank\n") } else { String::new() };
    let mark = if erasable { " erasable" } else { "" };
    list.job(
        &format!("erase-mix-{}{}-{disc}-{}{}", shape.name, flags.replace(' ', "-"), profile.to_lowercase(), mark.replace(' ', "-")),
        &ends, shows,
        &format!(
            "order {}{flags} {}\ngood profile {profile}\ngood disc {disc}{mark}\n{erased}{ROOM}{}",
            shape.method(), shape.tracks, (shape.rest)(poll)
        ),
    );
}

/// The flag with every mix of the others, on a used disc. Audio in TAO is 24
/// ahead of A1h.
fn flag_mixes(list: &mut List) {
    for flags in 8..16 {
        let words = flag_words(flags);
        let immed = flags & 4 != 0;
        let poll = if immed { POLL } else { "" };
        for kind in ["audio", "data"] {
            let ends = match (kind, immed) {
                ("audio", _) => "stop 24 2",
                (_, true) => "done 36",
                _ => "done 28",
            };
            list.job(
                &format!("erase-tao-{flags}-{kind}"), ends,
                "TAO: A1h comes ahead of the recording, with Immed as 35h and 5Bh; audio is 24 before that",
                &format!("order tao{words} {kind} 300\n{USED}good\n{poll}good disc blank\n{ROOM}{}", tao_one(poll)),
            );
            let ends = match (flags & 1, immed) {
                (1, _) => "stop 8 2",
                (_, true) => "done 41",
                _ => "done 37",
            };
            list.job(
                &format!("erase-sao-{flags}-{kind}"), ends,
                "SAO: A1h comes ahead of the recording; keep appendable is 8 before that",
                &format!("order sao{words} {kind} 300\n{FINALIZED}good\n{poll}good disc blank\n{ROOM}{SAO_300}{poll}"),
            );
        }
    }
}

/// "flag bit 3 leaves 3": the flags byte of an order block.
fn order_flags(list: &mut List) {
    for method in ["tao", "sao"] {
        let job = format!("order {method} data 300\n{OPEN}");
        for value in 8..16 {
            let ends = if method == "sao" && value % 2 == 1 { "stop 8 2" } else { "waiting 4" };
            let name = format!("erase-flags-{method}-{value}");
            list.changed(&name, ends, "order: flag bit 3 passes in every mix", &job, (0, 2, value));
        }
        for value in [16, 17, 23, 24, 31, 32, 40, 64, 72, 128, 136, 240, 248, 255] {
            let name = format!("erase-flags-{method}-{value}");
            list.changed(&name, "stop 3 0", "order: a flag bit above bit 3: 3", &job, (0, 2, value));
        }
        let name = format!("erase-flags-{method}-check");
        list.unsealed(&name, "stop 2 0", "order: flag bit 3 set, the check not: 2", &job, (0, 2, 8));
    }
}

/// What can be wrong at the first 51h.
struct Opening {
    method: &'static str,
    profile: &'static str,
    disc: &'static str,
    /// Nothing, `keep`, or the tracks that are audio: `mixed` the first of
    /// three, `mixed-last` the last, `audio` all of them.
    session: &'static str,
    short: bool,
    long: bool,
}

impl Opening {
    /// The numbers that apply, in the order in which they are judged.
    fn numbers(&self) -> Vec<u8> {
        let used = self.disc != "blank" && self.disc != "other erasable";
        let spared = self.profile == "000A" && self.disc.ends_with("erasable");
        let numbers = [
            (5, self.profile == "0008"),
            (6, self.disc == "other erasable"),
            (24, self.method == "tao" && self.kinds().contains(&"audio")),
            (8, self.method == "sao" && !["", "audio"].contains(&self.session)),
            (9, self.short),
            (10, self.long),
            (16, used && !spared),
        ];
        numbers.into_iter().filter_map(|(number, applies)| applies.then_some(number)).collect()
    }

    fn name(&self) -> String {
        let session = if self.session.is_empty() { String::new() } else { format!("-{}", self.session) };
        let lengths = [(self.short, "-short"), (self.long, "-long")];
        let lengths: String = lengths.into_iter().filter_map(|(set, word)| set.then_some(word)).collect();
        let (profile, disc) = (self.profile.to_lowercase(), self.disc.replace(' ', "-"));
        format!("erase-first-{}-{profile}-{disc}{session}{lengths}", self.method)
    }

    fn kinds(&self) -> [&'static str; 3] {
        match self.session {
            "mixed" => ["audio", "data", "data"],
            "mixed-last" => ["data", "data", "audio"],
            "audio" => ["audio"; 3],
            _ => ["data"; 3],
        }
    }

    fn text(&self) -> String {
        let keep = if self.session == "keep" { " keep" } else { "" };
        let [one, two, three] = self.kinds();
        let (first, last) = (if self.short { 299 } else { 300 }, if self.long { 404_550 } else { 300 });
        let (method, profile, disc) = (self.method, self.profile, self.disc);
        format!("order {method}{keep} erase {one} {first} {two} 300 {three} {last}\ngood profile {profile}\ngood disc {disc}\n")
    }
}

fn openings() -> Vec<Opening> {
    let mut all = Vec::new();
    for method in ["tao", "sao"] {
        for profile in ["0008", "0009", "000A"] {
            for disc in ["blank", "appendable erasable", "finalized", "other erasable"] {
                for session in ["", "keep", "mixed", "mixed-last", "audio"] {
                    for (short, long) in [(false, false), (false, true), (true, false), (true, true)] {
                        all.push(Opening { method, profile, disc, session, short, long });
                    }
                }
            }
        }
    }
    all
}

/// After the first 51h: 5, 6 for status 3, 24, 8, 9, 10 for S alone, 16. Every
/// mix of these, of which the first is given.
fn first_numbers(list: &mut List) {
    for opening in openings() {
        let numbers = opening.numbers();
        let ends = numbers.first().map_or("waiting 3".to_string(), |number| format!("stop {number} 2"));
        list.job(&opening.name(), &ends, &format!("applying after the first 51h: {numbers:?}"), &opening.text());
    }
}

/// Number 4 comes ahead of 5 to 16 at the first 51h, and 12 ahead of all.
fn number_4_first(list: &mut List) {
    let job = |order: &str, profile: &str, reply: &str| format!("order {order}\ngood profile {profile}\n{reply}\n4 x good\n");
    for (name, order, profile, byte_2) in [
        ("5", "tao erase data 300", "0008", 0x00),
        ("6", "tao erase data 300", "000A", 0x13),
        ("8", "sao keep erase data 300", "000A", 0x12),
        ("9", "tao erase data 299", "000A", 0x11),
        ("10", "tao erase data 404850", "000A", 0x11),
        ("16", "tao erase data 300", "0009", 0x01),
    ] {
        let number_4 = job(order, profile, &disc_data(33, 32, byte_2));
        list.job(&format!("erase-4-over-{name}"), "stop 4 2", "a first 51h that is too short: 4 ahead of all", &number_4);
        let number_12 = job(order, profile, "failed 02 3A 00");
        list.job(&format!("erase-12-over-{name}"), "stop 12 2 02 3A 00", "a first 51h that fails: 12 ahead of all", &number_12);
    }
}

/// "10 for S alone": S above 404,849, without address and Free Blocks; these
/// count at the 52h.
fn sum_alone(list: &mut List) {
    for method in ["tao", "sao"] {
        for (disc, before, more) in [("blank", TWO, 0), ("used", USED, 2)] {
            let first = |tracks: &str| format!("order {method} erase {tracks}\n{before}");
            let name = |what: &str| format!("erase-sum-{method}-{disc}-{what}");
            // In TAO two of three tracks are charged (Ask 6).
            let charge = if method == "tao" { 304 } else { 0 };
            let three = |sum: u64| first(&format!("data 300 data {} data 300", sum - 600 - charge));
            let passes = "S of 404,849 passes at the first 51h";
            list.job(&name("limit"), "waiting 3", passes, &first("data 404849"));
            list.job(&name("limit-three"), "waiting 3", passes, &three(404_849));
            let over = "S above 404,849: 10 at the first 51h";
            list.job(&name("over"), "stop 10 2", over, &first("data 404850"));
            list.job(&name("over-three"), "stop 10 2", over, &three(404_850));
            list.job(&name("old-limit"), "stop 10 2", over, &first("data 449849"));
            list.job(&name("old-over"), "stop 10 2", over, &first("data 449850"));
            list.job(&name("old-limit-three"), "stop 10 2", over, &three(449_849));
            list.job(&name("most"), "stop 10 2", over, &first("data 4294967295"));
            list.job(&name("wraps"), "stop 10 2", "lengths that add up to 2^32 + 300: 10", &first("data 4294967295 data 301"));
            list.job(&name("most-of-all"), "stop 10 2", "99 tracks of 2^32 - 1: 10", &first(&" data 4294967295".repeat(99)));
            let erased = if more > 0 { ERASED } else { "" };
            let third = |tracks: &str, reply: &str| format!("{}{erased}{reply}\n", first(tracks));
            let given = |ends: &str, count: u64| format!("{ends} {}", count + more);
            list.job(&name("limit-room"), &given("waiting", 4), "S of 404,849 with room passes at the 52h too", &third("data 404849", "good track nwa 0 free 404849"));
            list.job(&name("limit-free"), &given("stop 10", 3), "Free Blocks counts only at the 52h: 10", &third("data 404849", "good track nwa 0 free 404848"));
            let address = if method == "tao" { given("stop 10", 3) } else { given("waiting", 4) };
            list.job(&name("limit-address"), &address, "the address counts only at the 52h, and in TAO alone: 10", &third("data 404849", "good track nwa 1 free 404849"));
            list.job(&name("free-none"), &given("stop 10", 3), "no free block: 10, and only at the 52h", &third("data 300", "good track nwa 0 free 0"));
            let far = if method == "tao" { given("stop 10", 3) } else { given("waiting", 4) };
            list.job(&name("old-far"), &far, "lead-out at the old limit: 10 only at the 52h, and in TAO alone", &third("data 300", "good track nwa 449549 free 404849"));
            list.job(&name("far"), &far, "an address near the limit: 10 only at the 52h, and in TAO alone", &third("data 300", "good track nwa 404550 free 404849"));
        }
    }
}

/// Number 9 after the first 51h, on a blank disc too.
fn short_tracks(list: &mut List) {
    for method in ["tao", "sao"] {
        for (disc, before) in [("blank", TWO), ("used", USED)] {
            for (name, tracks) in [
                ("299", "data 299"),
                ("0", "data 0"),
                ("last", "data 300 data 300 data 299"),
                ("middle", "data 300 data 16 data 300"),
            ] {
                list.job(
                    &format!("erase-short-{method}-{disc}-{name}"), "stop 9 2",
                    "with the flag a track below 300 blocks is 9 after the first 51h",
                    &format!("order {method} erase {tracks}\n{before}{ERASED}{ROOM}40 x good\n"),
                );
            }
            list.job(&format!("erase-short-{method}-{disc}-300"), "waiting 3", "tracks of 300 blocks pass", &format!("order {method} erase data 300 data 300\n{before}"));
        }
        list.job(
            &format!("erase-short-{method}-no-flag"), "stop 9 3", "without the flag 9 comes after the third reply",
            &format!("order {method} immed data 299\n{TWO}{ROOM}"),
        );
    }
}

/// 46h is read as before; 5 comes after the first 51h.
fn replies_46h(list: &mut List) {
    let job = |reply: &str| format!("order tao erase data 300\n{reply}\ngood disc appendable erasable\n{ERASED}{ROOM}{TAO_300}");
    list.job("erase-46h-short", "stop 4 1", "46h of 7 bytes with the flag: 4 at once", &job("good raw 00 00 00 04 00 00 00"));
    list.job("erase-46h-length-3", "stop 4 1", "46h with length field 3 and the flag: 4 at once", &job("good raw 00 00 00 03 00 00 00 0A"));
    list.job("erase-46h-fails", "stop 12 1 05 20 00", "46h fails with the flag: 12", &job("failed 05 20 00"));
    list.job("erase-46h-passes", "done 28", "46h with other bytes set: a CD-RW", &job("good raw 00 00 01 00 FF FF 00 0A FF"));
    for profile in ["0000", "0008", "000B", "0012", "001B", "0109", "010A", "0900", "0A00", "FFFF"] {
        let reply = format!("good profile {profile}");
        let name = |disc: &str| format!("erase-46h-{}-{disc}", profile.to_lowercase());
        list.job(&name("used"), "stop 5 2", "another profile: 5 ahead of 16", &job(&reply));
        list.job(&name("blank"), "stop 5 2", "another profile: 5 on a blank disc too", &job(&reply).replace("appendable erasable", "blank"));
        list.job(&name("waits"), "waiting 2", "5 is not judged before the first 51h", &format!("order sao erase data 300\n{reply}\n"));
    }
}

/// Shapes of a 51h reply that are 4, with this byte 2.
fn bad_51h(byte_2: u8) -> Vec<(String, String)> {
    let mut rows = vec![
        ("empty".to_string(), "good".to_string()),
        ("33-bytes".to_string(), disc_data(33, 32, byte_2)),
        ("length-31".to_string(), disc_data(34, 31, byte_2)),
        ("length-0".to_string(), disc_data(50, 0, byte_2)),
    ];
    for bit in 5..8 {
        rows.push((format!("bit-{bit}"), disc_data(34, 32, byte_2 | 1 << bit)));
    }
    rows
}

/// Shapes of a 51h reply that pass, with this byte 2.
fn good_51h(byte_2: u8) -> Vec<(&'static str, String)> {
    vec![
        ("34-bytes", disc_data(34, 32, byte_2)),
        ("50-bytes", disc_data(50, 48, byte_2)),
        ("length-256", disc_data(34, 256, byte_2)),
        ("506-bytes", disc_data(506, 0xFFFF, byte_2)),
    ]
}

/// The first 51h: 4, and 16.
fn first_51h(list: &mut List) {
    let job = |profile: &str, reply: &str| format!("order sao erase data 300\ngood profile {profile}\n{reply}\n");
    for byte_2 in [0x00, 0x11, 0x12] {
        for (name, reply) in bad_51h(byte_2) {
            list.job(&format!("erase-51h-{byte_2:02x}-{name}"), "stop 4 2", "a first 51h that is no good one: 4, and no A1h", &job("000A", &reply));
        }
        for (name, reply) in good_51h(byte_2) {
            list.job(&format!("erase-51h-{byte_2:02x}-{name}"), "waiting 3", "a first 51h that passes", &job("000A", &reply));
        }
    }
    list.job("erase-51h-16-0009", "stop 16 2", "a CD-R that says Erasable: 16", &job("0009", "good disc finalized erasable"));
    list.job("erase-51h-16-000a", "stop 16 2", "a CD-RW that doesn't say Erasable: 16", &job("000A", "good disc appendable"));
    list.job("erase-51h-other-bytes", "stop 16 2", "Erasable is in byte 2 and nowhere else", &job("000A", &format!("good raw 00 20 0E{}", " FF".repeat(31))));
}

/// Each byte 2 of the first 51h.
fn first_byte_2(list: &mut List) {
    let job = |profile: &str, reply: &str| format!("order sao erase data 300\ngood profile {profile}\n{reply}\n");
    for byte_2 in 0..32 {
        let (status, erasable) = (byte_2 % 4, byte_2 >= 16);
        for profile in ["0009", "000A"] {
            let (ends, shows) = match status {
                0 => ("waiting 3", "blank: 52h comes next"),
                3 => ("stop 6 2", "status 3: 6"),
                _ if erasable && profile == "000A" => ("waiting 3", "used and erasable: A1h comes next"),
                _ => ("stop 16 2", "used and not to be erased: 16"),
            };
            list.job(&format!("erase-51h-byte-2-{byte_2:02x}-{}", profile.to_lowercase()), ends, shows, &job(profile, &disc_data(34, 32, byte_2)));
        }
    }
    for byte_2 in [0x20, 0x31, 0x51, 0x80, 0x91, 0xF2, 0xFF] {
        list.job(&format!("erase-51h-byte-2-{byte_2:02x}"), "stop 4 2", "bits 7 to 5 of byte 2: 4, and no A1h", &job("000A", &disc_data(34, 32, byte_2)));
    }
}

/// The second 51h: 4, and 6 unless the disc is blank; Erasable isn't judged.
fn second_51h(list: &mut List) {
    for method in ["tao", "sao"] {
        for (immed, given) in [(false, 4), (true, 6)] {
            let (flags, poll) = if immed { ("immed erase", POLL) } else { ("erase", "") };
            let job = |reply: &str| format!("order {method} {flags} data 300\n{USED}good\n{poll}{reply}\n");
            let name = |what: &str| format!("erase-again-{method}{}-{what}", if immed { "-immed" } else { "" });
            for byte_2 in 0..32 {
                let ends = if byte_2 % 4 == 0 { format!("waiting {}", given + 1) } else { format!("stop 6 {given}") };
                list.job(&name(&format!("byte-2-{byte_2:02x}")), &ends, "the second 51h must say blank, else 6; Erasable isn't judged", &job(&disc_data(34, 32, byte_2)));
            }
            for byte_2 in [0x10, 0x01] {
                for (shape, reply) in bad_51h(byte_2) {
                    list.job(&name(&format!("{byte_2:02x}-{shape}")), &format!("stop 4 {given}"), "a second 51h that is no good one: 4 before 6", &job(&reply));
                }
            }
            for (shape, reply) in good_51h(0) {
                list.job(&name(shape), &format!("waiting {}", given + 1), "a second 51h that passes", &job(&reply));
            }
            list.job(&name("fails"), &format!("stop 12 {given} 03 11 05"), "the second 51h fails: 12", &job("failed 03 11 05"));
            list.job(&name("not-ready"), &format!("stop 12 {given} 02 04 07"), "the second 51h is not ready: 12", &job("failed 02 04 07"));
            list.job(&name("used-once"), &format!("stop 6 {given}"), "a disc is erased once and not again: 6", &job("good disc finalized erasable"));
        }
    }
}

/// A failing A1h stops with 12, with Immed too, and is not polled then.
fn blank_fails(list: &mut List) {
    for (flags, poll) in [("erase", ""), ("immed erase", POLL)] {
        let job = |reply: &str| format!("order tao {flags} data 300\n{FINALIZED}{reply}\n{poll}good disc blank\n{ROOM}");
        let name = |what: &str| format!("{}-a1h-fails-{what}", flags.replace(' ', "-"));
        for (code, key, asc, ascq, triple) in [
            ("70", "05", "20", "00", "05 20 00"),
            ("70", "05", "26", "00", "05 26 00"),
            ("70", "03", "51", "00", "03 51 00"),
            ("70", "07", "27", "00", "07 27 00"),
            ("F0", "0F", "FF", "FF", "0F FF FF"),
            ("70", "02", "04", "00", "02 04 00"),
            ("70", "02", "04", "01", "02 04 01"),
            ("70", "02", "04", "04", "02 04 04"),
            ("70", "02", "04", "07", "02 04 07"),
            ("F0", "02", "04", "09", "02 04 09"),
            ("70", "02", "04", "FF", "02 04 FF"),
            ("71", "02", "04", "08", "02 04 08"),
            ("F1", "02", "04", "08", "02 04 08"),
            ("70", "02", "05", "08", "02 05 08"),
            ("70", "03", "04", "08", "03 04 08"),
            ("70", "00", "00", "00", "00 00 00"),
            ("72", "02", "04", "08", "00 00 00"),
            ("00", "02", "04", "08", "00 00 00"),
        ] {
            let sense = format!("failed raw {code} 00 {key} 00 00 00 00 0A 00 00 00 00 {asc} {ascq} 00 80 80 00");
            let ends = format!("stop 12 3 {triple}");
            list.job(&name(&format!("{code}h-{key}-{asc}-{ascq}").to_lowercase()), &ends, "a failing A1h: 12", &job(&sense));
        }
        list.job(&name("no-data"), "stop 12 3 00 00 00", "A1h fails without data: 12 with 0, 0, 0", &job("failed"));
        list.job(&name("13-bytes"), "stop 12 3 00 00 00", "13 bytes can't say busy: 12 with 0, 0, 0", &job("failed raw 70 00 02 00 00 00 00 0A 00 00 00 00 04"));
        list.job(&name("after-busy"), "stop 12 6 04 08 00", "A1h is busy three times, then fails: 12", &job("3 x busy\nfailed 04 08 00"));
    }
}

/// Busy at A1h, at each 51h, and around them: the same command again.
fn blank_busy(list: &mut List) {
    for (flags, poll, base) in [("erase", "", 28), ("immed erase", POLL, 36)] {
        let job = |rows: [&str; 5]| {
            let [a, b, c, d, e] = rows;
            format!(
                "order tao {flags} data 300\n{a}good profile 000A\n{b}good disc appendable erasable\n\
                 {c}good\n{poll}{d}good disc blank\n{e}{ROOM}{}", tao_one(poll)
            )
        };
        let mut add = |what: &str, busy: u64, rows: [&str; 5]| {
            let name = format!("{}-busy-{what}", flags.replace(' ', "-"));
            list.job(&name, &format!("done {}", base + busy), "a busy command of the opening goes again", &job(rows));
        };
        let (one, three) = ("busy\n", "3 x busy\n");
        add("46h", 3, [three, "", "", "", ""]);
        add("first-51h", 3, ["", three, "", "", ""]);
        add("a1h", 3, ["", "", three, "", ""]);
        add("a1h-once", 1, ["", "", one, "", ""]);
        add("a1h-many", 200, ["", "", "200 x busy\n", "", ""]);
        add("a1h-f0h", 1, ["", "", "failed raw F0 FF F2 FF FF FF FF FF FF FF FF FF 04 08\n", "", ""]);
        add("second-51h", 3, ["", "", "", three, ""]);
        add("both-51h", 6, ["", three, "", three, ""]);
        add("52h", 3, ["", "", "", "", three]);
        add("each", 5, [one, one, one, one, one]);
    }
    list.job("erase-busy-waits", "waiting 6", "A1h stays busy", &format!("order tao immed erase data 300\n{USED}3 x busy\n"));
}

/// The data of a good A1h is ignored.
fn blank_data(list: &mut List) {
    for (name, data) in [
        ("1-byte", "00".to_string()),
        ("busy", "70 00 02 00 00 00 00 0A 00 00 00 00 04 08 00 80 80 00".to_string()),
        ("failure", "70 00 05 00 00 00 00 0A 00 00 00 00 24 00".to_string()),
        ("51h", format!("00 20 00{}", " 00".repeat(31))),
        ("506-bytes", hex::plain(&[0xFF; 506])),
    ] {
        list.job(&format!("erase-a1h-data-{name}"), "done 37", "a good A1h's data is ignored", &format!("order sao erase data 300\n{USED}good raw {data}\ngood disc blank\n{ROOM}{SAO_300}"));
        list.job(&format!("immed-erase-a1h-data-{name}"), "done 41", "a good A1h's data is ignored with Immed too", &format!("order sao immed erase data 300\n{USED}good raw {data}\n{POLL}good disc blank\n{ROOM}{SAO_300}{POLL}"));
    }
    list.job("erase-a1h-not-polled", "waiting 4", "without Immed A1h is not polled: the 51h comes next", &format!("order sao erase data 300\n{USED}good\n"));
    list.job("immed-erase-a1h-polled", "waiting 4", "with Immed A1h is polled: a 00h comes next", &format!("order sao immed erase data 300\n{USED}good\n"));
    list.job("immed-erase-as-if-not", "stop 12 4 00 00 00", "a failure without sense data where the 00h is answered: 12", &format!("order sao immed erase data 300\n{USED}good\nfailed\n"));
    list.job("erase-as-if-polled", "stop 4 4", "without Immed a plain good answers the second 51h: 4", &format!("order sao erase data 300\n{USED}good\n{POLL}"));
}

/// The polling of A1h, as that of 35h and 5Bh.
fn blank_polled(list: &mut List) {
    let places = [
        Place {
            name: "a1h",
            before: format!("order tao immed erase data 300\n{USED}good\n"),
            after: format!("good disc blank\n{ROOM}{}", tao_one(POLL)),
            given: 4,
            total: 36,
        },
        Place {
            name: "sao-a1h",
            before: format!("order sao immed erase audio 300\n{FINALIZED}good\n"),
            after: format!("good disc blank\n{ROOM}{SAO_300}{POLL}"),
            given: 4,
            total: 41,
        },
    ];
    for place in &places {
        polled_at(list, place);
        polled_in_detail(list, place);
    }
    let fresh = format!(
        "order sao immed erase data 300\n{USED}good\ngood\ngood progress FFFF\n{POLL}good disc blank\n{ROOM}{SAO_300}\
         busy\ngood progress 0000\n{POLL}"
    );
    list.job("immed-erase-fresh", "done 45", "the polling of A1h is no other's", &fresh);
    let rounds: String = (1..=300).map(|i| format!("busy\ngood progress {:04X}\n", 200 * i)).collect();
    list.job("immed-erase-long", "done 641", "an erasing of 300 rounds", &format!("order sao immed erase data 300\n{USED}good\n{rounds}{POLL}good disc blank\n{ROOM}{SAO_300}{POLL}"));
}

/// The 52h of a flagged job: 4, 7, 10 only, erased or not.
fn track_information(list: &mut List) {
    for (disc, before, more) in [("blank", TWO.to_string(), 0), ("used", format!("{USED}{ERASED}"), 2)] {
        for (method, rest, total) in [("tao", TAO_300, 26), ("sao", SAO_300, 35)] {
            let tao = method == "tao";
            let done = format!("done {}", total + more);
            let stop = |number: u8| format!("stop {number} {}", 3 + more);
            let in_tao = |number: u8| if tao { stop(number) } else { done.clone() };
            let mut add = |what: &str, ends: &str, shows: &str, reply: &str| {
                let text = format!("order {method} erase data 300\n{before}{reply}\n{rest}");
                list.job(&format!("erase-52h-{disc}-{method}-{what}"), ends, shows, &text);
            };
            add("passes", &done, "52h passes", "good track nwa 0 free 300");
            add("damaged", &stop(7), "Damage: 7", "good track nwa 0 free 300 damaged");
            add("no-address", &in_tao(7), "NWA_V clear: 7 in TAO alone", "good track nwa 0 free 300 no-address");
            add("both", &stop(7), "damaged and no address: 7", "good track nwa 0 free 300 damaged no-address");
            add("free", &stop(10), "one block short: 10", "good track nwa 0 free 299");
            add("free-most", &done, "Free Blocks is unsigned", "good track nwa 0 free 4294967295");
            add("limit", &done, "lead-out at 404,849 passes", "good track nwa 404549 free 300");
            add("over-limit", &in_tao(10), "lead-out at 404,850: 10 in TAO", "good track nwa 404550 free 300");
            add("old-limit", &in_tao(10), "lead-out at 449,849: 10 in TAO", "good track nwa 449549 free 300");
            add("minus-45150", &in_tao(10), "an address of -45,150 is read unsigned: 10 in TAO", "good track nwa 4294922146 free 300");
            add("minus-150", &in_tao(10), "an address of -150 is read unsigned: 10 in TAO", "good track nwa 4294967146 free 300");
            add("7-before-10", &stop(7), "damaged and no room: 7 before 10", "good track nwa 0 free 0 damaged");
            add("empty", &stop(4), "52h without data: 4", "good");
            add("27-bytes", &stop(4), "52h of 27 bytes: 4", &track_data(27, 26, &[]));
            add("length-25", &stop(4), "length field 25: 4", &track_data(48, 25, &[]));
            add("28-bytes", &done, "52h of 28 bytes passes", &track_data(28, 26, &[]));
            add("4-before-7", &stop(4), "too short and damaged: 4 before 7", &track_data(27, 26, &[(5, 0x20)]));
            add("fails", &format!("stop 12 {} 05 24 00", 3 + more), "52h fails: 12", "failed 05 24 00");
        }
    }
}

/// Later 52h replies of an erasing TAO job.
fn later_tracks(list: &mut List) {
    let first = format!("order tao erase data 300 data 301\n{USED}{ERASED}good track nwa 1000 free 753\n22 x good\n");
    let second = |reply: &str| format!("{first}{reply}\n{TAO_300}");
    list.job("erase-later-equal", "done 51", "second address equal to the previous end passes", &second("good track nwa 1300 free 301"));
    list.job("erase-later-above", "done 51", "second address above the previous end passes", &second("good track nwa 1450 free 301"));
    list.job("erase-later-stale", "stop 7 28", "second address one less than the previous end: 7", &second("good track nwa 1299 free 301"));
    list.job("erase-later-zero", "stop 7 28", "the erased disc's start again: 7", &second("good track nwa 0 free 301"));
    list.job("erase-later-damaged", "stop 7 28", "Damage at the second 52h: 7", &second("good track nwa 1300 free 301 damaged"));
    list.job("erase-later-free", "stop 10 28", "no room at the second 52h: 10", &second("good track nwa 1300 free 300"));
    list.job("erase-later-limit", "done 51", "lead-out limit at the second 52h: 404,849 passes", &second("good track nwa 404548 free 301"));
    list.job("erase-later-over-limit", "stop 10 28", "lead-out limit at the second 52h: 404,850: 10", &second("good track nwa 404549 free 301"));
    list.job("erase-later-old-limit", "stop 10 28", "lead-out at 449,849 at the second 52h: 10", &second("good track nwa 449548 free 301"));
    list.job("erase-later-short", "stop 4 28", "the second 52h is too short: 4", &second("good"));
    let blank = first.replace(USED, TWO).replace(ERASED, "");
    list.job("erase-later-blank-equal", "done 49", "not erased: second address equal to the previous end passes", &format!("{blank}good track nwa 1300 free 301\n{TAO_300}"));
    list.job("erase-later-blank-limit", "done 49", "not erased: lead-out limit at the second 52h: 404,849 passes", &format!("{blank}good track nwa 404548 free 301\n{TAO_300}"));
    list.job("erase-later-blank-over-limit", "stop 10 26", "not erased: lead-out limit at the second 52h: 404,850: 10", &format!("{blank}good track nwa 404549 free 301\n"));
    list.job("erase-later-blank-stale", "stop 7 26", "not erased: second address one less: 7", &format!("{blank}good track nwa 1299 free 301\n"));
}

/// Each command of an erasing job fails, and each is answered busy.
fn every_command(list: &mut List) {
    let tao = format!("{USED}good\n{POLL}good disc blank\n{ROOM}{}", tao_two(POLL));
    let sao = format!("{FINALIZED}{ERASED}{ROOM}{SAO_300}");
    each_disturbed(list, "erasing", "tao", "order tao protect immed erase data 300 data 301\n", &tao);
    each_disturbed(list, "erasing", "sao", "order sao protect erase data 300\n", &sao);
}

/// The input ends, or holds a bad block, at each place of the opening.
fn opening_ends(list: &mut List) {
    for method in ["tao", "sao"] {
        for (name, order, opening) in [
            ("erased", "erase", format!("{USED}{ERASED}{ROOM}")),
            ("polled", "immed erase", format!("{USED}good\ngood\ngood progress 8000\n{POLL}good disc blank\n{ROOM}")),
            ("blank", "immed erase", OPEN.to_string()),
        ] {
            let lines = lines_of(&opening);
            for place in 0..=lines.len() {
                let name = format!("erase-ends-{method}-{name}-{}", place + 1);
                broken_off(list, &name, &format!("order {method} {order} data 300\n"), &lines[..place]);
            }
        }
    }
}

/// Behind an order and these replies of the opening the input ends, or holds a
/// bad block.
pub(crate) fn broken_off(list: &mut List, name: &str, order: &str, replies: &[String]) {
    let bad = format!("block 02 02{} 04\n", " 00".repeat(509));
    let check = format!("block 02{}\n", " 00".repeat(511));
    let mut add = |what: &str, ends: &str, shows: &str, last: &str| {
        let ends = format!("{ends} {}", replies.len() + 1);
        list.job(&format!("{name}{what}"), &ends, shows, &format!("{order}{}{last}", join(replies)));
    };
    add("", "waiting", "the replies run out in the opening", "");
    add("-part", "stop 1", "part of a block in the opening: 1", "block 02\n");
    add("-check", "stop 2", "a check that differs in the opening: 2", &check);
    add("-bad", "stop 3", "a bad block in the opening: 3", &bad);
}

/// Later blocks are not read.
fn after_the_end(list: &mut List) {
    let more = format!("{ERASED}{ROOM}busy\nfailed\nblock 00\n");
    let mut add = |name: &str, ends: &str, text: &str| {
        list.job(&format!("erase-after-{name}"), ends, "later blocks are not read after the job's end", &format!("{text}{more}"));
    };
    add("done", "done 37", &format!("order sao erase data 300\n{USED}{ERASED}{ROOM}{SAO_300}"));
    add("done-polled", "done 41", &format!("order sao immed erase data 300\n{USED}good\n{POLL}good disc blank\n{ROOM}{SAO_300}{POLL}"));
    add("done-blank", "done 26", &format!("order tao erase data 300\n{TWO}{ROOM}{TAO_300}"));
    add("5", "stop 5 2", "order tao erase data 300\ngood profile 0008\ngood disc appendable erasable\n");
    add("6", "stop 6 2", "order tao erase data 300\ngood profile 000A\ngood disc other erasable\n");
    add("6-again", "stop 6 4", &format!("order tao erase data 300\n{USED}good\ngood disc appendable erasable\n"));
    add("8", "stop 8 2", &format!("order sao keep erase data 300\n{USED}"));
    add("9", "stop 9 2", &format!("order tao erase data 299\n{USED}"));
    add("10", "stop 10 2", &format!("order tao erase data 404850\n{USED}"));
    add("10-old-limit", "stop 10 2", &format!("order sao erase data 449849\n{USED}"));
    add("12", "stop 12 3 05 20 00", &format!("order tao erase data 300\n{USED}failed 05 20 00\n"));
    add("12-polled", "stop 12 4 03 51 00", &format!("order tao immed erase data 300\n{USED}good\nfailed 03 51 00\n"));
    add("16", "stop 16 2", "order tao erase data 300\ngood profile 0009\ngood disc appendable\n");
}

/// "The exact count grows by 2 where an erasing took place."
fn long_jobs(list: &mut List) {
    let many = |track: &str| -> String {
        (1..99).map(|i| format!("{track}good track nwa {} free 50000\n", 301 * i)).collect()
    };
    let [data, audio] = [" data 300", " audio 300"].map(|track| track.repeat(99));
    let (plain, polled) = ("22 x good\n", format!("21 x good\n{POLL}good\n{POLL}"));
    list.job("erase-99-tao", "done 2282", "TAO, 99 tracks of 300: 2280 commands and an erasing", &format!("order tao erase{data}\n{USED}{ERASED}{ROOM}{}{TAO_300}", many(plain)));
    list.job("erase-99-tao-blank", "done 2280", "TAO, 99 tracks of 300 on a blank disc: 2280 commands", &format!("order tao erase{data}\n{OPEN}{}{TAO_300}", many(plain)));
    list.job("immed-erase-99-tao", "done 2682", "TAO, 99 tracks of 300: 2282 commands and 200 pollings", &format!(
        "order tao immed erase{data}\n{USED}good\n{POLL}good disc blank\n{ROOM}{}{polled}good\n{POLL}", many(&polled)
    ));
    list.job("erase-99-sao", "done 1899", "SAO, 99 tracks of 300: 1897 commands and an erasing", &format!("order sao erase{audio}\n{FINALIZED}{ERASED}{ROOM}1894 x good\n"));
    list.job("erase-99-16", "stop 16 2", "99 tracks on a disc that can't be erased: 16", &format!("order sao erase{audio}\ngood profile 0009\ngood disc finalized\n"));
    list.job("erase-99-last-short", "stop 9 2", "the 99th track has 299 blocks: 9, and no A1h", &format!("order tao erase{} data 299\n{USED}", " data 300".repeat(98)));
    list.job("erase-99-last-kind", "stop 8 2", "the 99th track is of another kind: 8, and no A1h", &format!("order sao erase{} data 300\n{USED}", " audio 300".repeat(98)));
}
