//! Corner jobs for document 02, Ask 12: TAO with an audio track is 24, judged
//! just before 8. They come behind those of `charge_corners`.

use crate::charge_corners::{AMPLE, LIMIT};
use crate::corners::{disc_data, join, lines_of, track_data, List, OPEN, TAO_300, TWO};
use crate::erasing_corners::{broken_off, ERASED, ROOM, USED};
use crate::polling_corners::{flag_words, tao_one, POLL};

/// All corner jobs of audio in TAO.
pub(crate) fn audio(list: &mut List) {
    places(list);
    any_length(list);
    numbers_in_order(list);
    opening_disturbed(list);
    busy_opening(list);
    flag_mixes(list);
    every_disc(list);
    nothing_behind(list);
    order_blocks(list);
    sao(list);
    after_the_end(list);
}

/// A sort of TAO job: its flags, the replies up to the one after which 24 is
/// judged, and those behind them up to the 55h of a job of data.
struct Sort {
    name: &'static str,
    flags: &'static str,
    opening: String,
    rest: String,
}

fn sorts() -> [Sort; 4] {
    let kept = OPEN.replace("blank", "appendable");
    [
        Sort { name: "blank", flags: "", opening: OPEN.to_string(), rest: String::new() },
        Sort { name: "kept", flags: " keep", opening: kept, rest: String::new() },
        Sort { name: "erase-blank", flags: " erase", opening: TWO.to_string(), rest: ROOM.to_string() },
        Sort { name: "erase-used", flags: " erase", opening: USED.to_string(), rest: format!("{ERASED}{ROOM}") },
    ]
}

impl Sort {
    fn order(&self, tracks: &str) -> String {
        format!("order tao{} {tracks}\n", self.flags)
    }

    fn text(&self, tracks: &str) -> String {
        format!("{}{}{}", self.order(tracks), self.opening, self.rest)
    }

    /// 24, after the opening and so many repeats.
    fn stops(&self, repeats: usize) -> String {
        format!("stop 24 {}", lines_of(&self.opening).len() + repeats)
    }

    /// A job of data is given its 55h.
    fn passes(&self) -> String {
        format!("waiting {}", lines_of(&format!("{}{}", self.opening, self.rest)).len() + 1)
    }
}

/// So many tracks of 300 blocks, of which some are audio by their numbers.
fn tracks(count: usize, audio: impl Fn(usize) -> bool) -> String {
    let kind = |number| if audio(number) { "audio 300" } else { "data 300" };
    let tracks: Vec<&str> = (1..=count).map(kind).collect();
    tracks.join(" ")
}

/// How many tracks, and the places in them that are tried.
const PLACES: [(usize, &[usize]); 4] = [(1, &[1]), (2, &[1, 2]), (3, &[1, 2, 3]), (99, &[1, 2, 50, 98, 99])];

/// One audio track at each place, all but one, all, and none.
fn places(list: &mut List) {
    for sort in sorts() {
        for (count, places) in PLACES {
            let name = |what: &str| format!("audio-{}-{count}-{what}", sort.name);
            list.job(&name("none"), &sort.passes(), "TAO of data alone passes", &sort.text(&tracks(count, |_| false)));
            for &place in places {
                let one = tracks(count, |number| number == place);
                list.job(&name(&format!("at-{place}")), &sort.stops(0), "TAO with one audio track: 24", &sort.text(&one));
            }
            // Of one track or two these are the same.
            if count > 1 {
                list.job(&name("all"), &sort.stops(0), "TAO of audio alone: 24", &sort.text(&tracks(count, |_| true)));
            }
            if count > 2 {
                for &place in places {
                    let others = tracks(count, |number| number != place);
                    list.job(&name(&format!("but-{place}")), &sort.stops(0), "TAO with one data track among audio: 24", &sort.text(&others));
                }
            }
        }
    }
}

/// An audio track of any length is 24, ahead of 9 and 10.
fn any_length(list: &mut List) {
    for sort in sorts() {
        for length in [0, 1, 299, 301, LIMIT, LIMIT + 1, 449_849, AMPLE] {
            let name = format!("audio-{}-length-{length}", sort.name);
            list.job(&name, &sort.stops(0), "an audio track of any length: 24", &sort.text(&format!("audio {length}")));
        }
        for (what, track) in [("most-of-all", " audio 4294967295"), ("least-of-all", " audio 0")] {
            let name = format!("audio-{}-{what}", sort.name);
            list.job(&name, &sort.stops(0), "99 audio tracks of any length: 24", &sort.text(&track.repeat(99)));
        }
    }
}

/// What can be wrong after the third reply, without the flag for erasing.
struct Third {
    profile: &'static str,
    disc: &'static str,
    /// Nothing, `damaged` or `no-address`.
    mark: &'static str,
    /// Nothing, or which of two tracks is audio: `first` or `last`.
    audio: &'static str,
    short: bool,
    /// Nothing, or what is one block short: `free` or `limit`.
    room: &'static str,
}

impl Third {
    /// The numbers that apply, in the order in which they are judged.
    fn numbers(&self) -> Vec<u8> {
        let numbers = [
            (5, self.profile == "0008"),
            (6, self.disc == "finalized"),
            (7, !self.mark.is_empty()),
            (24, !self.audio.is_empty()),
            (9, self.short),
            (10, !self.room.is_empty()),
        ];
        numbers.into_iter().filter_map(|(number, applies)| applies.then_some(number)).collect()
    }

    fn name(&self) -> String {
        let short = if self.short { "short" } else { "" };
        let words = [self.profile, self.disc, self.mark, self.audio, short, self.room];
        let words: Vec<&str> = words.into_iter().filter(|word| !word.is_empty()).collect();
        format!("audio-third-{}", words.join("-").to_lowercase())
    }

    fn text(&self) -> String {
        let [one, two] = ["first", "last"].map(|place| if self.audio == place { "audio" } else { "data" });
        let length = if self.short { 299 } else { 300 };
        // What lies between the two is charged (Ask 6).
        let need = length + 300 + 152;
        let (nwa, free) = match self.room {
            "free" => (0, need - 1),
            "limit" => (LIMIT + 1 - need, AMPLE),
            _ => (0, need),
        };
        let (profile, disc, mark) = (self.profile, self.disc, self.mark);
        format!("order tao {one} {length} {two} 300\ngood profile {profile}\ngood disc {disc}\ngood track nwa {nwa} free {free} {mark}\n")
    }
}

/// After the third reply: 5, 6, 7, 24, 9, 10. Every mix of these, of which the
/// first is given. Number 8 is of SAO alone.
fn numbers_in_order(list: &mut List) {
    for (profile, disc) in [("0008", "finalized"), ("0008", "blank"), ("0009", "finalized"), ("000A", "appendable")] {
        for mark in ["", "damaged", "no-address"] {
            for audio in ["", "first", "last"] {
                for short in [false, true] {
                    for room in ["", "free", "limit"] {
                        let third = Third { profile, disc, mark, audio, short, room };
                        let numbers = third.numbers();
                        let ends = numbers.first().map_or("waiting 4".to_string(), |number| format!("stop {number} 3"));
                        list.job(&third.name(), &ends, &format!("applying after the third reply: {numbers:?}"), &third.text());
                    }
                }
            }
        }
    }
}

const MIXED: &str = "data 300 audio 300";

/// A reply to the command of this one that is too short.
fn too_short(reply: &str) -> String {
    match reply.split(' ').nth(1) {
        Some("profile") => "good raw 00 00 00 04 00 00 00".to_string(),
        Some("disc") => disc_data(33, 32, 0x11),
        _ => track_data(27, 26, &[]),
    }
}

/// Each command of the opening fails, is answered too short, or is left without
/// a whole reply: 12, 4 and the numbers of blocks come at once, and 24 doesn't.
fn opening_disturbed(list: &mut List) {
    for sort in sorts() {
        let lines = lines_of(&sort.opening);
        for (place, line) in lines.iter().enumerate() {
            let number = place + 1;
            let before = &lines[..place];
            let mut add = |what: &str, ends: &str, shows: &str, reply: &str| {
                let name = format!("audio-{}-command-{number}-{what}", sort.name);
                let text = format!("{}{}{reply}\n{}{}", sort.order(MIXED), join(before), join(&lines[number..]), sort.rest);
                list.job(&name, ends, shows, &text);
            };
            let failed = |triple: &str| format!("stop 12 {number} {triple}");
            add("fails", &failed("04 08 03"), "a command of the opening fails: 12", "failed 04 08 03");
            add("not-ready", &failed("02 04 07"), "a command of the opening is not ready: 12", "failed 02 04 07");
            add("deferred", &failed("02 04 08"), "71h is no busy: 12", "failed deferred 02 04 08");
            add("fails-no-data", &failed("00 00 00"), "a failure without sense data: 12", "failed");
            let stop = format!("stop 4 {number}");
            add("empty", &stop, "a reply without data: 4 at once", "good");
            add("short", &stop, "a reply that is too short: 4 at once", &too_short(line));
            broken_off(list, &format!("audio-{}-command-{number}", sort.name), &sort.order(MIXED), before);
        }
    }
}

/// Busy replies: the same command again, each repeat counts, and 24 comes in the
/// end.
fn busy_opening(list: &mut List) {
    for sort in sorts() {
        let lines = lines_of(&sort.opening);
        let mut add = |what: &str, busy: usize, opening: &str| {
            let name = format!("audio-{}-busy-{what}", sort.name);
            let text = format!("{}{opening}{}", sort.order(MIXED), sort.rest);
            list.job(&name, &sort.stops(busy), "busy in the opening, then 24", &text);
        };
        for place in 0..lines.len() {
            for busy in [1, 3, 100] {
                let opening = format!("{}{busy} x busy\n{}", join(&lines[..place]), join(&lines[place..]));
                add(&format!("command-{}-{busy}", place + 1), busy, &opening);
            }
        }
        let each: String = lines.iter().map(|line| format!("2 x busy\n{line}\n")).collect();
        add("each", 2 * lines.len(), &each);
    }
}

/// Every mix of flags, on a blank disc and on a used one. The replies are those
/// of a job of data, which would be done.
fn flag_mixes(list: &mut List) {
    for flags in 0..16 {
        let words = flag_words(flags);
        let (immed, erase) = (flags & 4 != 0, flags & 8 != 0);
        let poll = if immed { POLL } else { "" };
        let ends = if erase { "stop 24 2" } else { "stop 24 3" };
        for (disc, erased) in [("blank", String::new()), ("appendable", format!("good\n{poll}good disc blank\n"))] {
            let erased = if erase { erased } else { String::new() };
            for (what, tracks) in [("first", "audio 300 data 300"), ("last", MIXED), ("all", "audio 300 audio 300")] {
                list.job(
                    &format!("audio-flags-{flags}-{disc}-{what}"), ends, "audio in TAO is 24 in every mix of flags",
                    &format!("order tao{words} {tracks}\ngood profile 000A\ngood disc {disc} erasable\n{erased}{ROOM}{}", tao_one(poll)),
                );
            }
        }
    }
}

/// Each status and profile, and Erasable, with the flag for erasing and without
/// it: 24 comes behind 5 and 6, and ahead of 16 and of any A1h.
fn every_disc(list: &mut List) {
    for (flags, erase) in [("", false), (" immed", false), (" erase", true), (" immed erase", true)] {
        for disc in ["blank", "appendable", "finalized", "other"] {
            for profile in ["0008", "0009", "000A"] {
                for mark in ["", " erasable"] {
                    let unsuitable = disc == "other" || (disc == "finalized" && !erase);
                    let number = match profile {
                        "0008" => 5,
                        _ if unsuitable => 6,
                        _ => 24,
                    };
                    let (given, erased) = if erase { (2, ERASED) } else { (3, "") };
                    list.job(
                        &format!("audio-disc{}-{disc}-{}{}", flags.replace(' ', "-"), profile.to_lowercase(), mark.replace(' ', "-")),
                        &format!("stop {number} {given}"), "audio in TAO on each disc: 5, 6, 24",
                        &format!("order tao{flags} {MIXED}\ngood profile {profile}\ngood disc {disc}{mark}\n{erased}{ROOM}{TAO_300}"),
                    );
                }
            }
        }
    }
}

/// With the flag for erasing nothing is asked behind the first 51h, so that no
/// reply of an A1h, a second 51h or a 52h counts.
fn nothing_behind(list: &mut List) {
    for flags in ["erase", "keep immed erase"] {
        for (what, before, behind) in [
            ("a1h-fails", USED, "failed 05 20 00\n"),
            ("a1h-busy", USED, "3 x busy\n"),
            ("again-used", USED, "good\ngood disc appendable erasable\n"),
            ("again-other", USED, "good\ngood disc other erasable\n"),
            ("again-short", USED, "good\ngood\n"),
            ("52h-damaged", TWO, "good track nwa 0 free 300000 damaged\n"),
            ("52h-full", TWO, "good track nwa 0 free 0\n"),
            ("52h-short", TWO, "good\n"),
            ("52h-fails", TWO, "failed 03 02 00\n"),
        ] {
            let name = format!("audio-{}-{what}", flags.replace(' ', "-"));
            list.job(&name, "stop 24 2", "24 after the first 51h, and nothing behind it", &format!("order tao {flags} {MIXED}\n{before}{behind}"));
        }
    }
    list.job("audio-immed-third", "stop 24 3", "without the flag for erasing 24 waits for the third reply", &format!("order tao immed {MIXED}\n{OPEN}"));
    list.job("audio-immed-second", "waiting 3", "without the flag for erasing 24 is not judged before the third reply", &format!("order tao immed {MIXED}\n{USED}"));
}

/// Order blocks with audio in TAO are read as before; 2 and 3 come first. The
/// method or the kind in one byte decides.
fn order_blocks(list: &mut List) {
    let job = format!("order tao protect {MIXED}\n{OPEN}");
    let job = job.as_str();
    list.job("audio-order-alone", "waiting 1", "an order of audio in TAO is taken: 46h", &format!("order tao {MIXED}\n"));
    list.job("audio-order-99", "waiting 1", "an order of 99 audio tracks in TAO is taken: 46h", &format!("order tao erase{}\n", " audio 300".repeat(99)));
    list.job("audio-order-good", "stop 24 3", "an order of audio in TAO: 24 after the third reply", job);
    list.unsealed("audio-order-check", "stop 2 0", "its check differs: 2", job, (0, 510, 9));
    list.changed("audio-order-type", "stop 3 0", "its byte 0 is not 1: 3", job, (0, 0, 2));
    list.changed("audio-order-method-3", "stop 3 0", "its method is neither 1 nor 2: 3", job, (0, 1, 3));
    list.changed("audio-order-flags", "stop 3 0", "a flag bit above bit 3: 3", job, (0, 2, 16));
    list.changed("audio-order-kind-2", "stop 3 0", "its last kind is neither 0 nor 1: 3", job, (0, 9, 2));
    list.changed("audio-order-padding", "stop 3 0", "the byte after its rows is not 0: 3", job, (0, 14, 1));
    list.changed("audio-order-count", "stop 24 3", "rows of zeros are audio tracks of 0 blocks: 24 ahead of 9", &format!("order tao data 300\n{OPEN}"), (0, 3, 2));
    list.changed("audio-order-kind-1", "waiting 4", "with the last kind 1 it is of data: passes", job, (0, 9, 1));
    list.changed("audio-order-kind-0", "stop 24 3", "with the first kind 0 it is of audio alone: 24", job, (0, 4, 0));
    list.changed("audio-order-method-2", "stop 8 3", "with method 2 it is SAO of mixed kinds: 8", job, (0, 1, 2));
}

/// SAO is untouched: of audio alone it is recorded, of mixed kinds it is 8.
fn sao(list: &mut List) {
    let polled = format!("{USED}good\n{POLL}good disc blank\n{ROOM}");
    for (name, flags, opening, poll, judged) in [
        ("plain", "", OPEN.to_string(), "", 3),
        ("immed", " immed", OPEN.to_string(), POLL, 3),
        ("erase-blank", " erase", OPEN.to_string(), "", 2),
        ("erase-used", " erase", format!("{USED}{ERASED}{ROOM}"), "", 2),
        ("immed-erase", " protect immed erase", polled, POLL, 2),
    ] {
        for (count, places) in PLACES {
            let name = |what: &str| format!("audio-sao-{name}-{count}-{what}");
            let job = |flags: &str, tracks: &str| format!("order sao{flags} {tracks}\n{opening}{} x good\n{poll}", 13 + 19 * count);
            let all = tracks(count, |_| true);
            let given = lines_of(&format!("{opening}{poll}")).len() + 13 + 19 * count;
            list.job(&name("all"), &format!("done {given}"), "SAO of audio alone is recorded", &job(flags, &all));
            let stops = format!("stop 8 {judged}");
            list.job(&name("keep"), &stops, "SAO of audio with keep appendable: 8", &job(&format!(" keep{flags}"), &all));
            if count > 1 {
                for &place in places {
                    let mixed = tracks(count, |number| number == place);
                    list.job(&name(&format!("at-{place}")), &stops, "SAO with one audio track among data: 8", &job(flags, &mixed));
                }
            }
        }
    }
}

/// Later blocks are not read.
fn after_the_end(list: &mut List) {
    for sort in sorts() {
        for (what, more) in [("good", "good\n"), ("busy", "busy\n"), ("failed", "failed 03 0C 00\n"), ("block", "block 00\n"), ("order", "order sao audio 300\n")] {
            let name = format!("audio-{}-after-{what}", sort.name);
            list.job(&name, &sort.stops(0), "later blocks are not read after 24", &format!("{}{}{more}", sort.order(MIXED), sort.opening));
        }
    }
}
