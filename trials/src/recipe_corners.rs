//! Corner jobs for document 02, Ask 7: under recipe 1 a TAO track ends with its
//! 35h, and 5Bh function 1 is left out. They come behind those of `audio_corners`.

use crate::charge_corners::{AMPLE, LIMIT};
use crate::corners::{join, lines_of, track_data, List, OPEN, SAO_300, TAO_300, TWO};
use crate::erasing_corners::{broken_off, USED};
use crate::polling_corners::{flag_words, polled_as, Place, POLL};
use second::hex;

/// All corner jobs of the recipes.
pub(crate) fn recipes(list: &mut List) {
    counts(list);
    flag_mixes(list);
    every_reply(list);
    track_ends(list);
    later_52h(list);
    room(list);
    closing_fails(list);
    closing_busy(list);
    other_recipe(list);
    pollings(list);
    numbers_in_order(list);
    erasing_numbers(list);
    audio(list);
    recipe_bytes(list);
    padding(list);
    ninety_nine_rows(list);
    other_fields(list);
    sao(list);
    reply_blocks(list);
    after_the_end(list);
}

/// A sort of TAO job with tracks of 19 WRITEs: its recipe, its flags byte, and
/// whether its disc is used. With the flag for erasing such a disc is erased.
#[derive(Clone, Copy)]
struct Sort {
    recipe: u8,
    flags: u8,
    used: bool,
}

/// The sorts that are gone through in detail, under both recipes.
fn sorts() -> Vec<Sort> {
    let mut sorts = Vec::new();
    for recipe in [0, 1] {
        for (flags, used) in [(0, false), (1, true), (4, false), (8, false), (8, true), (15, true)] {
            sorts.push(Sort { recipe, flags, used });
        }
    }
    sorts
}

impl Sort {
    fn name(&self) -> String {
        let disc = if self.used { "used" } else { "blank" };
        format!("recipe-{}-flags-{}-{disc}", self.recipe, self.flags)
    }

    fn order(&self, tracks: &str) -> String {
        format!("order tao recipe {}{} {tracks}\n", self.recipe, flag_words(self.flags))
    }

    /// A polling of one round, or nothing.
    fn poll(&self) -> &'static str {
        if self.flags & 4 != 0 { POLL } else { "" }
    }

    /// How many polls one has.
    fn polls(&self) -> u64 {
        if self.flags & 4 != 0 { 2 } else { 0 }
    }

    fn erases(&self) -> bool {
        self.used && self.flags & 8 != 0
    }

    /// The replies ahead of the first 52h's.
    fn before(&self) -> String {
        match (self.used, self.erases()) {
            (false, _) => TWO.to_string(),
            (true, false) => USED.to_string(),
            (true, true) => format!("{USED}good\n{}good disc blank\n", self.poll()),
        }
    }

    /// The replies to 55h, the WRITEs and 35h, and under recipe 0 to 5Bh function 1.
    fn track(&self, writes: u64) -> String {
        let synchronized = format!("{} x good\n{}", writes + 2, self.poll());
        if self.recipe == 0 { format!("{synchronized}good\n{}", self.poll()) } else { synchronized }
    }

    /// The replies to 5Bh function 2.
    fn session(&self) -> String {
        format!("good\n{}", self.poll())
    }

    /// An order of so many tracks of 300 blocks.
    fn many(&self, tracks: u64) -> String {
        self.order(&vec!["data 300"; tracks as usize].join(" "))
    }

    /// A job of so many tracks of 300 blocks up to the 52h of the track with this
    /// index, which is not answered yet.
    fn to_52h(&self, tracks: u64, index: u64) -> String {
        let infos: String = (0..index).map(|index| format!("{}{}", info(index), self.track(19))).collect();
        format!("{}{}{infos}", self.many(tracks), self.before())
    }

    /// The replies from the 52h of the track with this index on to the end.
    fn from_52h(&self, tracks: u64, index: u64) -> String {
        let infos: String = (index..tracks).map(|index| format!("{}{}", info(index), self.track(19))).collect();
        format!("{infos}{}", self.session())
    }

    /// Commands given up to the 52h of the track with this index: the opening is 3,
    /// an erasing 2 more and its polls. A track is 22 with the next 52h, under recipe
    /// 0 one more; 35h and 5Bh are polled.
    fn given(&self, index: u64) -> u64 {
        let opening = if self.erases() { 5 + self.polls() } else { 3 };
        let track = if self.recipe == 0 { 23 + 2 * self.polls() } else { 22 + self.polls() };
        opening + index * track
    }

    /// 5Bh function 2 comes in the place of another 52h, and is polled.
    fn done(&self, tracks: u64) -> String {
        format!("done {}", self.given(tracks) + self.polls())
    }
}

/// The 52h reply for a track of 300 blocks, each 152 behind the last one's end.
fn info(index: u64) -> String {
    format!("good track nwa {} free {}\n", 452 * index, 300_000 - 452 * index)
}

/// "Under recipe 1 the count in TAO is 3n+3+W": side by side with 4n+3+W.
fn counts(list: &mut List) {
    let second = "good track nwa 452 free 299548\n";
    list.job("recipe-1-count-300", "done 25", "recipe 1, one track of 300: done 25", &format!("order tao recipe 1 data 300\n{OPEN}22 x good\n"));
    list.job("recipe-0-count-300", "done 26", "recipe 0, one track of 300: done 26", &format!("order tao recipe 0 data 300\n{OPEN}23 x good\n"));
    list.job("recipe-1-count-300-317", "done 48", "recipe 1, 300 and 317: done 48", &format!("order tao recipe 1 data 300 data 317\n{OPEN}21 x good\n{second}23 x good\n"));
    list.job("recipe-0-count-300-317", "done 50", "recipe 0, 300 and 317: done 50", &format!("order tao recipe 0 data 300 data 317\n{OPEN}22 x good\n{second}24 x good\n"));
    let full = "good profile 0009\ngood disc blank\ngood track nwa 0 free 404849\n";
    list.job("recipe-1-count-full", "done 25310", "recipe 1, a full disc of 404,849 blocks: done 25310", &format!("order tao recipe 1 data 404849\n{full}25307 x good\n"));
    for length in [300u64, 301, 304, 305, 316, 317, 320, 321, 336] {
        let writes = length.div_ceil(16);
        for (recipe, more) in [(1, 6), (0, 7)] {
            let text = format!("order tao recipe {recipe} data {length}\n{OPEN}{} x good\n", writes + more - 3);
            list.job(&format!("recipe-{recipe}-record-{length}"), &format!("done {}", writes + more), "one track of any length: 6 or 7 commands besides its WRITEs", &text);
        }
    }
    for (flags, used, new, old) in [
        (0, false, "done 2181", "done 2280"),
        (4, false, "done 2381", "done 2678"),
        (8, true, "done 2183", "done 2282"),
        (12, true, "done 2385", "done 2682"),
    ] {
        for (recipe, ends) in [(1, new), (0, old)] {
            let sort = Sort { recipe, flags, used };
            let text = format!("{}{}", sort.to_52h(99, 0), sort.from_52h(99, 0));
            list.job(&format!("{}-99", sort.name()), ends, "99 tracks of 300: 3 commands a track besides its WRITEs under recipe 1, 4 under recipe 0", &text);
        }
    }
}

/// Every mix of flags with 1, 2 and 3 tracks, on each disc that suits or is erased.
fn flag_mixes(list: &mut List) {
    for recipe in [1, 0] {
        for flags in 0..16 {
            for used in [false, true] {
                for tracks in 1..=3 {
                    let sort = Sort { recipe, flags, used };
                    let text = format!("{}{}", sort.to_52h(tracks, 0), sort.from_52h(tracks, 0));
                    let name = |what: &str| format!("{}-{tracks}{what}", sort.name());
                    list.job(&name(""), &sort.done(tracks), "every mix of flags: done", &text);
                    if used {
                        let ends = if sort.erases() { sort.done(tracks) } else { "stop 6 3".to_string() };
                        list.job(&name("-finalized"), &ends, "a finalized disc: erased, or 6", &text.replace("appendable", "finalized"));
                    }
                }
            }
        }
    }
}

/// Each command of a run fails, is answered busy, or is left without a reply.
fn every_reply(list: &mut List) {
    for (flags, used) in [(2, false), (4, false), (15, true)] {
        let sort = Sort { recipe: 1, flags, used };
        let order = sort.many(2);
        let lines = lines_of(&format!("{}{}", sort.before(), sort.from_52h(2, 0)));
        assert_eq!(format!("done {}", lines.len()), sort.done(2));
        for place in 0..lines.len() {
            let (number, before) = (place + 1, format!("{order}{}", join(&lines[..place])));
            let mut add = |what: &str, ends: &str, shows: &str, rest: &str| {
                list.job(&format!("{}-every-{number:02}-{what}", sort.name()), ends, &format!("command {number}: {shows}"), &format!("{before}{rest}"));
            };
            add("fails", &format!("stop 12 {number} 04 08 03"), "fails: 12", "failed 04 08 03\n");
            add("waits", &format!("waiting {number}"), "the replies run out", "");
            // A 00h is never busy: the 03h follows and another round.
            let polls = lines.get(place + 1).is_some_and(|next| next == "good progress 0000");
            let busy = if polls { "busy\ngood progress 0000\n" } else { "2 x busy\n" };
            add("busy", &format!("done {}", lines.len() + 2), "is answered busy, and goes again unless it is a 00h", &format!("{busy}{}", join(&lines[place..])));
        }
    }
}

/// The input ends, or holds a bad block, behind every reply from the last WRITE of
/// a track to the next one's 55h, and at the end of the job.
fn track_ends(list: &mut List) {
    for sort in sorts() {
        let lines = lines_of(&format!("{}{}", sort.before(), sort.from_52h(2, 0)));
        let (next, last) = (sort.given(1) as usize, lines.len());
        let closing = if sort.recipe == 0 { 2 } else { 1 } * (1 + sort.polls() as usize);
        for place in (next - closing - 2..=next).chain(last - closing - 2..last) {
            let name = format!("{}-ends-{:02}", sort.name(), place + 1);
            broken_off(list, &name, &sort.many(2), &lines[..place]);
        }
    }
}

/// The later 52h of three tracks, which under recipe 1 comes right behind a 35h:
/// 4, 7, 10, and the track starts at its address.
fn later_52h(list: &mut List) {
    for sort in sorts() {
        for index in [1, 2] {
            let end = 452 * (index - 1) + 300;
            let need = if index == 1 { 752 } else { 300 };
            let (given, done) = (sort.given(index), sort.done(3));
            let behind = format!("{}{}", sort.track(19), if index == 1 { sort.from_52h(3, 2) } else { sort.session() });
            let before = sort.to_52h(3, index);
            let mut add = |what: &str, ends: &str, shows: &str, reply: &str| {
                list.job(&format!("{}-52h-{}-{what}", sort.name(), index + 1), ends, &format!("a later 52h: {shows}"), &format!("{before}{reply}\n{behind}"));
            };
            let stop = |number: u8| format!("stop {number} {given}");
            let track = |nwa: u64, free: u64, mark: &str| format!("good track nwa {nwa} free {free}{mark}");
            add("empty", &stop(4), "no data: 4", "good");
            add("27-bytes", &stop(4), "27 bytes: 4", &track_data(27, 26, &[]));
            add("length-25", &stop(4), "length field 25: 4", &track_data(48, 25, &[]));
            add("4-before-7", &stop(4), "too short and damaged: 4 before 7", &track_data(27, 26, &[(5, 0x20)]));
            add("damaged", &stop(7), "Damage: 7", &track(end, AMPLE, " damaged"));
            add("no-address", &stop(7), "NWA_V clear: 7", &track(end, AMPLE, " no-address"));
            add("stale", &stop(7), "one block before the last one's end: 7", &track(end - 1, AMPLE, ""));
            add("same", &stop(7), "the last track's address again: 7", &track(end - 300, AMPLE, ""));
            add("7-before-10", &stop(7), "a stale address and no room: 7 before 10", &track(end - 1, 0, ""));
            add("short", &stop(10), "one block fewer free than is charged: 10", &track(end, need - 1, ""));
            add("over", &stop(10), "the lead-out at 404,850: 10", &track(LIMIT + 1 - need, AMPLE, ""));
            add("wraps", &stop(10), "an address of 2^32 - 1: 10", &track(AMPLE, AMPLE, ""));
            add("equal", &done, "the last one's end passes", &track(end, need, ""));
            add("gap", &done, "152 blocks behind the last one's end passes", &track(end + 152, need, ""));
            add("fails", &format!("stop 12 {given} 03 02 00"), "fails: 12", "failed 03 02 00");
            add("not-ready", &format!("stop 12 {given} 02 04 07"), "not ready: 12", "failed 02 04 07");
            add("busy", &format!("done {}", sort.given(3) + sort.polls() + 3), "busy three times, then passes", &format!("3 x busy\n{}", track(end, need, "")));
            add("busy-short", &format!("stop 10 {}", given + 3), "busy three times, then no room: 10", &format!("3 x busy\n{}", track(end, need - 1, "")));
        }
    }
}

/// S is charged under recipe 1 as under recipe 0 (Ask 6), at each 52h.
fn room(list: &mut List) {
    for (flags, used) in [(0, false), (12, true)] {
        let sort = Sort { recipe: 1, flags, used };
        for (tracks, index) in [(1, 0), (2, 0), (2, 1), (3, 0), (3, 1), (3, 2), (99, 0), (99, 1)] {
            let left = tracks - index;
            let need = 300 * left + 152 * (left - 1);
            let (passes, stops) = (format!("waiting {}", sort.given(index) + 1), format!("stop 10 {}", sort.given(index)));
            for (what, nwa, free, ends) in [
                ("free", 452 * index, need, &passes),
                ("free-short", 452 * index, need - 1, &stops),
                ("limit", LIMIT - need, AMPLE, &passes),
                ("limit-over", LIMIT + 1 - need, AMPLE, &stops),
            ] {
                let name = format!("{}-room-{tracks}-at-{}-{what}", sort.name(), index + 1);
                list.job(&name, ends, "recipe 1: S and the charge, met exactly or missed by a block", &format!("{}good track nwa {nwa} free {free}\n", sort.to_52h(tracks, index)));
            }
        }
    }
}

/// A 35h or 5Bh that fails stops with 12, at any of them.
fn closing_fails(list: &mut List) {
    for sort in sorts() {
        let poll = sort.polls();
        // A track's 35h is given right behind the 55h and 19 WRITEs.
        let synchronize = |index: u64| sort.given(index) + 21;
        let session = sort.given(2);
        let mut places = vec![("35h-1", synchronize(0)), ("35h-2", synchronize(1)), ("5bh-2", session)];
        if sort.recipe == 0 {
            places.push(("5bh-1", synchronize(0) + poll + 1));
            places.push(("5bh-1-last", synchronize(1) + poll + 1));
        }
        let lines = lines_of(&format!("{}{}", sort.before(), sort.from_52h(2, 0)));
        for (at, number) in places {
            let before = join(&lines[..number as usize - 1]);
            for (what, reply, triple) in [
                ("fails", "failed 05 72 03", "05 72 03"),
                ("not-ready", "failed 02 04 07", "02 04 07"),
                ("deferred", "failed deferred 02 04 08", "02 04 08"),
                ("no-data", "failed", "00 00 00"),
            ] {
                let name = format!("{}-{at}-{what}", sort.name());
                let text = format!("{}{before}{reply}\n{}", sort.many(2), join(&lines[number as usize..]));
                list.job(&name, &format!("stop 12 {number} {triple}"), "a 35h or 5Bh fails: 12, and nothing follows", &text);
            }
            let name = format!("{}-{at}-data", sort.name());
            let data = "good raw 70 00 02 00 00 00 00 0A 00 00 00 00 04 08 00 80 80 00";
            let text = format!("{}{before}{data}\n{}", sort.many(2), join(&lines[number as usize..]));
            list.job(&name, &sort.done(2), "the data of a good 35h or 5Bh is ignored", &text);
        }
    }
}

/// Busy at a 35h or the 5Bh: it goes again, and then what follows it.
fn closing_busy(list: &mut List) {
    for sort in sorts() {
        let lines = lines_of(&format!("{}{}", sort.before(), sort.from_52h(2, 0)));
        for (at, number) in [("35h-1", sort.given(0) + 21), ("35h-2", sort.given(1) + 21), ("5bh-2", sort.given(2))] {
            let (before, behind) = lines.split_at(number as usize - 1);
            for busy in [1, 100] {
                let name = format!("{}-{at}-busy-{busy}", sort.name());
                let text = format!("{}{}{busy} x busy\n{}", sort.many(2), join(before), join(behind));
                list.job(&name, &format!("done {}", sort.given(2) + sort.polls() + busy), "busy at a 35h or 5Bh, then good: done", &text);
            }
            let name = format!("{}-{at}-stays-busy", sort.name());
            let text = format!("{}{}7 x busy\n", sort.many(2), join(before));
            list.job(&name, &format!("waiting {}", number + 7), "a 35h or 5Bh stays busy", &text);
        }
    }
}

/// The replies of the other recipe: 5Bh function 1 takes one, or doesn't.
fn other_recipe(list: &mut List) {
    let order = |recipe: u8, tracks: &str| format!("order tao recipe {recipe} {tracks}\n{OPEN}");
    let two = "data 300 data 300";
    let second = "good track nwa 452 free 299548\n";
    list.job("recipe-1-given-those-of-0", "done 25", "one track, a reply more than recipe 1 takes: not read", &format!("{}{TAO_300}", order(1, "data 300")));
    list.job("recipe-0-given-those-of-1", "waiting 26", "one track, a reply fewer than recipe 0 takes: 5Bh function 2 waits", &format!("{}22 x good\n", order(0, "data 300")));
    list.job("recipe-1-two-given-those-of-0", "stop 4 25", "what would be function 1's reply is the 52h's: 4", &format!("{}22 x good\n{second}{TAO_300}", order(1, two)));
    list.job("recipe-0-two-given-those-of-1", "stop 4 26", "what would be the 52h's reply is function 1's; the 52h's is too short: 4", &format!("{}21 x good\n{second}22 x good\n", order(0, two)));
    list.job("recipe-1-two-function-1-fails", "stop 12 25 05 72 03", "a failure behind the 35h is the 52h's: 12", &format!("{}21 x good\nfailed 05 72 03\n", order(1, two)));
    list.job("recipe-1-one-function-1-fails", "stop 12 25 05 72 03", "a failure behind the last 35h is that of 5Bh function 2: 12", &format!("{}21 x good\nfailed 05 72 03\n", order(1, "data 300")));
    list.job("recipe-0-one-function-1-fails", "stop 12 25 05 72 03", "a newer drive refuses function 1: 12", &format!("{}21 x good\nfailed 05 72 03\n", order(0, "data 300")));
    list.job("recipe-1-not-closed", "waiting 25", "the session is not closed: the job waits", &format!("{}21 x good\n", order(1, "data 300")));
    list.job("recipe-1-two-not-closed", "waiting 47", "the session is not closed: the job waits", &format!("{}21 x good\n{second}21 x good\n", order(1, two)));
    list.job("recipe-1-two-track-closed", "waiting 25", "behind the first 35h the next 52h waits", &format!("{}21 x good\n", order(1, two)));
    let order = "order tao recipe 1 immed data 300 data 300\n";
    list.job("recipe-1-immed-given-those-of-0", "stop 4 27", "polled: what would be function 1's reply is the 52h's: 4", &format!("{order}{OPEN}21 x good\n{POLL}good\n{POLL}{second}"));
    list.job("recipe-1-immed-not-polled", "stop 4 26", "polled: what would be the 52h's reply is the 00h's; the 03h's is too short: 4", &format!("{order}{OPEN}21 x good\n{second}22 x good\n"));
}

/// The pollings behind the first 35h, the last one and 5Bh function 2.
fn pollings(list: &mut List) {
    let order = "order tao recipe 1 immed data 300 data 301\n";
    let first = format!("{order}{OPEN}21 x good\n");
    let second = format!("{POLL}good track nwa 452 free 299548\n21 x good\n");
    let place = |name, before: String, after: String, given| Place { name, before, after, given, total: 53 };
    for place in [
        place("1-35h", first.clone(), format!("{}{POLL}good\n{POLL}", &second[POLL.len()..]), 25),
        place("1-last-35h", format!("{first}{second}"), format!("good\n{POLL}"), 49),
        place("1-5bh-2", format!("{first}{second}{POLL}good\n"), String::new(), 52),
    ] {
        polled_as(list, "recipe", &place);
    }
    list.job("recipe-1-polled-fresh", "done 33", "the progress of one polling is no other's, and neither is its 00h", &format!(
        "order tao recipe 1 immed data 300\n{OPEN}21 x good\ngood\ngood progress FFFF\n{POLL}good\nbusy\ngood progress 0000\n{POLL}"
    ));
}

/// What can be wrong after the third reply, or after the first 51h.
const BAD: [(&str, &str); 3] = [("audio", "audio 299 data 4294967295"), ("short", "data 299 data 4294967295"), ("long", "data 300 data 4294967295")];

/// After the third reply: 4, 5, 6, 7, 24, 9, 10, of which the first that applies is
/// given. Number 8 is of SAO alone.
fn numbers_in_order(list: &mut List) {
    for recipe in [1, 0] {
        for (profile, disc, number) in [("0008", "finalized", 5), ("0008", "blank", 5), ("0009", "finalized", 6), ("000A", "other", 6), ("000A", "appendable", 0), ("0009", "blank", 0)] {
            for (mark, reply) in [
                ("short-reply", track_data(27, 26, &[(5, 0x20)])),
                ("damaged", "good track nwa 0 free 0 damaged".to_string()),
                ("no-address", "good track nwa 0 free 0 no-address".to_string()),
                ("full", "good track nwa 0 free 0".to_string()),
                ("room", format!("good track nwa 0 free {AMPLE}")),
            ] {
                for (at, (what, tracks)) in BAD.into_iter().enumerate() {
                    let first = match mark {
                        "short-reply" => 4,
                        _ if number > 0 => number,
                        "damaged" | "no-address" => 7,
                        _ => [24, 9, 10][at],
                    };
                    let name = format!("recipe-{recipe}-third-{}-{disc}-{mark}-{what}", profile.to_lowercase());
                    let text = format!("order tao recipe {recipe} keep {tracks}\ngood profile {profile}\ngood disc {disc}\n{reply}\n40 x good\n");
                    list.job(&name, &format!("stop {first} 3"), "after the third reply: 4, 5, 6, 7, 24, 9, 10", &text);
                }
            }
        }
    }
}

/// With the flag for erasing, after the first 51h: 5, 6 for status 3, 24, 9, 10 for
/// S alone, 16.
fn erasing_numbers(list: &mut List) {
    for recipe in [1, 0] {
        for (profile, disc) in [("0008", "other"), ("0008", "blank"), ("0009", "other"), ("000A", "appendable"), ("000A", "finalized erasable"), ("0009", "blank")] {
            for (at, (what, tracks)) in BAD.into_iter().chain([("fits", "data 300 data 301")]).enumerate() {
                let ends = match (profile, disc) {
                    ("0008", _) => "stop 5 2",
                    (_, "other") => "stop 6 2",
                    _ if at < 3 => ["stop 24 2", "stop 9 2", "stop 10 2"][at],
                    (_, "appendable") => "stop 16 2",
                    _ => "waiting 3",
                };
                let name = format!("recipe-{recipe}-first-51h-{}-{}-{what}", profile.to_lowercase(), disc.replace(' ', "-"));
                list.job(&name, ends, "after the first 51h: 5, 6 for status 3, 24, 9, 10 for S alone, 16", &format!("order tao recipe {recipe} erase {tracks}\ngood profile {profile}\ngood disc {disc}\n"));
            }
        }
    }
}

/// Audio in TAO: its blocks are read under recipe 1 too, and 24 comes at its place.
fn audio(list: &mut List) {
    for flags in 0..16 {
        for used in [false, true] {
            for (what, tracks) in [("alone", "audio 300"), ("first", "audio 300 data 300"), ("last", "data 300 audio 300"), ("all", "audio 300 audio 300")] {
                let sort = Sort { recipe: 1, flags, used };
                let ends = if flags & 8 != 0 { "stop 24 2" } else { "stop 24 3" };
                let text = format!("{}{}{}", sort.order(tracks), sort.before(), sort.from_52h(2, 0));
                list.job(&format!("{}-audio-{what}", sort.name()), ends, "audio in TAO under recipe 1: 24", &text);
            }
        }
    }
    list.job("recipe-1-audio-order", "waiting 1", "an order of audio in TAO under recipe 1 is taken: 46h", "order tao recipe 1 audio 300\n");
    list.job("recipe-1-audio-order-99", "waiting 1", "an order of 99 audio tracks under recipe 1 is taken: 46h", &format!("order tao recipe 1{}\n", " audio 0".repeat(99)));
}

/// Byte 499 of an order block: 0 the old recipe, 1 the new, and 1 with TAO alone;
/// every other byte is 3.
fn recipe_bytes(list: &mut List) {
    let tao = format!("order tao data 300\n{OPEN}{TAO_300}");
    let sao = format!("order sao data 300\n{OPEN}{SAO_300}");
    list.changed("recipe-byte-tao-1", "done 25", "byte 499 is 1: recipe 1", &tao, (0, 499, 1));
    list.changed("recipe-byte-tao-0", "done 26", "byte 499 is 0: recipe 0", &tao.replace("tao", "tao recipe 1"), (0, 499, 0));
    list.changed("recipe-byte-sao-1", "stop 3 0", "byte 499 is 1 with SAO: 3", &sao, (0, 499, 1));
    for value in 2..=255 {
        list.changed(&format!("recipe-byte-tao-{value}"), "stop 3 0", "byte 499 is neither 0 nor 1: 3", &tao, (0, 499, value));
        list.changed(&format!("recipe-byte-sao-{value}"), "stop 3 0", "byte 499 is neither 0 nor 1, with SAO: 3", &sao, (0, 499, value));
    }
    for value in [1, 2, 255] {
        list.unsealed(&format!("recipe-check-tao-{value}"), "stop 2 0", "byte 499 changes, the check not: 2", &tao, (0, 499, value));
        list.unsealed(&format!("recipe-check-sao-{value}"), "stop 2 0", "byte 499 changes, the check not, with SAO: 2", &sao, (0, 499, value));
    }
    let new = tao.replace("tao", "tao recipe 1");
    list.unsealed("recipe-check-to-0", "stop 2 0", "byte 499 is 0 again, the check not: 2", &new, (0, 499, 0));
    list.unsealed("recipe-check-high", "stop 2 0", "recipe 1: byte 510 differs: 2", &new, (0, 510, 9));
    list.unsealed("recipe-check-low", "stop 2 0", "recipe 1: byte 511 differs: 2", &new, (0, 511, 9));
    list.changed("recipe-sao-becomes-tao", "done 25", "recipe 1 with the method changed to TAO passes", &format!("block {}\n{OPEN}{TAO_300}", raw_order(2)), (0, 1, 1));
    list.changed("recipe-tao-becomes-sao", "stop 3 0", "recipe 1 with the method changed to SAO: 3", &new, (0, 1, 2));
    for method in [0, 3, 255] {
        list.changed(&format!("recipe-method-{method}"), "stop 3 0", "recipe 1 with a method that is neither 1 nor 2: 3", &new, (0, 1, method));
    }
}

/// The order block of one data track of 300 under recipe 1, with this method; its
/// check is that of another one.
fn raw_order(method: u8) -> String {
    let mut block = [0; 512];
    block[..9].copy_from_slice(&[1, method, 0, 1, 1, 0, 0, 1, 0x2C]);
    block[499] = 1;
    hex::plain(&block)
}

/// "All else up to byte 509 is 0", on both sides of the recipe.
fn padding(list: &mut List) {
    for (method, recipe) in [("tao", 0), ("tao", 1), ("sao", 0)] {
        let order = |tracks: usize| format!("order {method} recipe {recipe}{}\n{OPEN}", " data 300".repeat(tracks));
        let name = |what: &str, place: usize, value: u8| format!("recipe-{recipe}-{method}-{what}-{place}-{value}");
        for value in [1, 255] {
            for place in [9, 250, 493, 494, 495, 496, 497, 498].into_iter().chain(500..510) {
                list.changed(&name("padding", place, value), "stop 3 0", "a byte besides the rows and the recipe is not 0: 3", &order(1), (0, place, value));
            }
            for place in [494, 498, 500, 509] {
                list.changed(&name("padding-98-rows", place, value), "stop 3 0", "98 rows: a byte besides them and the recipe is not 0: 3", &order(98), (0, place, value));
            }
            for place in 500..510 {
                list.changed(&name("padding-99-rows", place, value), "stop 3 0", "99 rows: a byte behind the recipe is not 0: 3", &order(99), (0, place, value));
            }
        }
    }
}

/// Of 99 rows the last ends at byte 498, right before the recipe.
fn ninety_nine_rows(list: &mut List) {
    for recipe in [1, 0] {
        let per_track = if recipe == 1 { 3 } else { 4 };
        // Lengths whose low byte is 2Ch, 0, 1, 2 and FFh; 98 tracks of 300 come first.
        for length in [300u64, 512, 513, 514, 511] {
            let sort = Sort { recipe, flags: 0, used: false };
            let writes = length.div_ceil(16);
            let order = sort.order(&format!("{}data {length}", "data 300 ".repeat(98)));
            let many = sort.to_52h(98, 98).replacen(&sort.many(98), "", 1);
            let text = format!("{order}{many}{}{}{}", info(98), sort.track(writes), sort.session());
            list.job(&format!("recipe-{recipe}-99-rows-{length}"), &format!("done {}", per_track * 99 + 3 + 98 * 19 + writes), "the last row's length is read apart from the recipe", &text);
        }
        for (length, ends) in [("299", "stop 9 3"), ("256", "stop 9 3"), ("1", "stop 9 3"), ("0", "stop 9 3"), ("4294967295", "stop 10 3")] {
            let text = format!("order tao recipe {recipe}{} data {length}\n{OPEN}", " data 300".repeat(98));
            list.job(&format!("recipe-{recipe}-99-rows-{length}"), ends, "the last row's length is judged under both recipes", &text);
        }
        let full = format!("order tao recipe {recipe}{}\n{OPEN}", " data 300".repeat(99));
        list.job(&format!("recipe-{recipe}-99-rows-order"), "waiting 4", "an order of 99 rows passes", &full);
        list.changed(&format!("recipe-{recipe}-99-rows-kind-0"), "stop 24 3", "the 99th row's kind is 0: 24", &full, (0, 494, 0));
        list.changed(&format!("recipe-{recipe}-99-rows-kind-2"), "stop 3 0", "the 99th row's kind is 2: 3", &full, (0, 494, 2));
        list.changed(&format!("recipe-{recipe}-99-rows-byte-498"), "stop 9 3", "the low byte of the 99th length is 2Bh: 9", &full, (0, 498, 0x2B));
        for value in [2, 3, 0x2C, 128, 255] {
            list.changed(&format!("recipe-{recipe}-99-rows-499-{value}"), "stop 3 0", "99 rows and byte 499 neither 0 nor 1: 3", &full, (0, 499, value));
        }
        let changed = if recipe == 1 { 0 } else { 1 };
        list.changed(&format!("recipe-{recipe}-99-rows-499-{changed}"), "waiting 4", "99 rows and the other recipe pass", &full, (0, 499, changed));
        list.unsealed(&format!("recipe-{recipe}-99-rows-check"), "stop 2 0", "99 rows, the other recipe, the check not: 2", &full, (0, 499, changed));
    }
    let sao = format!("order sao{}\n{OPEN}", " data 300".repeat(99));
    for value in [1, 2, 255] {
        list.changed(&format!("recipe-sao-99-rows-499-{value}"), "stop 3 0", "SAO, 99 rows and byte 499 not 0: 3", &sao, (0, 499, value));
    }
}

/// The other fields of an order block are judged under recipe 1 as under recipe 0.
fn other_fields(list: &mut List) {
    let job = format!("order tao recipe 1 data 300\n{OPEN}{TAO_300}");
    let mut add = |what: &str, ends: &str, place: usize, value: u8| {
        list.changed(&format!("recipe-1-order-{what}-{value}"), ends, "recipe 1: the other fields are judged as ever", &job, (0, place, value));
    };
    for value in [0, 2, 3, 255] {
        add("type", "stop 3 0", 0, value);
    }
    for flags in [16, 17, 24, 32, 64, 128, 255] {
        add("flags", "stop 3 0", 2, flags);
    }
    for count in [0, 100, 101, 255] {
        add("count", "stop 3 0", 3, count);
    }
    // Rows of zeros are audio tracks of 0 blocks.
    for count in [2, 98, 99] {
        add("count", "stop 24 3", 3, count);
    }
    for kind in [2, 255] {
        add("kind", "stop 3 0", 4, kind);
    }
    add("kind", "stop 24 3", 4, 0);
}

/// SAO has no recipe but 0: 3 comes at once, ahead of all that is judged later.
fn sao(list: &mut List) {
    for flags in 0..16 {
        let words = flag_words(flags);
        let poll = if flags & 4 != 0 { POLL } else { "" };
        let keep = flags & 1 != 0;
        let job = |words: &str| format!("order sao{words} data 300\n{OPEN}{SAO_300}{poll}");
        let ends = match (keep, flags & 8 != 0) {
            (true, true) => "stop 8 2",
            (true, false) => "stop 8 3",
            _ if poll.is_empty() => "done 35",
            _ => "done 37",
        };
        list.job(&format!("recipe-0-sao-flags-{flags}"), ends, "SAO under recipe 0 is as ever", &job(&format!(" recipe 0{words}")));
        list.changed(&format!("recipe-1-sao-flags-{flags}"), "stop 3 0", "SAO with recipe 1, in every mix of flags: 3", &job(&words), (0, 499, 1));
    }
    for (what, tracks) in [
        ("audio", "audio 300 audio 450"),
        ("mixed", "audio 300 data 300"),
        ("short", "data 299"),
        ("zero", "data 0"),
        ("long", "data 404850"),
        ("most", "data 4294967295 data 4294967295"),
    ] {
        list.changed(&format!("recipe-1-sao-{what}"), "stop 3 0", "SAO with recipe 1: 3 ahead of 8, 9 and 10", &format!("order sao {tracks}\n{OPEN}"), (0, 499, 1));
    }
    list.changed("recipe-1-sao-alone", "stop 3 0", "SAO with recipe 1: 3 without a reply", "order sao data 300\n", (0, 499, 1));
    list.changed("recipe-1-sao-profile", "stop 3 0", "SAO with recipe 1: 3 ahead of 5 and 6", "order sao keep data 299\ngood profile 0008\ngood disc finalized\ngood track nwa 0 free 0 damaged\n", (0, 499, 1));
}

/// Byte 499 of a reply block is its data's or padding.
fn reply_blocks(list: &mut List) {
    for recipe in [1, 0] {
        let job = format!("order tao recipe {recipe} data 300\n{OPEN}{TAO_300}");
        for (number, given) in [(1, 1), (3, 3), (24, 24)] {
            for value in [1, 2] {
                list.changed(&format!("recipe-{recipe}-reply-{number}-{value}"), &format!("stop 3 {given}"), "byte 499 of a reply is padding: 3", &job, (number, 499, value));
            }
        }
        let order = format!("order tao recipe {recipe} data 300\norder tao recipe {recipe} data 300\n");
        list.job(&format!("recipe-{recipe}-reply-is-order"), "stop 3 1", "an order where a reply is awaited: 3", &order);
        let long = format!("order tao recipe {recipe} data 300\ngood raw 00 00 00 04 00 00 00 09{}\n", " FF".repeat(498));
        list.job(&format!("recipe-{recipe}-reply-506"), "waiting 2", "506 data bytes pass, byte 499 among them", &long);
    }
}

/// Later blocks are not read.
fn after_the_end(list: &mut List) {
    for (what, more) in [("good", "good\n"), ("busy", "busy\n"), ("failed", "failed 05 72 03\n"), ("track", "good track nwa 452 free 300\n"), ("block", "block 00\n"), ("order", "order tao recipe 0 data 300\n")] {
        for (flags, used) in [(0, false), (12, true)] {
            let sort = Sort { recipe: 1, flags, used };
            let text = format!("{}{}{more}", sort.to_52h(2, 0), sort.from_52h(2, 0));
            list.job(&format!("{}-after-{what}", sort.name()), &sort.done(2), "later blocks are not read after done", &text);
        }
        let bad = format!("order sao data 300\n{more}");
        list.changed(&format!("recipe-1-sao-after-{what}"), "stop 3 0", "later blocks are not read after 3", &bad, (0, 499, 1));
    }
}
