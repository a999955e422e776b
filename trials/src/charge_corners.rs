//! Corner jobs for document 02, Ask 6: in TAO each track after the first of
//! those still to come is charged 152 blocks in S. They come behind those of
//! `erasing_corners`.

use crate::corners::{List, TWO};
use crate::erasing_corners::{ERASED, USED};
use crate::polling_corners::POLL;

/// The last address at which a lead-out may stand.
pub(crate) const LIMIT: u64 = 404_849;
/// Free Blocks that hold every job here.
pub(crate) const AMPLE: u64 = 4_294_967_295;

/// All corner jobs of the charge.
pub(crate) fn charging(list: &mut List) {
    each_52h(list);
    other_charges(list);
    other_charges_later(list);
    whole_jobs(list);
    other_gaps(list);
    numbers_in_order(list);
    later_numbers_in_order(list);
    long_tracks(list);
    kinds_and_lengths(list);
    sao(list);
    first_51h(list);
    first_51h_numbers(list);
    after_an_erasing(list);
    wide_sums(list);
}

/// S of so many TAO tracks of 300 blocks, with this charge for each but one.
fn sum(tracks: u64, charge: u64) -> u64 {
    300 * tracks + charge * (tracks - 1)
}

/// What is needed for so many TAO tracks of 300 blocks.
fn needed(tracks: u64) -> u64 {
    sum(tracks, 152)
}

/// A sort of TAO job with tracks of 300 blocks: its flags, the replies ahead of
/// the first 52h, the polling after each 35h and 5Bh, how many commands are
/// given up to the first 52h, and the polls of a polling.
struct Sort {
    name: &'static str,
    flags: &'static str,
    before: String,
    poll: &'static str,
    opening: u64,
    polls: u64,
}

fn plain() -> Sort {
    Sort { name: "tao", flags: "", before: TWO.to_string(), poll: "", opening: 3, polls: 0 }
}

fn sorts() -> [Sort; 6] {
    let kept = TWO.replace("blank", "appendable");
    let erased = format!("{USED}{ERASED}");
    let polled = format!("{USED}good\n{POLL}good disc blank\n");
    [
        plain(),
        Sort { name: "keep", flags: " keep protect", before: kept, poll: "", opening: 3, polls: 0 },
        Sort { name: "immed", flags: " immed", before: TWO.to_string(), poll: POLL, opening: 3, polls: 2 },
        Sort { name: "erase-blank", flags: " erase", before: TWO.to_string(), poll: "", opening: 3, polls: 0 },
        Sort { name: "erase-used", flags: " erase", before: erased, poll: "", opening: 5, polls: 0 },
        Sort { name: "immed-erase", flags: " keep immed erase", before: polled, poll: POLL, opening: 7, polls: 2 },
    ]
}

impl Sort {
    /// A job whose 52h replies have these addresses and Free Blocks. Its replies
    /// run out behind the last of them.
    fn text(&self, tracks: u64, infos: &[(u64, u64)]) -> String {
        let infos: Vec<String> = infos.iter().map(|(nwa, free)| format!("good track nwa {nwa} free {free}\n")).collect();
        let order = " data 300".repeat(tracks as usize);
        format!("order tao{}{order}\n{}{}", self.flags, self.before, infos.join(&self.track()))
    }

    /// One track up to the good reply to its 5Bh function 1.
    fn track(&self) -> String {
        format!("21 x good\n{0}good\n{0}", self.poll)
    }

    /// The last track and the session.
    fn last(&self) -> String {
        format!("{}good\n{}", self.track(), self.poll)
    }

    /// Commands given up to the 52h of the track with this index.
    fn given(&self, index: u64) -> u64 {
        self.opening + index * (23 + 2 * self.polls)
    }

    /// The 52h of the track with this index passes, and a 55h is given.
    fn passes(&self, index: u64) -> String {
        format!("waiting {}", self.given(index) + 1)
    }

    fn stops(&self, number: u8, index: u64) -> String {
        format!("stop {number} {}", self.given(index))
    }

    fn done(&self, tracks: u64) -> String {
        format!("done {}", self.given(tracks) + self.polls)
    }
}

/// The 52h replies of a drive that starts each track of 300 blocks this many
/// blocks after the last one ends. Free Blocks falls by what was taken.
fn drive(tracks: u64, start: u64, free: u64, gap: u64) -> Vec<(u64, u64)> {
    (0..tracks).map(|index| index * (300 + gap)).map(|taken| (start + taken, free.saturating_sub(taken))).collect()
}

/// Those of the tracks ahead of the one with this index, with ample room, and
/// then this one.
fn with_room(index: u64, last: (u64, u64)) -> Vec<(u64, u64)> {
    let mut infos = drive(index, 0, AMPLE, 152);
    infos.push(last);
    infos
}

/// Free Blocks and the lead-out limit, met exactly and missed by one block, at
/// the first 52h, at a later one, and at the last, where nothing is charged.
fn each_52h(list: &mut List) {
    for sort in sorts() {
        for (tracks, index) in [(1, 0), (2, 0), (2, 1), (3, 0), (3, 1), (3, 2), (99, 0), (99, 1)] {
            at_52h(list, &sort, tracks, index);
        }
    }
    at_52h(list, &plain(), 99, 50);
    at_52h(list, &plain(), 99, 98);
}

fn at_52h(list: &mut List, sort: &Sort, tracks: u64, index: u64) {
    let need = needed(tracks - index);
    let (start, full) = (452 * index, LIMIT - need);
    let (passes, stops) = (sort.passes(index), sort.stops(10, index));
    for (what, info, ends, shows) in [
        ("free", (start, need), &passes, "S and the charge equal to Free Blocks pass"),
        ("free-short", (start, need - 1), &stops, "one block fewer free: 10"),
        ("limit", (full, AMPLE), &passes, "S and the charge up to 404,849 pass"),
        ("limit-over", (full + 1, AMPLE), &stops, "S and the charge up to 404,850: 10"),
        ("both", (full, need), &passes, "Free Blocks and the limit met at once pass"),
        ("both-short", (full, need - 1), &stops, "the limit is met, one block fewer free: 10"),
        ("both-over", (full + 1, need), &stops, "Free Blocks is met, the lead-out one higher: 10"),
    ] {
        let name = format!("charge-{}-{tracks}-at-{}-{what}", sort.name, index + 1);
        let shows = format!("track {} of {tracks}: {shows}", index + 1);
        list.job(&name, ends, &shows, &sort.text(tracks, &with_room(index, info)));
    }
}

/// What each track might be charged, and whether that room is enough.
const CHARGES: [(u64, bool); 9] =
    [(0, false), (1, false), (2, false), (148, false), (150, false), (151, false), (152, true), (153, true), (154, true)];

/// The room that another charge would call for, at the first 52h: with 0 S alone
/// fits, with 2 or 150 a part of the charge, with 151 or 153 one block a track
/// is wrong.
fn other_charges(list: &mut List) {
    for tracks in [2, 3, 99] {
        for charge in CHARGES {
            room_for(list, tracks, 0, charge);
        }
    }
}

/// The same at a later 52h.
fn other_charges_later(list: &mut List) {
    for (tracks, index) in [(3, 1), (99, 1)] {
        for charge in CHARGES {
            room_for(list, tracks, index, charge);
        }
    }
}

fn room_for(list: &mut List, tracks: u64, index: u64, (charge, enough): (u64, bool)) {
    let sort = plain();
    let room = sum(tracks - index, charge);
    let ends = if enough { sort.passes(index) } else { sort.stops(10, index) };
    for (what, info) in [("free", (452 * index, room)), ("limit", (LIMIT - room, AMPLE))] {
        let name = format!("charge-room-{tracks}-at-{}-{charge}-{what}", index + 1);
        let shows = format!("track {} of {tracks}: room for S and {charge} blocks a track, where 152 are charged", index + 1);
        list.job(&name, &ends, &shows, &sort.text(tracks, &with_room(index, info)));
    }
}

/// A drive that starts each track 152 blocks after the last one ends: with
/// exactly the room at the first 52h the job is done, else it stops there.
fn whole_jobs(list: &mut List) {
    for sort in sorts() {
        for tracks in [1, 2, 3] {
            whole(list, &sort, tracks);
        }
        if sort.name == "tao" || sort.name == "immed-erase" {
            whole(list, &sort, 99);
        }
    }
}

fn whole(list: &mut List, sort: &Sort, tracks: u64) {
    let need = needed(tracks);
    let text = |start: u64, free: u64| format!("{}{}", sort.text(tracks, &drive(tracks, start, free, 152)), sort.last());
    let first = |start: u64, free: u64| format!("{}{}", sort.text(tracks, &[(start, free)]), sort.last());
    let name = |what: &str| format!("charge-drive-{}-{tracks}-{what}", sort.name);
    list.job(&name("exact"), &sort.done(tracks), "exactly the room that the drive takes: done", &text(0, need));
    list.job(&name("limit"), &sort.done(tracks), "the last track ends at 404,849: done", &text(LIMIT - need, need));
    list.job(&name("short"), &sort.stops(10, 0), "one block less room: 10 at the first 52h", &first(0, need - 1));
    list.job(&name("over"), &sort.stops(10, 0), "one block further on: 10 at the first 52h", &first(LIMIT - need + 1, need));
}

/// The end of the previous track, for 7, has no charge: a track may start at it.
/// A drive that takes more between tracks stops with 10 at a later 52h.
fn other_gaps(list: &mut List) {
    let sort = plain();
    for tracks in [2, 3] {
        for gap in [0, 1, 2, 150, 151, 152] {
            let text = format!("{}{}", sort.text(tracks, &drive(tracks, 1_000, needed(tracks), gap)), sort.last());
            let name = format!("charge-gap-{tracks}-{gap}");
            list.job(&name, &sort.done(tracks), "a track that starts less than 152 blocks after the last one's end passes 7", &text);
        }
        for gap in [153, 154, 304] {
            let text = format!("{}{}", sort.text(tracks, &drive(tracks, 1_000, needed(tracks), gap)), sort.last());
            let name = format!("charge-gap-{tracks}-{gap}");
            list.job(&name, &sort.stops(10, 1), "a drive that takes more than 152 blocks: 10 at the second 52h", &text);
        }
        let stale = sort.text(tracks, &[(1_000, needed(tracks)), (1_299, AMPLE)]);
        list.job(&format!("charge-gap-{tracks}-stale"), &sort.stops(7, 1), "one block before the last one's end: 7", &stale);
    }
}

/// At the first 52h the lowest number comes first; the charge is part of 10.
fn numbers_in_order(list: &mut List) {
    let job = |tracks: &str, profile: &str, disc: &str, third: &str| {
        format!("order tao {tracks}\ngood profile {profile}\ngood disc {disc}\n{third}\n40 x good\n")
    };
    let (two, short) = ("data 300 data 300", "data 299 data 300");
    let full = "good track nwa 0 free 751";
    let far = "good track nwa 404098 free 300000";
    list.job("charge-first-10-free", "stop 10 3", "the charge alone is missing: 10", &job(two, "0009", "blank", full));
    list.job("charge-first-10-limit", "stop 10 3", "the charge alone passes the limit: 10", &job(two, "0009", "blank", far));
    for (what, reply) in [("free", full), ("limit", far)] {
        let name = |number: &str| format!("charge-first-{number}-{what}");
        list.job(&name("5"), "stop 5 3", "another profile: 5 before 10", &job(two, "0008", "blank", reply));
        list.job(&name("6"), "stop 6 3", "a finalized disc: 6 before 10", &job(two, "0009", "finalized", reply));
        list.job(&name("7"), "stop 7 3", "Damage: 7 before 10", &job(two, "0009", "blank", &format!("{reply} damaged")));
        list.job(&name("7-no-address"), "stop 7 3", "NWA_V clear: 7 before 10", &job(two, "0009", "blank", &format!("{reply} no-address")));
    }
    list.job("charge-first-9-free", "stop 9 3", "a track of 299 and S alone free: 9 before 10", &job(short, "0009", "blank", "good track nwa 0 free 599"));
    list.job("charge-first-9-limit", "stop 9 3", "a track of 299 and the limit passed: 9 before 10", &job(short, "0009", "blank", "good track nwa 404099 free 300000"));
    list.job("charge-first-9-last", "stop 9 3", "the last track has 299: 9 before 10", &job("data 300 data 300 data 299", "0009", "blank", "good track nwa 0 free 899"));
    list.job("charge-first-9-room", "stop 9 3", "a track of 299 with room: 9", &job(short, "0009", "blank", "good track nwa 0 free 300000"));
}

/// At a later 52h 4, 7, 10; busy repeats change nothing.
fn later_numbers_in_order(list: &mut List) {
    let first = plain().text(3, &[(0, needed(3))]) + &plain().track();
    let second = |reply: &str| format!("{first}{reply}\n");
    list.job("charge-later-4", "stop 4 26", "the second 52h is too short: 4", &second("good"));
    list.job("charge-later-7-stale", "stop 7 26", "a stale address and no room for the charge: 7 before 10", &second("good track nwa 299 free 600"));
    list.job("charge-later-7-damaged", "stop 7 26", "Damage and the limit passed: 7 before 10", &second("good track nwa 404098 free 752 damaged"));
    list.job("charge-later-10", "stop 10 26", "S alone is free at the second 52h: 10", &second("good track nwa 452 free 600"));
    list.job("charge-later-busy", "waiting 30", "busy three times, then exactly the room passes", &second("3 x busy\ngood track nwa 452 free 752"));
    list.job("charge-later-busy-short", "stop 10 29", "busy three times, then one block less: 10", &second("3 x busy\ngood track nwa 452 free 751"));
    list.job("charge-first-busy", "waiting 7", "busy three times at the first 52h, then exactly the room passes", &format!("order tao data 300 data 300\n{TWO}3 x busy\ngood track nwa 0 free 752\n"));
    list.job("charge-first-busy-short", "stop 10 6", "busy three times at the first 52h, then one block less: 10", &format!("order tao data 300 data 300\n{TWO}3 x busy\ngood track nwa 0 free 751\n"));
}

/// The rows of so many tracks, all but the last of 300 blocks, whose lengths and
/// this charge a track add up to the sum.
fn rows(tracks: u64, charge: u64, total: u64) -> String {
    let others = tracks - 1;
    format!("{}data {}", "data 300 ".repeat(others as usize), total - (300 + charge) * others)
}

/// S and the charge as long as the whole disc.
fn long_tracks(list: &mut List) {
    for tracks in [1, 2, 3, 99] {
        let job = |total: u64, nwa: u64, free: u64| format!("order tao {}\n{TWO}good track nwa {nwa} free {free}\n", rows(tracks, 152, total));
        let name = |what: &str| format!("charge-long-{tracks}-{what}");
        list.job(&name("limit"), "waiting 4", "S and the charge of 404,849 from 0 pass", &job(LIMIT, 0, LIMIT));
        list.job(&name("over"), "stop 10 3", "S and the charge of 404,850: 10", &job(LIMIT + 1, 0, AMPLE));
        list.job(&name("short"), "stop 10 3", "one block fewer free: 10", &job(LIMIT, 0, LIMIT - 1));
        list.job(&name("from-1"), "stop 10 3", "from 1 the lead-out is one higher: 10", &job(LIMIT, 1, LIMIT));
    }
}

/// The charge is the same for all lengths. With audio the room doesn't count: 24
/// comes ahead of 10.
fn kinds_and_lengths(list: &mut List) {
    for (name, tracks, lengths, audio) in [
        ("audio", "audio 300 audio 300", 600, true),
        ("mixed", "audio 300 data 300", 600, true),
        ("lengths", "data 317 data 4000", 4_317, false),
        ("shrinking", "data 9001 data 300", 9_301, false),
    ] {
        let job = |nwa: u64, free: u64| format!("order tao {tracks}\n{TWO}good track nwa {nwa} free {free}\n");
        let name = |what: &str| format!("charge-kinds-{name}-{what}");
        let [passes, stops] = if audio { ["stop 24 3"; 2] } else { ["waiting 4", "stop 10 3"] };
        let (need, full) = (lengths + 152, LIMIT - lengths - 152);
        list.job(&name("free"), passes, "S and the charge equal to Free Blocks pass, or 24", &job(0, need));
        list.job(&name("free-short"), stops, "one block fewer free: 10, or 24", &job(0, need - 1));
        list.job(&name("limit"), passes, "S and the charge up to 404,849 pass, or 24", &job(full, AMPLE));
        list.job(&name("limit-over"), stops, "S and the charge up to 404,850: 10, or 24", &job(full + 1, AMPLE));
    }
}

/// SAO is never charged.
fn sao(list: &mut List) {
    for flags in ["", " protect", " immed", " erase"] {
        for tracks in [1, 2, 3, 99] {
            let job = |total: u64, free: u64| format!("order sao{flags} {}\n{TWO}good track nwa 452 free {free}\n", rows(tracks, 0, total));
            let name = |what: &str| format!("charge-sao{}-{tracks}-{what}", flags.replace(' ', "-"));
            list.job(&name("free"), "waiting 4", "SAO: S equal to Free Blocks passes", &job(300 * tracks, 300 * tracks));
            list.job(&name("free-short"), "stop 10 3", "SAO: one block fewer free: 10", &job(300 * tracks, 300 * tracks - 1));
            list.job(&name("limit"), "waiting 4", "SAO: S of 404,849 passes", &job(LIMIT, LIMIT));
            let over = if flags == " erase" { "stop 10 2" } else { "stop 10 3" };
            list.job(&name("limit-over"), over, "SAO: S of 404,850: 10", &job(LIMIT + 1, AMPLE));
        }
    }
    for (tracks, writes) in [(2, 38), (3, 57), (99, 1_881)] {
        let text = format!("order sao {}\n{TWO}good track nwa 0 free {}\n{} x good\n", rows(tracks, 0, 300 * tracks), 300 * tracks, 13 + writes);
        list.job(&format!("charge-sao-{tracks}-done"), &format!("done {}", 16 + writes), "SAO: Free Blocks of exactly S: done", &text);
    }
}

/// 46h and the first 51h of a used CD-RW that doesn't say Erasable.
const FIXED: &str = "good profile 000A\ngood disc finalized\n";

/// With the flag for erasing the sum is judged after the first 51h, without
/// address and Free Blocks, on a blank disc and on a used one.
fn first_51h(list: &mut List) {
    for (disc, before) in [("blank", TWO), ("used", USED)] {
        for flags in ["erase", "keep immed erase"] {
            for tracks in [1, 2, 3, 99] {
                let job = |charge: u64, total: u64| format!("order tao {flags} {}\n{before}", rows(tracks, charge, total));
                let name = |what: &str| format!("charge-51h-{disc}-{}-{tracks}-{what}", flags.replace(' ', "-"));
                list.job(&name("limit"), "waiting 3", "S and the charge of 404,849 go on", &job(152, LIMIT));
                list.job(&name("over"), "stop 10 2", "S and the charge of 404,850: 10", &job(152, LIMIT + 1));
                if tracks > 1 {
                    list.job(&name("alone"), "stop 10 2", "S alone is 404,849: 10", &job(0, LIMIT));
                    list.job(&name("151"), "stop 10 2", "S and 151 blocks a track are 404,849: 10", &job(151, LIMIT));
                    list.job(&name("153"), "waiting 3", "S and 153 blocks a track are 404,849: goes on", &job(153, LIMIT));
                    list.job(&name("153-over"), "waiting 3", "S and 153 blocks a track are 404,850: goes on", &job(153, LIMIT + 1));
                }
            }
        }
    }
}

/// 10 comes behind 9 and ahead of 16.
fn first_51h_numbers(list: &mut List) {
    let over = rows(2, 152, LIMIT + 1);
    let limit = rows(2, 152, LIMIT);
    let short = over.replace("300", "299") + " data 300";
    let job = |tracks: &str, before: &str| format!("order tao erase {tracks}\n{before}");
    list.job("charge-51h-4", "stop 4 2", "a short first 51h: 4 before 10", &job(&over, "good profile 000A\ngood\n"));
    list.job("charge-51h-5", "stop 5 2", "another profile: 5 before 10", &job(&over, "good profile 0008\ngood disc blank\n"));
    list.job("charge-51h-6", "stop 6 2", "status 3: 6 before 10", &job(&over, "good profile 000A\ngood disc other erasable\n"));
    list.job("charge-51h-9", "stop 9 2", "a track of 299: 9 before 10", &job(&short, USED));
    list.job("charge-51h-10-16", "stop 10 2", "the charge passes the limit on a disc that can't be erased: 10 before 16", &job(&over, FIXED));
    list.job("charge-51h-16", "stop 16 2", "S and the charge fit on a disc that can't be erased: 16", &job(&limit, FIXED));
    list.job("charge-51h-no-flag", "waiting 3", "without the flag the sum waits for the third reply", &format!("order tao {over}\n{TWO}"));
}

/// Behind an erasing the 52h is judged with address and Free Blocks.
fn after_an_erasing(list: &mut List) {
    for (disc, before, given) in [("blank", TWO.to_string(), 3), ("used", format!("{USED}{ERASED}"), 5)] {
        for tracks in [2, 99] {
            let job = |nwa: u64, free: u64| format!("order tao erase {}\n{before}good track nwa {nwa} free {free}\n", rows(tracks, 152, LIMIT));
            let name = |what: &str| format!("charge-erase-{disc}-{tracks}-{what}");
            list.job(&name("limit"), &format!("waiting {}", given + 1), "S and the charge of 404,849 with room pass", &job(0, LIMIT));
            list.job(&name("short"), &format!("stop 10 {given}"), "one block fewer free: 10", &job(0, LIMIT - 1));
            list.job(&name("from-1"), &format!("stop 10 {given}"), "from 1 the lead-out is one higher: 10", &job(1, LIMIT));
        }
    }
}

/// Sums with the charge are exact where they pass 32 bits.
fn wide_sums(list: &mut List) {
    let job = |flags: &str, tracks: &str, nwa: u64| format!("order tao{flags} {tracks}\n{TWO}good track nwa {nwa} free {AMPLE}\n");
    let wraps = rows(2, 152, 1 << 32);
    let all = "data 4294967295 ".repeat(99);
    list.job("charge-wide-sum", "stop 10 3", "S and the charge are 2^32: 10", &job("", &wraps, 0));
    list.job("charge-wide-sum-erase", "stop 10 2", "S and the charge are 2^32: 10 after the first 51h", &job(" erase", &wraps, 0));
    list.job("charge-wide-address", "stop 10 3", "address, S and the charge are 2^32: 10", &job("", "data 300 data 300", (1 << 32) - needed(2)));
    list.job("charge-wide-all", "stop 10 3", "99 tracks of 2^32 - 1: 10", &job("", all.trim_end(), 0));
    list.job("charge-wide-all-erase", "stop 10 2", "99 tracks of 2^32 - 1: 10 after the first 51h", &job(" erase", all.trim_end(), 0));
}
