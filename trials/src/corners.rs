//! A fixed set of named jobs, at least one for each sentence of document 01
//! that a job can show. Those of document 02, Asks 1, 2, 6, 7 and 12, stand in
//! `polling_corners`, `erasing_corners`, `charge_corners`, `recipe_corners` and
//! `audio_corners`.

use crate::audio_corners::audio;
use crate::charge_corners::charging;
use second::blocks::{seal, BLOCK};
use crate::erasing_corners::erasing;
use second::hex;
use crate::polling_corners::polling;
use crate::recipe_corners::recipes;
use text::jobs::blocks_of;

/// A named job: the print program's input, its last line by document 01, and
/// what the job shows.
pub struct Corner {
    pub name: String,
    pub ends: String,
    pub shows: String,
    pub bytes: Vec<u8>,
}

/// The opening's good replies on a blank disc with ample room.
pub(crate) const OPEN: &str = "good profile 0009\ngood disc blank\ngood track nwa 0 free 300000\n";
/// The first two of them.
pub(crate) const TWO: &str = "good profile 0009\ngood disc blank\n";
/// TAO of one track of 300 after the opening: 55h, 19 WRITEs, 35h, two 5Bh.
pub(crate) const TAO_300: &str = "23 x good\n";
/// SAO of one track of 300 after the opening: 55h, 5Dh, 10 and 19 WRITEs, 35h.
pub(crate) const SAO_300: &str = "32 x good\n";
/// One TAO track of 300 up to its 5Bh function 1.
const TRACK_300: &str = "22 x good\n";

/// All corner jobs.
pub fn corners() -> Vec<Corner> {
    let mut list = List(Vec::new());
    work_taken_on(&mut list);
    order_blocks(&mut list);
    reply_blocks(&mut list);
    whole_input(&mut list);
    replies_46h(&mut list);
    replies_51h(&mut list);
    replies_52h(&mut list);
    later_52h(&mut list);
    orders_judged(&mut list);
    fitting(&mut list);
    precedence(&mut list);
    failed_replies(&mut list);
    failures_everywhere(&mut list);
    busy_replies(&mut list);
    recording(&mut list);
    counts(&mut list);
    polling(&mut list);
    erasing(&mut list);
    charging(&mut list);
    audio(&mut list);
    recipes(&mut list);
    list.0
}

/// A byte's place in a job: the block's number, the byte's, and its new value.
pub(crate) type Change = (usize, usize, u8);

pub(crate) struct List(Vec<Corner>);

impl List {
    /// A job from its text.
    pub(crate) fn job(&mut self, name: &str, ends: &str, shows: &str, text: &str) {
        self.push(name, ends, shows, bytes_of(name, text));
    }

    fn push(&mut self, name: &str, ends: &str, shows: &str, bytes: Vec<u8>) {
        let [name, ends, shows] = [name, ends, shows].map(str::to_string);
        self.0.push(Corner { name, ends, shows, bytes });
    }

    /// A job with one byte of one block changed and its check made good.
    pub(crate) fn changed(&mut self, name: &str, ends: &str, shows: &str, text: &str, at: Change) {
        let mut bytes = changed_bytes(name, text, at);
        if let Some(block) = bytes[at.0 * BLOCK..].first_chunk_mut::<BLOCK>() {
            seal(block);
        }
        self.push(name, ends, shows, bytes);
    }

    /// A job with one byte of one block changed and its check left alone.
    pub(crate) fn unsealed(&mut self, name: &str, ends: &str, shows: &str, text: &str, at: Change) {
        self.push(name, ends, shows, changed_bytes(name, text, at));
    }

    /// A job whose input is cut to a length.
    fn cut(&mut self, name: &str, ends: &str, shows: &str, text: &str, length: usize) {
        let mut bytes = bytes_of(name, text);
        assert!(length < bytes.len(), "{name}: nothing is cut");
        bytes.truncate(length);
        self.push(name, ends, shows, bytes);
    }
}

fn bytes_of(name: &str, text: &str) -> Vec<u8> {
    blocks_of(text).unwrap_or_else(|error| panic!("{name}: {error}"))
}

fn changed_bytes(name: &str, text: &str, (number, place, value): Change) -> Vec<u8> {
    let mut bytes = bytes_of(name, text);
    let byte = &mut bytes[number * BLOCK + place];
    assert_ne!(*byte, value, "{name}: nothing changes");
    *byte = value;
    bytes
}

/// "Work taken on".
fn work_taken_on(list: &mut List) {
    let tao = format!("order tao data 300\n{OPEN}{TAO_300}");
    let sao = format!("order sao data 300\n{OPEN}{SAO_300}");
    list.job("work-cd-r", "done 26", "CD-R, profile 0009h, is recorded", &tao);
    list.job(
        "work-cd-rw", "done 26",
        "CD-RW, profile 000Ah, is recorded",
        &tao.replace("0009", "000A"),
    );
    list.job("work-tao-blank", "done 26", "TAO on a blank disc", &tao);
    list.job(
        "work-tao-appendable", "done 26",
        "TAO on an appendable disc",
        &tao.replace("blank", "appendable"),
    );
    list.job("work-sao-blank", "done 35", "SAO on a blank disc, all data", &sao);
    list.job(
        "work-sao-audio", "done 64",
        "SAO, all audio",
        &format!("order sao audio 300 audio 450\n{OPEN}61 x good\n"),
    );
    let kept = format!(
        "order tao keep protect data 300 data 301\n{OPEN}{TRACK_300}\
         good track nwa 450 free 299550\n23 x good\n"
    );
    list.job("work-tao-kept", "done 49", "TAO may keep the disc appendable", &kept);
    list.job(
        "work-tao-mixed", "stop 24 3",
        "TAO may not mix kinds, as it has no audio: 24",
        &kept.replace("data 300", "audio 300"),
    );
}

/// "The 512-byte blocks": the order block.
fn order_blocks(list: &mut List) {
    let job = format!("order tao keep protect data 300 data 300\n{OPEN}");
    let job = job.as_str();
    list.job("order-good", "waiting 4", "an order block that passes: both flags set", job);
    list.unsealed("order-check-high", "stop 2 0", "order: byte 510 differs: 2", job, (0, 510, 9));
    list.unsealed("order-check-low", "stop 2 0", "order: byte 511 differs: 2", job, (0, 511, 9));
    list.unsealed("order-content-changed", "stop 2 0", "order: a length changes, the check not: 2", job, (0, 8, 45));
    list.unsealed("order-2-before-3", "stop 2 0", "order: byte 0 and so the check are wrong: 2 before 3", job, (0, 0, 7));
    for value in [0, 2, 3, 255] {
        let name = format!("order-type-{value}");
        list.changed(&name, "stop 3 0", "order: byte 0 is not 1: 3", job, (0, 0, value));
    }
    for value in [0, 3, 255] {
        let name = format!("order-method-{value}");
        list.changed(&name, "stop 3 0", "order: the method is neither 1 nor 2: 3", job, (0, 1, value));
    }
    for value in [0x10, 0x18, 0x80, 255] {
        let name = format!("order-flags-{value}");
        list.changed(&name, "stop 3 0", "order: a flag bit besides 0 to 3: 3", job, (0, 2, value));
    }
    for value in [0, 100, 101, 255] {
        let name = format!("order-count-{value}");
        list.changed(&name, "stop 3 0", "order: a track count outside 1 to 99: 3", job, (0, 3, value));
    }
    list.changed("order-count-0-no-rows", "stop 3 0", "order: track count 0 before empty rows: 3", &format!("order sao audio 0\n{OPEN}"), (0, 3, 0));
    list.changed("order-count-low", "stop 3 0", "order: a row beyond the count is not zero: 3", job, (0, 3, 1));
    list.changed("order-count-high", "stop 9 3", "order: rows of zeros are audio tracks of 0 blocks; 9 later", &format!("order sao audio 300 audio 300\n{OPEN}"), (0, 3, 9));
    list.changed("order-kind-first", "stop 3 0", "order: a kind that is neither 0 nor 1: 3", job, (0, 4, 2));
    list.changed("order-kind-last", "stop 3 0", "order: the last row's kind is 255: 3", job, (0, 9, 255));
    list.changed("order-padding-first", "stop 3 0", "order: the byte after the rows is not 0: 3", job, (0, 14, 1));
    list.changed("order-padding-last", "stop 3 0", "order: byte 509 is not 0: 3", job, (0, 509, 1));
    let full = format!("order sao{}\n{OPEN}", " data 300".repeat(99));
    list.changed("order-99-padding", "stop 3 0", "order: with 99 rows byte 499 is no part of them, and SAO has no recipe 1: 3", &full, (0, 499, 1));
    list.changed("order-99-kind", "stop 3 0", "order: the 99th row's kind counts: 3", &full, (0, 494, 2));
    list.job("order-99-rows", "waiting 1", "order: 99 rows pass; the check is taken modulo 65,536", &format!("order tao{}\n", " data 4294967295".repeat(99)));
    list.job("order-length-any", "stop 10 3", "order: any length is a valid field; 10 later", &format!("order tao data 4294967295\n{OPEN}"));
    list.job("order-length-zero", "stop 9 3", "order: length 0 is a valid field; 9 later", &format!("order tao data 0\n{OPEN}"));
    list.job("order-sao-check-32", "waiting 1", "the bench's order of one SAO data track of 300", "order sao data 300\n");
}

/// "The 512-byte blocks": the reply block.
fn reply_blocks(list: &mut List) {
    let job = format!("order tao data 300\n{OPEN}{TAO_300}");
    let job = job.as_str();
    list.unsealed("reply-check-high", "stop 2 1", "a reply's byte 510 differs: 2", job, (1, 510, 9));
    list.unsealed("reply-check-low", "stop 2 2", "a reply's byte 511 differs: 2", job, (2, 511, 0xFF));
    list.unsealed("reply-2-before-3", "stop 2 1", "a reply's status and so its check are wrong: 2", job, (1, 1, 7));
    for value in [0, 1, 3, 255] {
        let name = format!("reply-type-{value}");
        list.changed(&name, "stop 3 1", "a reply's byte 0 is not 2: 3", job, (1, 0, value));
    }
    for value in [2, 128, 255] {
        let name = format!("reply-status-{value}");
        list.changed(&name, "stop 3 3", "a reply's status is neither 0 nor 1: 3", job, (3, 1, value));
    }
    list.changed("reply-padding-first", "stop 3 1", "the byte after a reply's data is not 0: 3", job, (1, 12, 1));
    list.changed("reply-padding-last", "stop 3 5", "a reply's byte 509 is not 0: 3", job, (5, 509, 1));
    list.changed("reply-length-low", "stop 3 1", "a length field below the data leaves padding that is not 0: 3", job, (1, 3, 7));
    list.changed("reply-length-high", "done 26", "a length field above the data takes zeros as data", job, (1, 3, 9));
    let long = format!("order tao data 300\ngood raw 00 00 00 04 00 00 00 09{}\n", " FF".repeat(498));
    list.job("reply-data-506", "waiting 2", "506 data bytes pass; the check is taken modulo 65,536", &long);
    list.changed("reply-data-507", "stop 3 1", "a data length of 507: 3", &long, (1, 3, 0xFB));
    list.changed("reply-length-field-high", "stop 3 1", "a data length whose high byte is FFh: 3", &long, (1, 2, 0xFF));
    list.job("reply-is-order", "stop 3 1", "an order where a reply is awaited: 3", "order tao data 300\norder tao data 300\n");
    list.changed("reply-bad-in-the-middle", "stop 3 12", "a bad block stops a job in its WRITEs; it adds nothing to N", job, (12, 1, 2));
    list.changed("reply-bad-at-last", "stop 3 26", "a bad block where the last reply is awaited", job, (26, 2, 0x80));
}

/// What the print program reads.
fn whole_input(list: &mut List) {
    let job = format!("order sao data 300\n{OPEN}{SAO_300}");
    let job = job.as_str();
    list.push("input-empty", "stop 1 0", "no order: 1, and 0 commands", Vec::new());
    list.cut("input-order-1-byte", "stop 1 0", "one byte of an order: 1", job, 1);
    list.cut("input-order-511", "stop 1 0", "511 bytes of an order: 1", job, 511);
    list.cut("input-order-alone", "waiting 1", "replies run out: waiting 1", job, 512);
    list.cut("input-reply-1-byte", "stop 1 1", "one byte of a reply: 1", job, 513);
    list.cut("input-reply-511", "stop 1 1", "511 bytes of a reply: 1", job, 1_023);
    list.cut("input-one-reply", "waiting 2", "replies run out after the first: waiting 2", job, 1_024);
    list.cut("input-opening", "waiting 4", "replies run out after the opening: waiting 4", job, 4 * BLOCK);
    list.cut("input-all-but-one", "waiting 35", "replies run out before the last: waiting 35", job, 35 * BLOCK);
    list.cut("input-last-cut", "stop 1 35", "the last reply is cut by a byte: 1", job, 36 * BLOCK - 1);
    list.job("input-first-is-reply", "stop 3 0", "a reply where the order is awaited: 3", "good\n");
    list.job("input-more-after-done", "done 35", "later blocks are not read after done", &format!("{job}good\nbusy\nfailed\nblock 00\n"));
    list.job("input-more-after-stop", "stop 9 3", "later blocks are not read after a stop", &format!("order tao data 299\n{OPEN}good\nblock 00\n"));
    list.job("input-part-after-bad-order", "stop 3 0", "a bad order ends the job at once", &format!("block{}\n", " 00".repeat(512)));
    list.unsealed("input-bad-order-then-replies", "stop 2 0", "replies after a refused order are not read", job, (0, 3, 100));
}

fn replies_46h(list: &mut List) {
    let job = |reply: &str| format!("order tao data 300\n{reply}\ngood disc blank\ngood track nwa 0 free 300\n{TAO_300}");
    let raw = |bytes: &str| job(&format!("good raw {bytes}"));
    list.job("46h-empty", "stop 4 1", "46h: no data: 4", &job("good"));
    list.job("46h-7-bytes", "stop 4 1", "46h: 7 bytes: 4", &raw("00 00 00 04 00 00 00"));
    list.job("46h-8-bytes", "done 26", "46h: 8 bytes pass", &raw("00 00 00 04 00 00 00 09"));
    list.job("46h-9-bytes", "done 26", "46h: more bytes pass", &raw("00 00 00 05 00 00 00 0A 09"));
    list.job("46h-length-3", "stop 4 1", "46h: length field 3: 4", &raw("00 00 00 03 00 00 00 09"));
    list.job("46h-length-0", "stop 4 1", "46h: length field 0: 4", &raw("00 00 00 00 00 00 00 09"));
    list.job("46h-length-large", "done 26", "46h: a length field above the reply is no fault", &raw("00 01 00 00 00 00 00 09"));
    list.job("46h-length-huge", "done 26", "46h: all four bytes of the length field count", &raw("FF 00 00 00 FF FF 00 09"));
    list.job("46h-other-bytes", "done 26", "46h: bytes 4 and 5 don't count", &raw("00 00 00 04 FF FF 00 09"));
    for profile in ["0000", "0008", "000B", "0109", "010A", "0900", "FFFF"] {
        let name = format!("46h-profile-{}", profile.to_lowercase());
        list.job(&name, "stop 5 3", "another profile: 5, after the third reply", &job(&format!("good profile {profile}")));
    }
}

pub(crate) fn disc_data(length: usize, field: u16, byte_2: u8) -> String {
    let mut data = vec![0; length];
    data[..2].copy_from_slice(&field.to_be_bytes());
    data[2] = byte_2;
    format!("good raw {}", hex::plain(&data))
}

fn replies_51h(list: &mut List) {
    let job = |method: &str, reply: &str| {
        let rest = if method == "tao" { TAO_300 } else { SAO_300 };
        format!("order {method} data 300\ngood profile 0009\n{reply}\ngood track nwa 0 free 300\n{rest}")
    };
    list.job("51h-empty", "stop 4 2", "51h: no data: 4", &job("tao", "good"));
    list.job("51h-33-bytes", "stop 4 2", "51h: 33 bytes: 4", &job("tao", &disc_data(33, 32, 0)));
    list.job("51h-34-bytes", "done 26", "51h: 34 bytes pass", &job("tao", &disc_data(34, 32, 0)));
    list.job("51h-50-bytes", "done 26", "51h: more bytes pass", &job("tao", &disc_data(50, 48, 0)));
    list.job("51h-length-31", "stop 4 2", "51h: length field 31: 4", &job("tao", &disc_data(34, 31, 0)));
    list.job("51h-length-256", "done 26", "51h: both bytes of the length field count", &job("tao", &disc_data(34, 256, 0)));
    for bit in 5..8 {
        let name = format!("51h-byte-2-bit-{bit}");
        let shows = format!("51h: byte 2 bit {bit} set, another type: 4");
        list.job(&name, "stop 4 2", &shows, &job("tao", &disc_data(34, 32, 1 << bit)));
    }
    for bit in 2..5 {
        let name = format!("51h-byte-2-bit-{bit}");
        let shows = format!("51h: byte 2 bit {bit} doesn't count");
        list.job(&name, "done 26", &shows, &job("tao", &disc_data(34, 32, (1 << bit) + 1)));
    }
    list.job("51h-4-at-once", "stop 4 2", "51h: 4 stops at once, ahead of a bad profile's 5", &format!("order tao data 300\ngood profile 0008\n{}\n", disc_data(33, 32, 0)));
    let discs = [
        ("tao", "blank", "done 26"),
        ("tao", "appendable", "done 26"),
        ("tao", "finalized", "stop 6 3"),
        ("tao", "other", "stop 6 3"),
        ("sao", "blank", "done 35"),
        ("sao", "appendable", "stop 6 3"),
        ("sao", "finalized", "stop 6 3"),
        ("sao", "other", "stop 6 3"),
    ];
    for (method, disc, ends) in discs {
        let name = format!("51h-{method}-{disc}");
        let shows = format!("{method} on a disc that is {disc}: TAO needs 0 or 1, SAO needs 0, else 6");
        list.job(&name, ends, &shows, &job(method, &format!("good disc {disc}")));
    }
    list.job("51h-finalized-and-299", "stop 6 3", "finalized disc and a 299-block track: 6", &format!("order sao data 299\ngood profile 0009\ngood disc finalized\ngood track nwa 0 free 300\n{SAO_300}"));
    list.job("51h-bench-print", "stop 6 3", "the bench's print example", "order sao data 300\ngood profile 0009\ngood disc finalized\ngood track nwa 0 free 300000\n");
}

/// A 52h reply with NWA_V set, address 0 and 300 free blocks.
pub(crate) fn track_data(length: usize, field: u16, changes: &[(usize, u8)]) -> String {
    let mut data = vec![0; length.max(28)];
    data[..2].copy_from_slice(&field.to_be_bytes());
    data[7] = 1;
    data[16..20].copy_from_slice(&300u32.to_be_bytes());
    for &(place, value) in changes {
        data[place] = value;
    }
    data.truncate(length);
    format!("good raw {}", hex::plain(&data))
}

fn replies_52h(list: &mut List) {
    let tao = |reply: &str| format!("order tao data 300\n{TWO}{reply}\n{TAO_300}");
    let sao = |reply: &str| format!("order sao data 300\n{TWO}{reply}\n{SAO_300}");
    list.job("52h-empty", "stop 4 3", "52h: no data: 4", &tao("good"));
    list.job("52h-27-bytes", "stop 4 3", "52h: 27 bytes: 4", &tao(&track_data(27, 26, &[])));
    list.job("52h-28-bytes", "done 26", "52h: 28 bytes pass", &tao(&track_data(28, 26, &[])));
    list.job("52h-length-25", "stop 4 3", "52h: length field 25: 4", &tao(&track_data(48, 25, &[])));
    list.job("52h-length-256", "done 26", "52h: both bytes of the length field count", &tao(&track_data(28, 256, &[])));
    let noise: Vec<(usize, u8)> = [2, 3, 4, 6, 8, 9, 10, 11]
        .into_iter()
        .chain(20..48)
        .map(|place| (place, 0xFF))
        .chain([(5, 0xDF), (7, 0xFF)])
        .collect();
    list.job("52h-other-bits", "done 26", "52h: all other bits don't count", &tao(&track_data(48, 46, &noise)));
    list.job("52h-other-bits-sao", "done 35", "52h: all other bits don't count in SAO", &sao(&track_data(48, 46, &noise)));
    list.job("52h-damage-tao", "stop 7 3", "Damage in TAO: 7", &tao("good track nwa 0 free 300 damaged"));
    list.job("52h-damage-sao", "stop 7 3", "Damage in SAO: 7", &sao("good track nwa 0 free 300 damaged"));
    list.job("52h-no-address-tao", "stop 7 3", "NWA_V clear in TAO: 7", &tao("good track nwa 0 free 300 no-address"));
    list.job("52h-no-address-sao", "done 35", "NWA_V doesn't count in SAO", &sao("good track nwa 0 free 300 no-address"));
    list.job("52h-address-sao", "done 35", "the address doesn't count in SAO", &sao("good track nwa 4294967295 free 300"));
    list.job("52h-all-faults-tao", "stop 7 3", "damaged and no address: 7", &tao("good track nwa 0 free 300 damaged no-address"));
    list.job("52h-nwa-v-is-bit-0", "stop 7 3", "52h: byte 7 bit 1 is not NWA_V: 7", &tao(&track_data(48, 46, &[(7, 0xFE)])));
    list.job("52h-address-bytes", "done 26", "52h: the address is in bytes 12 to 15", &tao(&track_data(48, 46, &[(13, 1), (14, 2), (15, 3)])));
    list.job("52h-free-bytes", "done 26", "52h: Free Blocks is in bytes 16 to 19, unsigned", &tao(&track_data(48, 46, &[(16, 0x80)])));
    list.job("52h-minus-150", "stop 10 3", "an address of -150 is read unsigned: 10", &tao("good track nwa 4294967146 free 300"));
    list.job("52h-minus-151", "stop 10 3", "an address of -151 is read unsigned: 10", &tao("good track nwa 4294967145 free 300"));
    list.job("52h-minus-45150", "stop 10 3", "an address of -45,150 is read unsigned: 10", &tao("good track nwa 4294922146 free 300"));
}

/// TAO: a fresh 52h before each track but the first, judged for 4, 7, 10.
fn later_52h(list: &mut List) {
    let order = "order tao data 300 data 301 data 302\n";
    let first = format!("{order}{TWO}good track nwa 1000 free 1207\n{TRACK_300}");
    let second = |reply: &str| format!("{first}{reply}\n{TRACK_300}good track nwa 2000 free 302\n23 x good\n");
    let third = |reply: &str| format!("{first}good track nwa 1300 free 755\n{TRACK_300}{reply}\n23 x good\n");
    list.job("later-52h-equal", "done 72", "second address equal to the previous end passes", &second("good track nwa 1300 free 755"));
    list.job("later-52h-stale", "stop 7 26", "second address one less than the previous end: 7", &second("good track nwa 1299 free 755"));
    list.job("later-52h-same", "stop 7 26", "the first 52h's address again: 7", &second("good track nwa 1000 free 755"));
    list.job("later-52h-above", "done 72", "second address above the previous end: the track starts there", &second("good track nwa 1452 free 755"));
    list.job("later-52h-damage", "stop 7 26", "Damage at the second 52h: 7", &second("good track nwa 1300 free 755 damaged"));
    list.job("later-52h-no-address", "stop 7 26", "NWA_V clear at the second 52h: 7", &second("good track nwa 1300 free 755 no-address"));
    list.job("later-52h-short", "stop 4 26", "the second 52h is too short: 4", &second(&track_data(27, 26, &[])));
    list.job("later-52h-length-25", "stop 4 26", "the second 52h's length field is 25: 4", &second(&track_data(48, 25, &[])));
    list.job("later-52h-4-before-7", "stop 4 26", "a short reply with Damage: 4 before 7", &second(&track_data(27, 26, &[(5, 0x20)])));
    list.job("later-52h-7-before-10", "stop 7 26", "a stale address and no room: 7 before 10", &second("good track nwa 1299 free 0"));
    list.job("later-52h-free", "stop 10 26", "S at the second 52h is this track, those after it and what lies between: one block short: 10", &second("good track nwa 1300 free 754"));
    list.job("later-52h-limit", "done 72", "lead-out limit at the second 52h: 404,849 passes", &format!("{first}good track nwa 404094 free 755\n{TRACK_300}good track nwa 404547 free 302\n23 x good\n"));
    list.job("later-52h-over-limit", "stop 10 26", "lead-out limit at the second 52h: 404,850: 10", &second("good track nwa 404095 free 755"));
    list.job("later-52h-old-limit", "stop 10 26", "lead-out at 449,849 at the second 52h: 10", &second("good track nwa 449094 free 755"));
    list.job("later-52h-address-over", "stop 10 26", "the second address itself beyond the limit: 10", &second("good track nwa 404850 free 755"));
    list.job("later-52h-wrap", "stop 10 26", "address plus S beyond 32 bits: 10", &second("good track nwa 4294967295 free 755"));
    list.job("later-52h-third-equal", "done 72", "third address equal to the second track's end passes", &third("good track nwa 1601 free 302"));
    list.job("later-52h-third-stale", "stop 7 49", "third address one less: 7", &third("good track nwa 1600 free 302"));
    list.job("later-52h-third-free", "stop 10 49", "the last track alone is S at the third 52h: 10", &third("good track nwa 1601 free 301"));
    list.job("later-52h-third-over", "stop 10 49", "lead-out limit at the last 52h: 10", &third("good track nwa 404548 free 302"));
    list.job("later-52h-third-limit", "done 72", "lead-out limit at the last 52h: 404,849 passes", &third("good track nwa 404547 free 302"));
    list.job("later-52h-third-old-limit", "stop 10 49", "lead-out at 449,849 at the last 52h: 10", &third("good track nwa 449547 free 302"));
    list.job("later-52h-lead-in", "stop 10 26", "an address of -45,150 at the second 52h is read unsigned: 10", &second("good track nwa 4294922146 free 755"));
    list.job("later-52h-gap-then-stale", "stop 7 49", "the end counts from the track's own start", &format!("{first}good track nwa 5000 free 755\n{TRACK_300}good track nwa 5300 free 302\n"));
    list.job("later-52h-failed", "stop 12 26 03 02 00", "the second 52h fails: 12", &second("failed 03 02 00"));
    list.job("later-52h-busy", "done 75", "the second 52h is busy, then good", &second("3 x busy\ngood track nwa 1300 free 755"));
}

/// Numbers 8 and 9.
fn orders_judged(list: &mut List) {
    let after = |order: &str| format!("order {order}\n{OPEN}100 x good\n");
    list.job("8-mixed", "stop 8 3", "SAO with mixed kinds: 8", &after("sao audio 300 data 300"));
    list.job("8-mixed-last", "stop 8 3", "SAO with another kind in the last track: 8", &after("sao data 300 data 300 audio 300"));
    list.job("8-keep", "stop 8 3", "SAO with keep appendable: 8", &after("sao keep data 300"));
    list.job("8-both", "stop 8 3", "SAO mixed and keep appendable: 8", &after("sao keep data 300 audio 300"));
    list.job("8-protect-passes", "done 35", "SAO with underrun protection passes", &after("sao protect data 300"));
    list.job("9-299-tao", "stop 9 3", "TAO, length 299: 9", &after("tao data 299"));
    list.job("9-299-sao", "stop 9 3", "SAO, length 299: 9", &after("sao audio 299"));
    list.job("9-last", "stop 9 3", "the last of three tracks is too short: 9", &after("sao audio 300 audio 301 audio 299"));
    list.job("9-zero", "stop 9 3", "length 0: 9", &after("tao data 300 data 0"));
    list.job("9-300", "done 26", "length 300 passes", &after("tao data 300"));
}

/// "Fits means".
fn fitting(list: &mut List) {
    let tao = |order: &str, nwa: u64, free: u64| {
        format!("order tao {order}\n{TWO}good track nwa {nwa} free {free}\n{TAO_300}")
    };
    let sao = |order: &str, free: u64| {
        format!("order sao {order}\n{TWO}good track nwa 0 free {free}\n40 x good\n")
    };
    let most = u64::from(u32::MAX);
    list.job("10-free-equal-tao", "done 26", "TAO: S equal to Free Blocks passes", &tao("data 300", 0, 300));
    list.job("10-free-short-tao", "stop 10 3", "TAO: one block more than Free Blocks: 10", &tao("data 301", 0, 300));
    list.job("10-free-equal-sao", "done 35", "SAO: S equal to Free Blocks passes; the pause isn't in S", &sao("data 300", 300));
    list.job("10-free-short-sao", "stop 10 3", "SAO: one block more than Free Blocks: 10", &sao("data 301", 300));
    list.job("10-free-sum", "stop 10 3", "S is the sum over all tracks and what lies between", &tao("data 300 data 301 data 302", 0, 1_206));
    list.job("10-free-zero", "stop 10 3", "no free block: 10", &tao("data 300", 0, 0));
    list.job("10-free-most", "done 26", "Free Blocks is unsigned", &tao("data 300", 0, most));
    list.job("10-limit-tao", "done 26", "TAO: lead-out at 404,849 passes", &tao("data 300", 404_549, most));
    list.job("10-over-tao", "stop 10 3", "TAO: lead-out at 404,850: 10", &tao("data 300", 404_550, most));
    list.job("10-limit-tao-sum", "stop 10 3", "TAO: the lead-out is the address plus all lengths and what lies between: 10", &tao("data 300 data 300", 404_098, most));
    list.job("10-over-tao-length", "stop 10 3", "TAO: a length beyond the limit: 10", &tao("data 404850", 0, most));
    list.job("10-limit-sao", "waiting 44", "SAO with S 404,849 and room passes", &sao("data 404849", 404_849));
    list.job("10-over-sao", "stop 10 3", "SAO with S 404,850: 10", &sao("data 404850", most));
    list.job("10-limit-sao-sum", "waiting 44", "SAO: three tracks with S 404,849 pass", &sao("audio 300 audio 404249 audio 300", most));
    list.job("10-over-sao-sum", "stop 10 3", "SAO: three tracks with S 404,850: 10", &sao("audio 300 audio 404250 audio 300", most));
    // The limit of document 01, with minutes 90 to 99 behind minute 89.
    list.job("10-old-limit-tao", "stop 10 3", "TAO: lead-out at 449,849: 10", &tao("data 300", 449_549, most));
    list.job("10-old-over-tao", "stop 10 3", "TAO: lead-out at 449,850: 10", &tao("data 300", 449_550, most));
    list.job("10-old-limit-tao-length", "stop 10 3", "TAO: a track of 449,849: 10", &tao("data 449849", 0, most));
    list.job("10-old-limit-sao", "stop 10 3", "SAO with S 449,849: 10", &sao("data 449849", most));
    list.job("10-old-limit-sao-sum", "stop 10 3", "SAO: three tracks with S 449,849: 10", &sao("audio 300 audio 449249 audio 300", most));
    list.job("10-address-at-limit", "stop 10 3", "TAO: an address at the limit itself: 10", &tao("data 300", 404_849, most));
    list.job("10-limit-tao-length", "waiting 27", "TAO: a track of 404,849 from 0 passes", &tao("data 404849", 0, most));
    list.job("10-limit-tao-from-1", "stop 10 3", "TAO: a track of 404,849 from 1: 10", &tao("data 404849", 1, most));
    list.job("10-limit-tao-two", "done 49", "TAO: two tracks with the lead-out at 404,849 pass", &format!(
        "order tao data 300 data 300\n{TWO}good track nwa 404097 free 752\n{TRACK_300}good track nwa 404549 free 300\n{TAO_300}"
    ));
    let tracks = " data 4089".repeat(98);
    list.job("10-limit-sao-99", "waiting 44", "SAO: 99 tracks with S 404,849 pass", &sao(&format!("{tracks} data 4127"), 404_849));
    list.job("10-over-sao-99", "stop 10 3", "SAO: 99 tracks with S 404,850: 10", &sao(&format!("{tracks} data 4128"), most));
    list.job("10-length-most", "stop 10 3", "a length of 2^32 - 1: 10", &tao("data 4294967295", 0, most));
    list.job("10-sum-wraps", "stop 10 3", "lengths that add up to 2^32 + 300: 10", &tao("data 4294967295 data 301", 0, most));
    list.job("10-sum-wraps-sao", "stop 10 3", "SAO lengths that add up to 2^32 + 300: 10", &sao("data 4294967295 data 301", most));
    list.job("10-address-wraps", "stop 10 3", "address plus S is 2^32 exactly: 10", &tao("data 300", (1 << 32) - 300, most));
    list.job("10-address-most", "stop 10 3", "the address 2^32 - 1: 10", &tao("data 300", most, most));
    list.job("10-most-of-all", "stop 10 3", "99 tracks of 2^32 - 1: 10", &format!("order sao{}\n{OPEN}", " data 4294967295".repeat(99)));
}

/// "The lowest applying number is given", judged after the third reply.
fn precedence(list: &mut List) {
    let job = |order: &str, profile: &str, disc: &str, track: &str| {
        format!("order {order}\ngood profile {profile}\ngood disc {disc}\n{track}\n40 x good\n")
    };
    let bad = "sao keep data 299 audio 4294967295";
    let damaged = "good track nwa 0 free 0 damaged no-address";
    let full = "good track nwa 0 free 0";
    list.job("first-4", "stop 4 3", "a short third reply ahead of 5 to 10: 4", &job(bad, "0008", "finalized", &track_data(27, 26, &[])));
    list.job("first-5", "stop 5 3", "5 ahead of 6 to 10", &job(bad, "0008", "finalized", damaged));
    list.job("first-6", "stop 6 3", "6 ahead of 7 to 10", &job(bad, "0009", "finalized", damaged));
    list.job("first-7", "stop 7 3", "7 ahead of 8 to 10", &job(bad, "0009", "blank", damaged));
    list.job("first-8", "stop 8 3", "8 ahead of 9 and 10", &job(bad, "0009", "blank", full));
    list.job("first-9", "stop 9 3", "9 ahead of 10", &job("sao data 299 data 4294967295", "0009", "blank", full));
    list.job("first-9-tao", "stop 9 3", "9 ahead of 10 in TAO", &job("tao data 299 data 4294967295", "000A", "appendable", full));
    list.job("first-10", "stop 10 3", "10 alone", &job("sao data 300 data 4294967295", "0009", "blank", full));
    list.job("first-12-over-5", "stop 12 3 02 3A 00", "a failed third reply stops with 12 though the profile is bad", &job(bad, "0008", "finalized", "failed 02 3A 00"));
    list.job("first-12-over-4", "stop 12 1 00 00 00", "a failed reply without data is 12 and not 4", "order tao data 300\nfailed\n");
    list.job("first-4-stops-at-46h", "stop 4 1", "4 at 46h stops at once", "order tao data 299\ngood\ngood\n");
    list.job("first-5-waits", "waiting 3", "5 is not judged before the third reply", "order tao data 300\ngood profile 0008\ngood disc blank\n");
    list.job("first-6-waits", "waiting 3", "6 is not judged before the third reply", "order tao data 300\ngood profile 0009\ngood disc finalized\n");
}

/// "Failed reply": which triple.
fn failed_replies(list: &mut List) {
    let job = |reply: &str| format!("order tao data 300\n{OPEN}4 x good\n{reply}\n3 x good\n");
    let sense = |code: u8, length: usize, key: u8| {
        let mut data = vec![0xEE; length.max(14)];
        (data[0], data[2], data[12], data[13]) = (code, key, 0x21, 0x0F);
        data.truncate(length);
        job(&format!("failed raw {}", hex::plain(&data)))
    };
    list.job("12-triple", "stop 12 8 05 21 00", "a failed WRITE stops with its triple", &job("failed 05 21 00"));
    list.job("12-no-data", "stop 12 8 00 00 00", "no sense data: 0, 0, 0", &job("failed"));
    list.job("12-13-bytes", "stop 12 8 00 00 00", "13 bytes: 0, 0, 0", &sense(0x70, 13, 5));
    list.job("12-14-bytes", "stop 12 8 05 21 0F", "14 bytes: the triple is read", &sense(0x70, 14, 5));
    list.job("12-506-bytes", "stop 12 8 05 21 0F", "506 bytes: the triple is read", &sense(0x70, 506, 5));
    list.job("12-deferred", "stop 12 8 05 21 0F", "71h: the triple is read", &sense(0x71, 18, 5));
    list.job("12-f0h", "stop 12 8 05 21 0F", "F0h is 70h with its top bit", &sense(0xF0, 18, 5));
    list.job("12-f1h", "stop 12 8 05 21 0F", "F1h is 71h with its top bit", &sense(0xF1, 18, 5));
    for code in [0x00, 0x6F, 0x72, 0x73, 0x7F, 0xEF, 0xF2, 0xFF] {
        let name = format!("12-code-{code:02x}h");
        list.job(&name, "stop 12 8 00 00 00", "another response code: 0, 0, 0", &sense(code, 18, 5));
    }
    list.job("12-key-modulo-16", "stop 12 8 0B 21 0F", "the key is byte 2 modulo 16", &sense(0x70, 18, 0xFB));
    list.job("12-all-zero-sense", "stop 12 8 00 00 00", "sense 0, 0, 0 is a failure too", &job("failed 00 00 00"));
    list.job("12-all-ones", "stop 12 8 0F FF FF", "the largest triple", &job("failed 0F FF FF"));
    list.job("12-good-with-sense", "waiting 12", "a good reply with sense data is good; its data is ignored", &job("good raw 70 00 05 00 00 00 00 0A 00 00 00 00 21 00"));
}

/// A failure, a row of busy replies, and the input's end at each place.
fn failures_everywhere(list: &mut List) {
    let blank = "good profile 000A\ngood disc blank\n";
    let tao = format!("{blank}good track nwa 0 free 753\n{TRACK_300}good track nwa 300 free 301\n{TAO_300}");
    let sao = format!("{blank}good track nwa 0 free 300\n{SAO_300}");
    for (method, order, replies) in [
        ("tao", "order tao protect data 300 data 301\n", tao),
        ("sao", "order sao protect data 300\n", sao),
    ] {
        let lines = lines_of(&replies);
        for place in 0..lines.len() {
            let before = format!("{order}{}", join(&lines[..place]));
            let number = place + 1;
            let name = |what: &str| format!("every-{method}-{number:02}-{what}");
            list.job(
                &name("fails"),
                &format!("stop 12 {number} 04 08 03"),
                &format!("command {number} of the job fails: 12"),
                &format!("{before}failed 04 08 03\n"),
            );
            list.job(
                &name("busy"),
                &format!("done {}", lines.len() + 2),
                &format!("command {number} is busy twice and goes again each time"),
                &format!("{before}2 x busy\n{}", join(&lines[place..])),
            );
        }
    }
}

/// The replies of a text, one line each.
pub(crate) fn lines_of(text: &str) -> Vec<String> {
    let mut lines = Vec::new();
    for line in text.lines() {
        let (times, line) = line.split_once(" x ").unwrap_or(("1", line));
        lines.extend(vec![line.to_string(); times.parse().unwrap_or(1)]);
    }
    lines
}

pub(crate) fn join(lines: &[String]) -> String {
    lines.iter().map(|line| format!("{line}\n")).collect()
}

/// "Busy is code 70h with 02h/04h/08h".
fn busy_replies(list: &mut List) {
    let job = |reply: &str| format!("order tao data 300\n{OPEN}4 x good\n{reply}\n19 x good\n");
    let raw = |changes: &[(usize, u8)], length: usize| {
        let mut data = [0x70, 0, 2, 0, 0, 0, 0, 10, 0, 0, 0, 0, 4, 8, 0, 0, 0, 0];
        for &(place, value) in changes {
            data[place] = value;
        }
        job(&format!("failed raw {}", hex::plain(&data[..length])))
    };
    list.job("busy-once", "done 27", "busy: the same WRITE goes again", &job("busy"));
    list.job("busy-many", "done 1026", "busy a thousand times: the same command each time", &job("1000 x busy"));
    list.job("busy-then-waiting", "waiting 8", "the input ends while the drive is busy", "order tao data 300\n7 x busy\n");
    list.job("busy-then-fails", "stop 12 11 03 0C 00", "busy, then a failure: 12", &job("3 x busy\nfailed 03 0C 00"));
    list.job("busy-deferred", "stop 12 8 02 04 08", "71h with 02h/04h/08h is no busy: 12", &job("failed deferred 02 04 08"));
    list.job("busy-f0h", "done 27", "F0h with 02h/04h/08h is busy", &raw(&[(0, 0xF0)], 18));
    list.job("busy-f1h", "stop 12 8 02 04 08", "F1h with 02h/04h/08h is no busy: 12", &raw(&[(0, 0xF1)], 18));
    list.job("busy-72h", "stop 12 8 00 00 00", "72h is no busy: 12 with 0, 0, 0", &raw(&[(0, 0x72)], 18));
    list.job("busy-14-bytes", "done 27", "busy in 14 bytes", &raw(&[], 14));
    list.job("busy-13-bytes", "stop 12 8 00 00 00", "13 bytes can't say busy: 12 with 0, 0, 0", &raw(&[], 13));
    list.job("busy-upper-bits", "done 27", "the key's upper bits don't count", &raw(&[(2, 0xF2)], 18));
    list.job("busy-key-3", "stop 12 8 03 04 08", "03h/04h/08h is no busy", &raw(&[(2, 3)], 18));
    list.job("busy-asc-5", "stop 12 8 02 05 08", "02h/05h/08h is no busy", &raw(&[(12, 5)], 18));
    list.job("busy-ascq-7", "stop 12 8 02 04 07", "02h/04h/07h is no busy", &raw(&[(13, 7)], 18));
    list.job("busy-marked-good", "done 26", "a good reply with busy data is good", &job("good raw 70 00 02 00 00 00 00 0A 00 00 00 00 04 08"));
    list.job("busy-in-pause", "done 39", "busy in the pause: the same blocks again", &format!("order sao data 300\n{OPEN}5 x good\n4 x busy\n27 x good\n"));
    list.job("busy-at-last", "done 44", "busy at the last command, then done", &format!("order sao data 300\n{OPEN}31 x good\n9 x busy\ngood\n"));
    list.job("busy-every-time", "done 45", "busy once at every WRITE", &format!("order tao data 300\n{OPEN}{}4 x good\n", "good\nbusy\n".repeat(19)));
}

/// "Recording rules".
fn recording(list: &mut List) {
    for length in [300u64, 301, 303, 304, 305, 316, 317, 319, 320, 321] {
        let writes = length.div_ceil(16);
        let shows = format!("a track of {length} blocks: {writes} WRITEs, the last of {}", length - 16 * (writes - 1));
        let tao = format!("order tao data {length}\n{OPEN}{} x good\n", writes + 4);
        list.job(&format!("record-tao-{length}"), &format!("done {}", writes + 7), &shows, &tao);
        let sao = format!("order sao audio {length} audio {length}\n{OPEN}{} x good\n", 2 * writes + 13);
        list.job(&format!("record-sao-{length}"), &format!("done {}", 2 * writes + 16), &shows, &sao);
    }
    list.job("record-tao-address", "done 26", "TAO starts at the 52h's address", &format!("order tao data 300\n{TWO}good track nwa 123456 free 300\n{TAO_300}"));
    list.job("record-tao-three", "done 72", "each TAO track starts at its latest 52h's address", &format!(
        "order tao keep data 300 data 301 data 302\ngood profile 0009\ngood disc appendable\n\
         good track nwa 11700 free 340000\n{TRACK_300}good track nwa 12152 free 339000\n{TRACK_300}\
         good track nwa 12605 free 338000\n23 x good\n"
    ));
    list.job("record-sao-pause", "waiting 17", "SAO: ten WRITEs from -150, none of which runs into track 1", &format!("order sao audio 300\n{OPEN}13 x good\n"));
    list.job("record-sao-five", "done 130", "SAO: each track starts where its forerunner ends", &format!("order sao audio 300 audio 301 audio 350 audio 400 audio 450\n{OPEN}200 x good\n"));
    list.job("record-data-ignored", "done 35", "the data of data-less commands' good replies is ignored", &format!("order sao data 300\n{OPEN}32 x good raw 00 01 02 03 04 05 06 07 08 09 0A 0B 0C 0D 0E 0F\n"));
    list.job("record-not-closed-35h", "waiting 35", "35h unanswered: the job waits and is not done", &format!("order sao data 300\n{OPEN}31 x good\n"));
    list.job("record-not-closed-5bh", "waiting 26", "the last 5Bh unanswered: the job waits and is not done", &format!("order tao data 300\n{OPEN}22 x good\n"));
    list.job("record-35h-fails", "stop 12 35 04 09 00", "35h fails after all blocks are recorded: 12", &format!("order sao data 300\n{OPEN}31 x good\nfailed 04 09 00\n"));
    list.job("record-5bh-1-fails", "stop 12 25 05 72 03", "5Bh function 1 fails: 12", &format!("order tao data 300\n{OPEN}21 x good\nfailed 05 72 03\n"));
    list.job("record-5bh-2-fails", "stop 12 26 05 72 05", "5Bh function 2 fails: 12", &format!("order tao data 300\n{OPEN}22 x good\nfailed 05 72 05\n"));
}

/// "With W the sum over tracks of length/16 rounded up".
fn counts(list: &mut List) {
    list.job("count-26", "done 26", "TAO, one track of 300: done 26", &format!("order tao data 300\n{OPEN}{TAO_300}"));
    list.job("count-35", "done 35", "SAO, one track of 300: done 35", &format!("order sao audio 300\n{OPEN}{SAO_300}"));
    list.job("count-50", "done 50", "TAO, 300 and 317: done 50", &format!(
        "order tao data 300 data 317\n{OPEN}{TRACK_300}good track nwa 300 free 299700\n24 x good\n"
    ));
    let many: String = (1..99).map(|i| format!("{TRACK_300}good track nwa {} free 50000\n", 301 * i)).collect();
    list.job("count-99-tao", "done 2280", "TAO, 99 tracks of 300: done 2280", &format!(
        "order tao{}\n{OPEN}{many}{TAO_300}", " data 300".repeat(99)
    ));
    list.job("count-99-sao", "done 1897", "SAO, 99 tracks of 300: done 1897", &format!(
        "order sao{}\n{OPEN}1894 x good\n", " audio 300".repeat(99)
    ));
    let full = "good profile 0009\ngood disc blank\ngood track nwa 0 free 404849\n";
    list.job("count-full-sao", "done 25320", "SAO, a full disc of 404,849 blocks: done 25320", &format!("order sao data 404849\n{full}25317 x good\n"));
    list.job("count-full-tao", "done 25311", "TAO, a full disc of 404,849 blocks: done 25311", &format!("order tao data 404849\n{full}25308 x good\n"));
}

#[cfg(test)]
mod tests {
    use super::*;
    use second::print::print;
    use std::collections::BTreeSet;

    #[test]
    fn names_differ() {
        let list = corners();
        let names: BTreeSet<&String> = list.iter().map(|corner| &corner.name).collect();
        assert_eq!(names.len(), list.len());
    }

    /// Every corner's last line is the one stated for it.
    #[test]
    fn corners_end_as_stated() {
        for corner in corners() {
            let mut output = Vec::new();
            print(corner.bytes.as_slice(), &mut output).unwrap();
            let output = String::from_utf8(output).unwrap();
            assert_eq!(output.lines().last(), Some(corner.ends.as_str()), "{}", corner.name);
        }
    }
}
