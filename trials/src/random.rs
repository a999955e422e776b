//! Random jobs: a plausible drive answers what this crate's own job asks, so
//! that many jobs get deep before something odd occurs.

use crate::drive::{noise, Drive, Polling};
use crate::polling_random;
use second::blocks::{
    order_block, read_reply, reply_block, seal, Reply, Status, BLOCK, CHECK, RECIPE,
};
use second::commands::{
    BLANK, CLOSE_TRACK_SESSION, GET_CONFIGURATION, MODE_SELECT, READ_DISC_INFORMATION,
    READ_TRACK_INFORMATION, REQUEST_SENSE, SEND_CUE_SHEET, SYNCHRONIZE_CACHE, TEST_UNIT_READY,
    WRITE,
};
use second::job::{Answer, Command, Job};
use second::rng::Rng;
use second::units::{
    Flags, Kind, Method, Order, Recipe, Track, BETWEEN_TRACKS, LAST_ADDRESS, MOST_TRACKS,
};
use second::wellformed::{
    busy_reply, disc_reply, profile_reply, sense_reply, track_reply, TrackFields,
};

/// A job longer than this is cut, unless it has very many tracks.
const MOST_REPLIES: usize = 600;
const LIMIT: u64 = LAST_ADDRESS as u64;
/// The limit of document 01, before Ask 3 of document 02.
const OLD_LIMIT: u64 = 449_849;
const BUSY_CODES: [u8; 2] = [0x70, 0xF0];

/// A job's input for the print program, and what was made odd in it.
pub struct Made {
    pub bytes: Vec<u8>,
    pub shows: String,
}

pub fn job(rng: &mut Rng) -> Made {
    let mut notes = Vec::new();
    let order = order(rng, &mut notes);
    let mut maker = Maker::new(rng, order, notes);
    maker.run();
    maker.finish()
}

// ---- the order ----

fn order(rng: &mut Rng, notes: &mut Vec<String>) -> Order {
    let method = rng.pick(&[Method::Tao, Method::Sao]);
    let count = track_count(rng);
    let flags = flags(rng, method);
    let recipe = recipe(rng, method);
    let kinds = kinds(rng, method, count);
    let mut lengths: Vec<u32> = (0..count).map(|_| usual_length(rng)).collect();
    // S alone has a limit in SAO, and with the flag for erasing.
    let limited = method == Method::Sao || flags.erase;
    let charge = charge(rng, method) * (count as u64 - 1);
    odd_lengths(rng, limited.then_some(charge), &mut lengths, notes);
    let tracks = kinds
        .into_iter()
        .zip(lengths)
        .map(|(kind, length)| Track { kind, length });
    Order {
        method,
        flags,
        tracks: tracks.collect(),
        recipe,
    }
}

fn track_count(rng: &mut Rng) -> usize {
    match rng.below(200) {
        0..=79 => 1,
        80..=139 => 2,
        140..=189 => rng.between(3, 5) as usize,
        190..=197 => rng.between(6, 12) as usize,
        198 => rng.between(13, 98) as usize,
        _ => MOST_TRACKS,
    }
}

fn flags(rng: &mut Rng, method: Method) -> Flags {
    let keep_percent = if method == Method::Tao { 50 } else { 6 };
    Flags {
        keep: rng.chance(keep_percent),
        protect: rng.chance(50),
        immed: rng.chance(50),
        erase: rng.chance(50),
    }
}

/// Half of TAO goes by either recipe; SAO with recipe 1 has no order block.
fn recipe(rng: &mut Rng, method: Method) -> Recipe {
    match method {
        Method::Tao => rng.pick(&[Recipe::Old, Recipe::New]),
        Method::Sao => Recipe::Old,
    }
}

/// TAO is mostly of data, so that jobs get deep; a fair share of its orders has
/// audio, in one track, in some or in all.
fn kinds(rng: &mut Rng, method: Method, count: usize) -> Vec<Kind> {
    match method {
        Method::Tao => {
            let audio_percent = rng.pick(&[0, 0, 0, 0, 0, 30, 60, 100]);
            let kind = |audio: bool| if audio { Kind::Audio } else { Kind::Data };
            let tracks = (0..count).map(|_| kind(rng.chance(audio_percent)));
            tracks.collect()
        }
        Method::Sao => {
            let both = [Kind::Audio, Kind::Data];
            let mut kinds = vec![rng.pick(&both); count];
            if rng.chance(5) {
                kinds.fill_with(|| rng.pick(&both));
            }
            kinds
        }
    }
}

fn audio_in_tao(order: &Order) -> bool {
    let audio = |track: &Track| track.kind == Kind::Audio;
    order.method == Method::Tao && order.tracks.iter().any(audio)
}

fn usual_length(rng: &mut Rng) -> u32 {
    if rng.chance(50) {
        rng.pick(&[300, 301, 303, 304, 305, 315, 316, 317, 319, 320, 321, 336])
    } else {
        rng.between(300, 340) as u32
    }
}

/// What a track after the first is charged: mostly as Ask 6 of document 02 says,
/// sometimes a block more or less, or nothing.
fn charge(rng: &mut Rng, method: Method) -> u64 {
    let other = rng.pick(&[0, BETWEEN_TRACKS - 1, BETWEEN_TRACKS + 1]);
    match method {
        Method::Tao if rng.chance(25) => other,
        Method::Tao => BETWEEN_TRACKS,
        Method::Sao => 0,
    }
}

/// What is still to be recorded from the track with this index on, charged as
/// above.
fn needed(rng: &mut Rng, order: &Order, first: usize) -> u64 {
    let later = order.tracks.len().saturating_sub(first + 1) as u64;
    order.blocks_from(first).0 + charge(rng, order.method) * later
}

/// Sometimes a length below 300, a huge one, or a sum at a limit, if it has one:
/// the charge then is in the sum.
fn odd_lengths(rng: &mut Rng, charge: Option<u64>, lengths: &mut [u32], notes: &mut Vec<String>) {
    let place = rng.below(lengths.len() as u64) as usize;
    match rng.below(100) {
        0..=3 => {
            lengths[place] = rng.pick(&[299, 299, 299, 298, 16, 1, 0]);
            notes.push(format!("track {} has {} blocks", place + 1, lengths[place]));
        }
        4..=6 => {
            let huge = [
                u32::MAX,
                u32::MAX - 1,
                1 << 31,
                404_849,
                404_850,
                405_000,
                OLD_LIMIT as u32,
            ];
            lengths[place] = rng.pick(&huge);
            notes.push(format!("track {} has {} blocks", place + 1, lengths[place]));
        }
        7..=8 => {
            wrap_sum(rng, lengths, place);
            notes.push("the lengths add up to more than 32 bits".to_string());
        }
        9..=12 => {
            let Some(charge) = charge else { return };
            let sum = sum_at_limit(rng, charge, lengths, place);
            notes.push(format!("the lengths and {charge} add up to {sum}"));
        }
        _ => {}
    }
}

/// Lengths whose sum with this charge is at a limit.
fn sum_at_limit(rng: &mut Rng, charge: u64, lengths: &mut [u32], place: usize) -> u64 {
    let all: u64 = lengths.iter().map(|&length| u64::from(length)).sum();
    let others = all - u64::from(lengths[place]);
    let sum = rng.pick(&[
        LIMIT - 1,
        LIMIT,
        LIMIT,
        LIMIT,
        LIMIT,
        LIMIT + 1,
        LIMIT + 1,
        OLD_LIMIT,
    ]);
    lengths[place] = (sum - charge - others) as u32;
    sum
}

/// Lengths whose sum is small modulo 2^32.
fn wrap_sum(rng: &mut Rng, lengths: &mut [u32], place: usize) {
    let others: u64 = lengths.iter().map(|&length| u64::from(length)).sum::<u64>();
    let others = (others - u64::from(lengths[place])) as u32;
    let small = rng.below(400) as u32;
    lengths[place] = small.wrapping_sub(others);
}

// ---- the job ----

/// Something odd, at the n-th time that a command of a code is given.
struct Odd {
    code: u8,
    nth: usize,
}

struct Maker<'a> {
    rng: &'a mut Rng,
    order: Order,
    drive: Drive,
    odd: Vec<Odd>,
    busy_percent: u64,
    bytes: Vec<u8>,
    notes: Vec<String>,
    /// How often each code was given, repeats not counted.
    given: [usize; 256],
    /// The end of the latest WRITE that was answered.
    end: Option<u64>,
}

/// What one command gets: reply blocks, or the end of the input.
enum Given {
    Reply(Reply),
    /// These bytes, no block that passes; the job stops there.
    Broken(Vec<u8>),
    Nothing,
}

impl<'a> Maker<'a> {
    fn new(rng: &'a mut Rng, order: Order, mut notes: Vec<String>) -> Maker<'a> {
        let drive = drive(rng, &order, &mut notes);
        let odd = plan(rng, &order);
        let busy_percent = rng.pick(&[0, 0, 0, 0, 2, 2, 2, 25]);
        Maker {
            rng,
            order,
            drive,
            odd,
            busy_percent,
            bytes: Vec::new(),
            notes,
            given: [0; 256],
            end: None,
        }
    }

    fn note(&mut self, note: impl Into<String>) {
        self.notes.push(note.into());
    }

    fn run(&mut self) {
        let block = self.order_bytes();
        self.bytes.extend(&block);
        let (mut job, mut answer) = Job::take(&block);
        let most = if self.order.tracks.len() > 12 {
            3_000
        } else {
            MOST_REPLIES
        };
        let mut replies = 0;
        while let Answer::Command(command) = answer {
            if replies >= most {
                return self.note(format!("cut after {replies} replies"));
            }
            for _ in 0..self.busy_row(&command) {
                self.push_reply(&busy_reply());
                job.give(&busy_reply());
                replies += 1;
            }
            match self.reply_to(&command) {
                Given::Reply(reply) => {
                    self.push_reply(&reply);
                    answer = job.give(&reply);
                    replies += 1;
                }
                Given::Broken(bytes) => return self.bytes.extend(bytes),
                Given::Nothing => return,
            }
        }
        self.after_the_end();
    }

    fn finish(self) -> Made {
        let shows = if self.notes.is_empty() {
            "nothing odd".to_string()
        } else {
            self.notes.join("; ")
        };
        Made {
            bytes: self.bytes,
            shows,
        }
    }

    fn push_reply(&mut self, reply: &Reply) {
        // Replies made here hold at most 506 bytes.
        if let Ok(block) = reply_block(reply) {
            self.bytes.extend(block);
        }
    }

    /// The order block, in a few cases damaged or missing.
    fn order_bytes(&mut self) -> Vec<u8> {
        let mut block = order_block(&self.order).unwrap_or([0; BLOCK]);
        let rows_end = 4 + 5 * self.order.tracks.len();
        let note = match self.rng.below(160) {
            0 => {
                block[CHECK + self.rng.below(2) as usize] ^= 1 << self.rng.below(8);
                "the order's check differs"
            }
            1 => {
                block[self.rng.below(CHECK as u64) as usize] ^= 1 << self.rng.below(8);
                "one bit of the order differs"
            }
            2 => return self.short_order(&block),
            3 => self.damage(&mut block, 0, &[0, 2, 3, 255], "the order's byte 0"),
            4 => self.damage(&mut block, 1, &[0, 3, 255], "the order's method"),
            5 => self.damage(
                &mut block,
                2,
                &[4, 8, 0x0C, 0x0F, 0x10, 0x18, 0x80, 255],
                "the order's flags",
            ),
            6 => self.damage(&mut block, 3, &[0, 100, 101, 255], "the order's count"),
            7 => self.damage(&mut block, 4, &[2, 255], "the first track's kind"),
            8 => {
                let place = self.rng.between(rows_end as u64, 509) as usize;
                self.damage(&mut block, place, &[1, 128, 255], "the order's padding")
            }
            9 => self.damage(&mut block, 509, &[1, 255], "the order's byte 509"),
            10 => {
                let place = self.rng.below(CHECK as u64) as usize;
                let value = self.rng.byte();
                self.damage(&mut block, place, &[value], "any byte of the order")
            }
            // With 1, or 0, a TAO order goes by the other recipe.
            11..=14 => {
                let value = self.rng.byte();
                self.damage(
                    &mut block,
                    RECIPE,
                    &[1, 1, 1, 1, 0, 2, 2, 128, 255, value],
                    "the order's recipe",
                )
            }
            15 => {
                let place = self.rng.pick(&[RECIPE - 1, RECIPE + 1]);
                self.damage(&mut block, place, &[1, 255], "a byte beside the recipe")
            }
            _ => return block.to_vec(),
        };
        self.note(note);
        block.to_vec()
    }

    /// A byte changed to one of the values, with the right check.
    fn damage(
        &mut self,
        block: &mut [u8; BLOCK],
        place: usize,
        values: &[u8],
        note: &'static str,
    ) -> &'static str {
        block[place] = self.rng.pick(values);
        seal(block);
        note
    }

    fn short_order(&mut self, block: &[u8; BLOCK]) -> Vec<u8> {
        let length = [0, 1, 511, self.rng.below(512) as usize];
        let length = self.rng.pick(&length);
        self.note(format!("{length} bytes of an order"));
        block[..length].to_vec()
    }

    /// How many busy replies come ahead of the proper one. A 00h is never
    /// busy.
    fn busy_row(&mut self, command: &Command) -> u64 {
        if command.bytes[0] == TEST_UNIT_READY || !self.rng.chance(self.busy_percent) {
            return 0;
        }
        let row = if self.rng.chance(5) {
            self.rng.between(20, 60)
        } else {
            self.rng.between(1, 4)
        };
        self.note(format!("{row} busy at {}", self.place(command)));
        row
    }

    fn place(&self, command: &Command) -> String {
        let code = command.bytes[0];
        let nth = self.given[usize::from(code)] + 1;
        format!("{code:02X}h number {nth}")
    }

    fn reply_to(&mut self, command: &Command) -> Given {
        let code = command.bytes[0];
        let place = self.place(command);
        let previous_end = self.end;
        self.given[usize::from(code)] += 1;
        let nth = self.given[usize::from(code)];
        let proper = self.drive.answer(&command.bytes, self.rng);
        if code == WRITE {
            self.end = Some(u64::from(self.drive.next_writable));
        }
        if !self
            .odd
            .iter()
            .any(|odd| odd.code == code && odd.nth == nth)
        {
            return Given::Reply(proper);
        }
        let (given, note) = self.odd_reply(code, proper, previous_end);
        self.note(format!("{place}: {note}"));
        given
    }

    fn odd_reply(&mut self, code: u8, proper: Reply, previous_end: Option<u64>) -> (Given, String) {
        let reads = [
            GET_CONFIGURATION,
            READ_DISC_INFORMATION,
            READ_TRACK_INFORMATION,
        ];
        match self.rng.below(100) {
            0..=14 => self.failure(),
            15..=26 => self.near_busy(),
            27..=38 => self.broken(&proper),
            39..=42 => self.input_ends(&proper),
            43..=46 => self.other_reply(),
            _ if code == TEST_UNIT_READY => reply_given(polling_random::ready(self.rng)),
            _ if code == REQUEST_SENSE => reply_given(polling_random::sense(self.rng)),
            _ if !reads.contains(&code) => self.ignored_data(),
            47..=64 => self.bad_shape(code, proper),
            _ => self.odd_value(code, previous_end),
        }
    }

    /// A failure with any sense data.
    fn failure(&mut self) -> (Given, String) {
        let code = self
            .rng
            .pick(&[0x70, 0x70, 0x71, 0xF0, 0xF1, 0x72, 0x6F, 0x00, 0xFF]);
        let length = self.rng.pick(&[0, 1, 2, 13, 14, 14, 18, 18, 252, 506]);
        let mut data = self.rng.bytes(length);
        if let Some(first) = data.first_mut() {
            *first = code;
        }
        let note = format!("failed, code {code:02X}h, {length} bytes");
        (Given::Reply(Reply::failed(&data)), note)
    }

    /// Sense data that says busy, or nearly.
    fn near_busy(&mut self) -> (Given, String) {
        let mut reply = sense_reply(self.rng.pick(&BUSY_CODES), 0x02, 0x04, 0x08);
        let data = &mut reply.data;
        let note = match self.rng.below(9) {
            0 => {
                data[0] += 1;
                "deferred busy"
            }
            1 => {
                data[2] = self.rng.pick(&[0x01, 0x03, 0x06, 0x0A]);
                "busy with another key"
            }
            2 => {
                data[12] = self.rng.pick(&[0x03, 0x05, 0x00]);
                "busy with another ASC"
            }
            3 => {
                data[13] = self.rng.pick(&[0x07, 0x09, 0x00, 0x01]);
                "busy with another ASCQ"
            }
            4 => {
                data.truncate(13);
                "busy of 13 bytes"
            }
            5 => {
                data.truncate(14);
                "busy of 14 bytes"
            }
            6 => {
                data[2] |= self.rng.byte() & 0xF0;
                "busy with upper bits in the key's byte"
            }
            7 => {
                data[0] = self.rng.pick(&[0x72, 0x73, 0xF2, 0x60]);
                "busy with another response code"
            }
            _ => {
                reply.status = Status::Good;
                "good, with the data of busy"
            }
        };
        (Given::Reply(reply), note.to_string())
    }

    /// A reply block that is damaged.
    fn broken(&mut self, proper: &Reply) -> (Given, String) {
        let mut block = reply_block(proper).unwrap_or([0; BLOCK]);
        let end = 4 + proper.data.len();
        let note = match self.rng.below(9) {
            0 => {
                block[CHECK + self.rng.below(2) as usize] ^= 1 << self.rng.below(8);
                "the reply's check differs"
            }
            1 => {
                block[self.rng.below(CHECK as u64) as usize] ^= 1 << self.rng.below(8);
                "one bit of the reply differs"
            }
            2 => self.damage(&mut block, 0, &[0, 1, 3, 255], "the reply's byte 0"),
            3 => self.damage(&mut block, 1, &[2, 3, 128, 255], "the reply's status"),
            4 => {
                let length: u16 = self.rng.pick(&[506, 507, 508, 512, 0xFFFF]);
                block[2..4].copy_from_slice(&length.to_be_bytes());
                seal(&mut block);
                "the reply's length field"
            }
            5 => {
                let place = self.rng.between(end as u64, 509) as usize;
                self.damage(&mut block, place, &[1, 255], "the reply's padding")
            }
            6 => self.damage(&mut block, 509, &[1, 255], "the reply's byte 509"),
            7 => {
                block = order_block(&self.order).unwrap_or([0; BLOCK]);
                "an order where a reply is awaited"
            }
            _ => {
                let length = self.rng.below(512);
                let length = self.rng.pick(&[1, 511, length]) as usize;
                let note = format!("{length} bytes of a reply");
                return (Given::Broken(block[..length].to_vec()), note);
            }
        };
        self.given_block(&block, note)
    }

    /// A block goes in as the reply it holds, or it is broken, and then
    /// further blocks follow that must not be read.
    fn given_block(&mut self, block: &[u8; BLOCK], note: &str) -> (Given, String) {
        match read_reply(block) {
            Ok(reply) => (Given::Reply(reply), note.to_string()),
            Err(_) => {
                let mut bytes = block.to_vec();
                let more = self.rng.below(700) as usize;
                bytes.extend(self.rng.bytes(more));
                (Given::Broken(bytes), note.to_string())
            }
        }
    }

    fn input_ends(&mut self, proper: &Reply) -> (Given, String) {
        if self.rng.chance(60) {
            return (Given::Nothing, "no further byte".to_string());
        }
        let block = reply_block(proper).unwrap_or([0; BLOCK]);
        let length = self.rng.between(1, 511) as usize;
        let note = format!("{length} bytes of a reply");
        (Given::Broken(block[..length].to_vec()), note)
    }

    /// A good reply of another command, or any data.
    fn other_reply(&mut self) -> (Given, String) {
        let reply = match self.rng.below(5) {
            0 => profile_reply(self.drive.profile),
            1 => disc_reply(self.drive.disc, self.drive.erasable),
            2 => track_reply(self.drive.track_fields()),
            3 => Reply::good(&[]),
            _ => {
                let length = self.rng.below(507) as usize;
                Reply::good(&self.rng.bytes(length))
            }
        };
        (
            Given::Reply(reply),
            "a good reply of another kind".to_string(),
        )
    }

    fn ignored_data(&mut self) -> (Given, String) {
        let length = self.rng.pick(&[1, 7, 14, 18, 505, 506]);
        let data = self.rng.bytes(length);
        let note = format!("good with {length} bytes that don't count");
        (Given::Reply(Reply::good(&data)), note)
    }

    /// Too short by one, just long enough, length fields low or high.
    fn bad_shape(&mut self, code: u8, mut reply: Reply) -> (Given, String) {
        let (length, field, bytes) = match code {
            GET_CONFIGURATION => (8, 4u32, 4),
            READ_DISC_INFORMATION => (34, 32, 2),
            _ => (28, 26, 2),
        };
        let data = &mut reply.data;
        if self.rng.chance(50) {
            let any = self.rng.below(length as u64 + 2) as usize;
            let length = self
                .rng
                .pick(&[0, length - 1, length - 1, length, length + 1, any]);
            data.resize(length, 0);
            let note = format!("good, {length} bytes");
            return (Given::Reply(reply), note);
        }
        let field = self.rng.pick(&[
            0,
            field - 1,
            field - 1,
            field,
            field + 1,
            256,
            0xFF00,
            0xFFFF,
        ]);
        data[..bytes].copy_from_slice(&field.to_be_bytes()[4 - bytes..]);
        let note = format!("good, length field {field}");
        (Given::Reply(reply), note)
    }

    /// A well-formed reply with a value at a boundary.
    fn odd_value(&mut self, code: u8, previous_end: Option<u64>) -> (Given, String) {
        let (reply, note) = match code {
            GET_CONFIGURATION => {
                let profile = self
                    .rng
                    .pick(&[8, 9, 10, 11, 0, 0x0109, 0x0900, 0x0A00, 0xFFFF]);
                (profile_reply(profile), format!("profile {profile:04X}h"))
            }
            READ_DISC_INFORMATION => self.odd_disc(),
            _ => self.odd_track(previous_end),
        };
        let reply = if self.rng.chance(30) {
            noise(code, reply, self.rng)
        } else {
            reply
        };
        (Given::Reply(reply), note)
    }

    fn odd_disc(&mut self) -> (Reply, String) {
        let mut reply = disc_reply(self.rng.below(4) as u8, self.rng.chance(50));
        if self.rng.chance(40) {
            reply.data[2] |= 1 << self.rng.below(8);
        }
        let note = format!("byte 2 of 51h is {:02X}h", reply.data[2]);
        (reply, note)
    }

    fn odd_track(&mut self, previous_end: Option<u64>) -> (Reply, String) {
        let mut fields = self.drive.track_fields();
        let note = match self.rng.below(10) {
            0 => {
                fields.damaged = true;
                "damaged".to_string()
            }
            1 => {
                fields.address_valid = false;
                "no address".to_string()
            }
            2 => {
                fields.damaged = true;
                fields.address_valid = false;
                "damaged, no address".to_string()
            }
            3..=4 => self.odd_free(&mut fields),
            5..=6 => self.odd_address(&mut fields, previous_end),
            _ => self.at_the_limit(&mut fields),
        };
        if fields.address_valid && !fields.damaged {
            // The track then starts where this reply says.
            self.drive.next_writable = fields.next_writable;
            self.drive.free = fields.free;
        }
        (track_reply(fields), note)
    }

    /// S: what is still to be recorded at the latest 52h, mostly as it is
    /// charged.
    fn remaining(&mut self) -> u64 {
        let asked = self.given[usize::from(READ_TRACK_INFORMATION)];
        needed(self.rng, &self.order, asked.saturating_sub(1))
    }

    fn odd_free(&mut self, fields: &mut TrackFields) -> String {
        let remaining = self.remaining();
        let free = self
            .rng
            .pick(&[remaining.saturating_sub(1), remaining, remaining + 1, 0]);
        fields.free = free as u32;
        format!("free {} where {remaining} blocks remain", fields.free)
    }

    fn odd_address(&mut self, fields: &mut TrackFields, end: Option<u64>) -> String {
        let end = end.unwrap_or(0);
        let address = self
            .rng
            .pick(&[end.wrapping_sub(1), end, end + 1, 0, end + 150, end + 152]);
        fields.next_writable = address as u32;
        format!(
            "address {} where the track before ends at {end}",
            fields.next_writable
        )
    }

    fn at_the_limit(&mut self, fields: &mut TrackFields) -> String {
        let remaining = self.remaining();
        let lead_out = self.rng.pick(&[
            LIMIT - 1,
            LIMIT,
            LIMIT,
            LIMIT + 1,
            LIMIT + 1,
            OLD_LIMIT,
            1 << 32,
            (1 << 32) + 300,
        ]);
        fields.next_writable = lead_out.wrapping_sub(remaining) as u32;
        fields.free = u32::MAX;
        format!(
            "address {} with {remaining} blocks to come",
            fields.next_writable
        )
    }

    /// Blocks that come after the end; print must not read them.
    fn after_the_end(&mut self) {
        if self.rng.chance(60) {
            return;
        }
        self.note("more after the end");
        for _ in 0..self.rng.below(4) {
            let reply = self.rng.pick(&[0, 1, 2]);
            match reply {
                0 => self.push_reply(&Reply::good(&[])),
                1 => self.push_reply(&busy_reply()),
                _ => self.push_reply(&Reply::failed(&[])),
            }
        }
        let more = self.rng.below(600) as usize;
        let more = self.rng.bytes(more);
        self.bytes.extend(more);
    }
}

fn reply_given((reply, note): (Reply, String)) -> (Given, String) {
    (Given::Reply(reply), note)
}

/// A drive that suits the order in most cases.
fn drive(rng: &mut Rng, order: &Order, notes: &mut Vec<String>) -> Drive {
    let profile = profile(rng, order);
    let disc = disc(rng, order);
    let erasable = rng.chance(if order.flags.erase { 95 } else { 50 });
    let erased = if rng.chance(94) {
        0
    } else {
        rng.between(1, 3) as u8
    };
    let blocks = order.blocks_from(0).0;
    let room = needed(rng, order, 0);
    let free = free_blocks(rng, room);
    let next_writable = first_address(rng, order.method, room);
    let gap = rng.pick(&[0, 0, 0, 2, 150, 151, 152, 152, 152, 152, 152, 153]);
    let newer = rng.chance(if order.recipe == Recipe::New { 90 } else { 10 });
    let mark = if erasable { " erasable" } else { "" };
    let age = if newer { ", a newer drive" } else { "" };
    notes.push(format!(
        "profile {profile:04X}h, disc {disc}{mark}, address {next_writable}, free {free}, \
         {blocks} blocks, {gap} between tracks, recipe {}{age}",
        order.recipe.byte()
    ));
    Drive {
        profile,
        disc,
        erasable,
        erased,
        next_writable,
        free,
        gap,
        newer,
        open: false,
        noisy: rng.chance(40),
        polling: polling(rng, order),
    }
}

/// Mostly CD-RW where a disc is to be erased.
fn profile(rng: &mut Rng, order: &Order) -> u16 {
    if !rng.chance(97) {
        rng.pick(&[8, 11, 0x1A])
    } else if order.flags.erase && rng.chance(85) {
        10
    } else {
        rng.pick(&[9, 10])
    }
}

/// Mostly a used disc where it is to be erased.
fn disc(rng: &mut Rng, order: &Order) -> u8 {
    if rng.chance(5) {
        return rng.below(4) as u8;
    }
    match order.method {
        _ if order.flags.erase => rng.pick(&[0, 1, 1, 2, 2]),
        Method::Tao => rng.pick(&[0, 1]),
        Method::Sao => 0,
    }
}

/// Long pollings only where there are few of them.
fn polling(rng: &mut Rng, order: &Order) -> Polling {
    let most_rounds = match order.tracks.len() {
        0..=2 => rng.pick(&[0, 1, 3, 3, 6, 20]),
        3..=12 => rng.pick(&[0, 1, 2, 4]),
        _ => rng.pick(&[0, 0, 1]),
    };
    Polling::new(most_rounds, rng.pick(&[0, 30, 60, 100]))
}

/// Mostly room enough, often by nothing more.
fn free_blocks(rng: &mut Rng, blocks: u64) -> u32 {
    let free = match rng.below(100) {
        0..=5 => blocks.saturating_sub(1),
        6..=27 => blocks,
        28..=32 => blocks + 1,
        33..=37 => u64::from(u32::MAX),
        _ => blocks + rng.between(1_000, 400_000),
    };
    // Where the sum passes 32 bits, what is left of it is as odd as any.
    if rng.chance(50) {
        free as u32
    } else {
        u32::try_from(free).unwrap_or(u32::MAX)
    }
}

fn first_address(rng: &mut Rng, method: Method, blocks: u64) -> u32 {
    let address = match rng.below(100) {
        0..=21 => 0,
        22..=40 => LIMIT.saturating_sub(blocks),
        41..=46 => LIMIT.saturating_sub(blocks) + 1,
        47..=48 => LIMIT.saturating_sub(blocks + 1),
        49 => (1 << 32) - 150,
        // The lead-in's first and last address, which are read unsigned.
        50 => (1 << 32) - rng.pick(&[45_150, 151]),
        51..=52 => (1u64 << 32).saturating_sub(blocks),
        53 => OLD_LIMIT.saturating_sub(blocks),
        _ if method == Method::Sao && rng.chance(30) => rng.next_u64(),
        _ => rng.below(20_000),
    };
    address as u32
}

/// Where odd things happen: nowhere in a third of the jobs.
fn plan(rng: &mut Rng, order: &Order) -> Vec<Odd> {
    let times = rng.pick(&[0, 1, 1, 1, 2, 0, 1, 3]);
    (0..times).map(|_| odd_place(rng, order)).collect()
}

fn odd_place(rng: &mut Rng, order: &Order) -> Odd {
    let tracks = order.tracks.len() as u64;
    if audio_in_tao(order) && rng.chance(50) {
        return odd_opening(rng);
    }
    if order.recipe == Recipe::New && tracks > 1 && rng.chance(35) {
        // The 52h that comes right behind a 35h.
        let nth = rng.between(2, tracks) as usize;
        return Odd {
            code: READ_TRACK_INFORMATION,
            nth,
        };
    }
    if order.flags.immed && rng.chance(60) {
        return odd_poll(rng, order);
    }
    if order.flags.erase && rng.chance(30) {
        return odd_erasing(rng);
    }
    let code = match rng.below(100) {
        0..=11 => GET_CONFIGURATION,
        12..=23 => READ_DISC_INFORMATION,
        24..=53 => READ_TRACK_INFORMATION,
        54..=60 => MODE_SELECT,
        61..=65 => SEND_CUE_SHEET,
        66..=83 => WRITE,
        84..=91 => SYNCHRONIZE_CACHE,
        _ => CLOSE_TRACK_SESSION,
    };
    let closings = match order.recipe {
        Recipe::Old => tracks + 1,
        Recipe::New => 1,
    };
    let most = match (code, order.method) {
        (GET_CONFIGURATION | READ_DISC_INFORMATION | SEND_CUE_SHEET, _) => 1,
        (WRITE, Method::Sao) => 12 + 20 * tracks,
        (WRITE, Method::Tao) => 20 * tracks,
        (_, Method::Sao) => 1,
        (CLOSE_TRACK_SESSION, Method::Tao) => closings,
        (_, Method::Tao) => tracks,
    };
    Odd {
        code,
        nth: rng.between(1, most) as usize,
    }
}

/// In the opening, beyond which a job with audio in TAO doesn't come.
fn odd_opening(rng: &mut Rng) -> Odd {
    let code = rng.pick(&[
        GET_CONFIGURATION,
        READ_DISC_INFORMATION,
        READ_TRACK_INFORMATION,
        READ_TRACK_INFORMATION,
    ]);
    Odd { code, nth: 1 }
}

/// At the A1h or one of the replies around it.
fn odd_erasing(rng: &mut Rng) -> Odd {
    let (code, nth) = rng.pick(&[
        (READ_DISC_INFORMATION, 1),
        (BLANK, 1),
        (READ_DISC_INFORMATION, 2),
        (READ_DISC_INFORMATION, 2),
        (READ_TRACK_INFORMATION, 1),
    ]);
    Odd { code, nth }
}

/// At one of the polls, mostly of those that surely come.
fn odd_poll(rng: &mut Rng, order: &Order) -> Odd {
    let tracks = order.tracks.len() as u64;
    let closings = match (order.method, order.recipe) {
        (Method::Tao, Recipe::Old) => 2 * tracks + 1,
        (Method::Tao, Recipe::New) => tracks + 1,
        (Method::Sao, _) => 1,
    };
    let pollings = closings + u64::from(order.flags.erase);
    let most = rng.pick(&[pollings, pollings, 2 * pollings]);
    Odd {
        code: rng.pick(&[TEST_UNIT_READY, REQUEST_SENSE]),
        nth: rng.between(1, most) as usize,
    }
}

#[cfg(test)]
mod tests {
    use super::*;
    use second::blocks::read_order;
    use second::job::Step;
    use std::collections::BTreeMap;

    /// So many that some 1,500 have no audio in TAO.
    const JOBS: usize = 1_800;

    /// How the job with this input ends: the refusal's number, 0 for done,
    /// or None where replies run out.
    fn outcome(bytes: &[u8]) -> (Option<u8>, u64) {
        let mut blocks = bytes.chunks(BLOCK);
        let (mut job, mut answer) = Job::take(blocks.next().unwrap_or(&[]));
        loop {
            match answer {
                Answer::Done => return (Some(0), job.count()),
                Answer::Refused(refusal) => return (Some(refusal.number()), job.count()),
                Answer::Command(_) => {}
            }
            let Some(block) = blocks.next() else {
                return (None, job.count());
            };
            answer = match read_reply(block) {
                Ok(reply) => job.give(&reply),
                Err(refusal) => Answer::Refused(refusal),
            };
        }
    }

    /// What an erasing did in a job: whether an A1h was given, and whether the
    /// job then was done.
    fn erasing(bytes: &[u8]) -> (bool, bool) {
        let mut blocks = bytes.chunks(BLOCK);
        let (mut job, mut answer) = Job::take(blocks.next().unwrap_or(&[]));
        let mut erased = false;
        while let Answer::Command(command) = answer {
            erased |= command.bytes[0] == BLANK;
            let Some(Ok(reply)) = blocks.next().map(read_reply) else {
                return (erased, false);
            };
            answer = job.give(&reply);
        }
        (erased, erased && answer == Answer::Done)
    }

    /// Many random jobs erase a disc, and many of these end as done.
    #[test]
    fn erasings_occur() {
        let mut rng = Rng::new(8);
        let made: Vec<(bool, bool)> = (0..JOBS).map(|_| erasing(&job(&mut rng).bytes)).collect();
        let erased = made.iter().filter(|(erased, _)| *erased).count();
        let done = made.iter().filter(|(_, done)| *done).count();
        assert!(erased > 300 && done > 100, "{erased} {done}");
    }

    /// What a good 52h reply leaves beyond what the tracks from this one on
    /// need: of Free Blocks, and up to the lead-out limit.
    fn spare(order: &Order, index: usize, data: &[u8]) -> [i64; 2] {
        let needed = order.needed_from(index).0 as i64;
        let field = |place: usize| {
            let bytes = data[place..].first_chunk::<4>().unwrap();
            i64::from(u32::from_be_bytes(*bytes))
        };
        [field(16), LAST_ADDRESS - field(12)].map(|room| room - needed)
    }

    /// What each 52h of a TAO job leaves over, the last track's apart.
    fn spares(bytes: &[u8]) -> Vec<[i64; 2]> {
        let mut blocks = bytes.chunks(BLOCK);
        let (mut job, mut answer) = Job::take(blocks.next().unwrap_or(&[]));
        let mut all = Vec::new();
        while let Answer::Command(_) = answer {
            let Some(Ok(reply)) = blocks.next().map(read_reply) else {
                break;
            };
            let order = job.order().unwrap();
            if let Step::ReadTrackInformation(index) = job.step() {
                let charged = order.method == Method::Tao && index + 1 < order.tracks.len();
                if charged && reply.status == Status::Good && reply.data.len() >= 28 {
                    all.push(spare(order, index, &reply.data));
                }
            }
            answer = job.give(&reply);
        }
        all
    }

    /// Of as many random jobs as the gate runs, many 52h replies leave exactly the
    /// room that is charged, many a block less or more.
    #[test]
    fn limits_of_the_charge_occur() {
        let mut rng = Rng::new(6);
        let all: Vec<[i64; 2]> = (0..2_500)
            .flat_map(|_| spares(&job(&mut rng).bytes))
            .collect();
        for sort in [0, 1] {
            for (over, least) in [(0, 60), (-1, 5), (1, 5)] {
                let found = all.iter().filter(|spare| spare[sort] == over).count();
                assert!(found >= least, "{sort} {over}: {found}");
            }
        }
    }

    /// Many random jobs end in 24, with the flag for erasing and without it; of
    /// two tracks the first is audio, the last or both.
    #[test]
    fn audio_in_tao_occurs() {
        let mut rng = Rng::new(9);
        let mut found: BTreeMap<(bool, [u8; 2]), u32> = BTreeMap::new();
        let mut all = 0;
        for _ in 0..2 * JOBS {
            let bytes = job(&mut rng).bytes;
            if outcome(&bytes).0 != Some(24) {
                continue;
            }
            all += 1;
            let order = read_order(&bytes[..BLOCK]).unwrap();
            if let [first, last] = order.tracks[..] {
                let sort = (order.flags.erase, [first.kind.byte(), last.kind.byte()]);
                *found.entry(sort).or_default() += 1;
            }
        }
        assert!(all > 240, "{all}");
        assert!(
            found.len() == 6 && found.values().all(|&n| n > 1),
            "{found:?}"
        );
    }

    /// Half of the TAO jobs go by recipe 1, many of them to their end, polled or
    /// not and of more than one track; and byte 499 is odd in some blocks of either
    /// method, the check being right.
    #[test]
    fn recipes_occur() {
        let mut rng = Rng::new(10);
        let mut taken = [0; 2];
        let mut done: BTreeMap<(u8, bool, bool), u32> = BTreeMap::new();
        let mut refused: BTreeMap<(u8, bool), u32> = BTreeMap::new();
        for _ in 0..2_500 {
            let bytes = job(&mut rng).bytes;
            let Some(block) = bytes.first_chunk::<BLOCK>() else {
                continue;
            };
            match read_order(block) {
                Ok(order) if order.method == Method::Tao => {
                    let recipe = order.recipe.byte();
                    taken[usize::from(recipe)] += 1;
                    if outcome(&bytes).0 == Some(0) {
                        let sort = (recipe, order.flags.immed, order.tracks.len() > 1);
                        *done.entry(sort).or_default() += 1;
                    }
                }
                Err(refusal) if refusal.number() == 3 && block[RECIPE] > 0 => {
                    let sort = (block[1], block[RECIPE] == 1);
                    *refused.entry(sort).or_default() += 1;
                }
                _ => {}
            }
        }
        assert!(taken.iter().all(|&jobs| jobs > 500), "{taken:?}");
        let many = done.len() == 8 && done.values().all(|&jobs| jobs > 15);
        assert!(many, "{done:?}");
        for sort in [(1, false), (2, false), (2, true)] {
            let jobs = refused.get(&sort).copied().unwrap_or(0);
            assert!(jobs > 5, "{sort:?}: {refused:?}");
        }
    }

    #[test]
    fn the_same_seed_gives_the_same_job() {
        let bytes = |seed| job(&mut Rng::new(seed)).bytes;
        assert_eq!(bytes(5), bytes(5));
        assert_ne!(bytes(5), bytes(6));
    }

    /// Random jobs end in every way, and many get deep.
    #[test]
    fn every_ending_occurs() {
        let mut rng = Rng::new(7);
        let mut endings: BTreeMap<Option<u8>, u32> = BTreeMap::new();
        let mut deep = 0;
        for _ in 0..JOBS {
            let (ending, count) = outcome(&job(&mut rng).bytes);
            *endings.entry(ending).or_default() += 1;
            deep += u32::from(count > 10);
        }
        for number in [0, 1, 2, 3, 4, 5, 6, 7, 8, 9, 10, 12, 16, 24] {
            assert!(endings.contains_key(&Some(number)), "{number}: {endings:?}");
        }
        assert!(endings.contains_key(&None));
        assert!(deep > 600, "{deep}: {endings:?}");
    }
}
