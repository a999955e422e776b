//! A plausible drive: it answers each command properly, going by the
//! command's bytes alone.

use second::blocks::{Reply, Status};
use second::commands::{
    has_immed, BLANK, CLOSE_TRACK, CLOSE_TRACK_SESSION, GET_CONFIGURATION, READ_DISC_INFORMATION,
    READ_TRACK_INFORMATION, REQUEST_SENSE, SYNCHRONIZE_CACHE, TEST_UNIT_READY, WRITE,
};
use second::rng::Rng;
use second::wellformed::{
    disc_reply, profile_reply, progress_reply, sense_reply, track_reply, TrackFields,
};

#[derive(Clone, Debug)]
pub struct Drive {
    pub profile: u16,
    /// Disc status, 0 to 3.
    pub disc: u8,
    pub erasable: bool,
    /// Disc status after an A1h; 0 where the drive works.
    pub erased: u8,
    pub next_writable: u32,
    pub free: u32,
    /// Blocks between a closed track and the next one's start.
    pub gap: u32,
    /// Closes a track when the cache is forced out (document 02, Ask 7).
    pub newer: bool,
    /// A track has blocks and is not closed yet.
    pub open: bool,
    /// Fills the bytes that nobody reads with noise, and varies lengths.
    pub noisy: bool,
    pub polling: Polling,
}

/// How a drive answers polls after a command with Immed.
#[derive(Clone, Debug)]
pub struct Polling {
    /// Progress is reported at most this often.
    most_rounds: u64,
    /// In how many of a hundred cases a 00h fails meanwhile.
    unready_percent: u64,
    /// Progress still to be reported, the next one last.
    left: Vec<u16>,
}

impl Polling {
    pub fn new(most_rounds: u64, unready_percent: u64) -> Polling {
        Polling {
            most_rounds,
            unready_percent,
            left: Vec::new(),
        }
    }

    /// Work begins: progress rises from round to round.
    fn start(&mut self, rng: &mut Rng) {
        let rounds = rng.below(self.most_rounds + 1);
        let edges = [0, 1, 0xFF, 0x100, 0x8000, 0xFFFF];
        self.left = (0..rounds)
            .map(|_| {
                let any = rng.next_u64() as u16;
                let edge = rng.pick(&edges);
                rng.pick(&[any, any, any, edge])
            })
            .collect();
        self.left.sort_unstable();
        self.left.reverse();
    }

    fn ready(&self, rng: &mut Rng) -> Reply {
        let percent = if self.left.is_empty() {
            self.unready_percent / 8
        } else {
            self.unready_percent
        };
        if !rng.chance(percent) {
            return Reply::good(&[]);
        }
        let ascq = rng.pick(&[0x00, 0x01, 0x04, 0x07, 0x08, 0x08, 0xFF]);
        sense_reply(rng.pick(&[0x70, 0xF0]), 0x02, 0x04, ascq)
    }

    fn sense(&mut self) -> Reply {
        progress_reply(self.left.pop().unwrap_or(0))
    }
}

impl Drive {
    pub fn answer(&mut self, command: &[u8], rng: &mut Rng) -> Reply {
        if has_immed(command) {
            self.polling.start(rng);
        }
        let reply = match command[0] {
            GET_CONFIGURATION => profile_reply(self.profile),
            READ_DISC_INFORMATION => disc_reply(self.disc, self.erasable),
            READ_TRACK_INFORMATION => track_reply(self.track_fields()),
            BLANK => self.erase(),
            WRITE => self.write(command),
            SYNCHRONIZE_CACHE if self.newer => self.close(),
            CLOSE_TRACK_SESSION if command[2] == CLOSE_TRACK => self.close(),
            TEST_UNIT_READY => self.polling.ready(rng),
            REQUEST_SENSE => self.polling.sense(),
            _ => Reply::good(&[]),
        };
        if self.noisy {
            noise(command[0], reply, rng)
        } else {
            reply
        }
    }

    pub fn track_fields(&self) -> TrackFields {
        TrackFields {
            next_writable: self.next_writable,
            free: self.free,
            damaged: false,
            address_valid: true,
        }
    }

    fn erase(&mut self) -> Reply {
        self.disc = self.erased;
        Reply::good(&[])
    }

    /// The track grows; what is free shrinks.
    fn write(&mut self, command: &[u8]) -> Reply {
        let address = i32::from_be_bytes([command[2], command[3], command[4], command[5]]);
        let count = u32::from(command[8]);
        self.open = true;
        let end = i64::from(address) + i64::from(count);
        if let Ok(end) = u32::try_from(end) {
            self.next_writable = end;
        }
        if address >= 0 {
            self.free = self.free.saturating_sub(count);
        }
        Reply::good(&[])
    }

    /// The next track starts behind the gap. A track is closed once.
    fn close(&mut self) -> Reply {
        if self.open {
            self.open = false;
            self.next_writable = self.next_writable.saturating_add(self.gap);
            self.free = self.free.saturating_sub(self.gap);
        }
        Reply::good(&[])
    }
}

/// The same reply with noise in all that documents 01 and 02 don't read.
pub fn noise(code: u8, mut reply: Reply, rng: &mut Rng) -> Reply {
    let failed = reply.status == Status::Failed;
    let data = &mut reply.data;
    match code {
        _ if failed => sense_noise(data, rng),
        REQUEST_SENSE => progress_noise(data, rng),
        GET_CONFIGURATION => {
            let more = rng.below(40) as usize;
            data.extend(rng.bytes(more));
            data[..4].copy_from_slice(&(rng.between(4, 70_000) as u32).to_be_bytes());
            noise_at(data, rng, &[4, 5]);
        }
        READ_DISC_INFORMATION => {
            let more = rng.below(10) as usize;
            data.extend(rng.bytes(more));
            data[..2].copy_from_slice(&(rng.between(32, 65_535) as u16).to_be_bytes());
            // The state of the last session.
            data[2] |= rng.byte() & 0x0C;
            let rest: Vec<usize> = (3..34).collect();
            noise_at(data, rng, &rest);
        }
        READ_TRACK_INFORMATION => {
            data.truncate(rng.pick(&[28, 32, 36, 48]));
            data[..2].copy_from_slice(&(rng.between(26, 300) as u16).to_be_bytes());
            data[5] |= rng.byte() & !0x20;
            data[7] |= rng.byte() & !0x01;
            let rest: Vec<usize> = [2, 3, 4, 6]
                .into_iter()
                .chain(8..12)
                .chain(20..28)
                .collect();
            noise_at(data, rng, &rest);
        }
        _ => {
            let length = rng.pick(&[0, 0, 0, 0, 1, 4, 14, 18]);
            *data = rng.bytes(length);
        }
    }
    reply
}

/// Code, key, ASC and ASCQ stay.
fn sense_noise(data: &mut [u8], rng: &mut Rng) {
    data[2] |= rng.byte() & 0xF0;
    let rest: Vec<usize> = [1].into_iter().chain(3..12).chain(14..data.len()).collect();
    noise_at(data, rng, &rest);
}

/// Progress stays, and whether it is valid.
fn progress_noise(data: &mut Vec<u8>, rng: &mut Rng) {
    let more = rng.pick(&[0, 0, 1, 40]);
    data.extend(rng.bytes(more));
    let rest: Vec<usize> = (0..15).chain(18..data.len()).collect();
    noise_at(data, rng, &rest);
    data[15] |= rng.byte() & 0x7F;
    if data[15] < 0x80 {
        noise_at(data, rng, &[16, 17]);
    }
}

fn noise_at(data: &mut [u8], rng: &mut Rng, places: &[usize]) {
    for &place in places {
        data[place] = rng.byte();
    }
}
