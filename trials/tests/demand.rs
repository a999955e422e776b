//! Demand 3 of the order for work, watched from outside over random jobs: the
//! recorded blocks are a beginning of the ordered ones, no address takes two
//! blocks, done means recorded and closed by the order's recipe, every polling
//! ended, and the count without polls is that of document 01 or of Ask 7, with 2
//! more for an erasing. Under recipe 1 no 5Bh function 1 is given. No disc is erased
//! for an order known to be bad, and audio in TAO gets no command but those of the
//! opening. Replies to an ended job are 13 and change nothing.

use second::blocks::{read_order, read_reply, Reply, Status, BLOCK, RECIPE};
use second::commands::{
    BLANK, CLOSE_TRACK_SESSION, GET_CONFIGURATION, READ_DISC_INFORMATION, READ_TRACK_INFORMATION,
    REQUEST_SENSE, SYNCHRONIZE_CACHE, TEST_UNIT_READY, WRITE,
};
use second::job::{Answer, Command, Job};
use second::refusal::Refusal;
use second::rng::Rng;
use second::units::{Kind, Method, Order, Recipe};
use trials::{corners, random};

/// What the good replies have brought about so far.
#[derive(Default)]
struct Watch {
    /// Track blocks recorded, in the order of the tracks.
    recorded: u64,
    /// End of the latest WRITE answered good.
    end: Option<i32>,
    synchronized: usize,
    tracks_closed: usize,
    sessions_closed: usize,
    /// Whether a polling goes on, and whether its latest 00h was good.
    polling: bool,
    ready: bool,
    /// The profile, byte 2 of each good 51h, and how often A1h was answered good.
    profile: [u8; 2],
    discs: Vec<u8>,
    erased: usize,
}

impl Watch {
    fn reply(&mut self, order: &Order, command: &Command, reply: &Reply) {
        let good = reply.status == Status::Good;
        assert_eq!(self.polling, is_poll(command), "a poll out of place");
        match command.bytes[0] {
            BLANK => self.may_erase(order),
            WRITE => self.may_write(order),
            _ => {}
        }
        match command.bytes[0] {
            GET_CONFIGURATION if good && reply.data.len() >= 8 => {
                self.profile.copy_from_slice(&reply.data[6..8]);
            }
            READ_DISC_INFORMATION if good && reply.data.len() > 2 => self.discs.push(reply.data[2]),
            TEST_UNIT_READY => self.ready = good,
            REQUEST_SENSE if good && self.ready && progress(&reply.data) == Some(0) => {
                self.polling = false;
            }
            _ if good => self.good(order, command),
            _ => {}
        }
    }

    /// An A1h is given: the flag is set, the disc is a used CD-RW that says
    /// Erasable, nothing is erased or recorded yet, and the order is fit.
    fn may_erase(&self, order: &Order) {
        assert!(order.flags.erase && self.profile == [0, 0x0A]);
        assert!(matches!(
            self.discs[..],
            [0x11 | 0x12 | 0x15 | 0x16 | 0x19 | 0x1A | 0x1D | 0x1E]
        ));
        assert!(self.erased == 0 && self.end.is_none());
        let kinds = order.tracks.windows(2).all(|w| w[0].kind == w[1].kind);
        assert!(order.method == Method::Tao || (kinds && !order.flags.keep));
        assert!(order.tracks.iter().all(|track| track.length >= 300));
        assert!(charged(order) <= 404_849);
    }

    /// A WRITE is given: with the flag the latest 51h said blank, and a disc
    /// that was used is erased.
    fn may_write(&self, order: &Order) {
        assert_eq!(self.discs.len(), 1 + self.erased);
        if order.flags.erase {
            let statuses: Vec<u8> = self.discs.iter().map(|byte| byte % 4).collect();
            assert!(matches!(statuses[..], [0] | [1 | 2, 0]));
        } else {
            assert_eq!(self.erased, 0);
        }
    }

    fn good(&mut self, order: &Order, command: &Command) {
        let bytes = command.bytes;
        let closing = match (bytes[0], bytes[2]) {
            (BLANK, _) => &mut self.erased,
            (SYNCHRONIZE_CACHE, _) => &mut self.synchronized,
            (CLOSE_TRACK_SESSION, 1) => &mut self.tracks_closed,
            (CLOSE_TRACK_SESSION, _) => &mut self.sessions_closed,
            _ => return self.recorded(order, command),
        };
        *closing += 1;
        self.polling = order.flags.immed;
        let (plain, immed) = match bytes[0] {
            BLANK => (0x01, 0x11),
            SYNCHRONIZE_CACHE => (0, 2),
            _ => (0, 1),
        };
        assert_eq!(bytes[1], if order.flags.immed { immed } else { plain });
    }

    fn recorded(&mut self, order: &Order, command: &Command) {
        let bytes = command.bytes;
        let Some(blocks) = command.blocks else { return };
        let address = i32::from_be_bytes([bytes[2], bytes[3], bytes[4], bytes[5]]);
        assert!(
            self.end.is_none_or(|end| address >= end),
            "an address twice"
        );
        self.end = Some(address + blocks.count.0 as i32);
        if blocks.track.0 > 0 {
            let before = usize::from(blocks.track.0) - 1;
            let earlier = order.blocks_from(0).0 - order.blocks_from(before).0;
            assert_eq!(
                earlier + blocks.first.0,
                self.recorded,
                "not the next block"
            );
            let length = u64::from(order.tracks[before].length);
            assert!(
                blocks.first.0 + blocks.count.0 <= length,
                "beyond its track"
            );
            self.recorded += blocks.count.0;
        }
    }

    fn recorded_and_closed(&self, order: &Order) -> bool {
        let tracks = order.tracks.len();
        let closings = match (order.method, order.recipe) {
            (Method::Tao, Recipe::Old) => (tracks, tracks, 1),
            (Method::Tao, Recipe::New) => (tracks, 0, 1),
            (Method::Sao, _) => (1, 0, 0),
        };
        let closed = (self.synchronized, self.tracks_closed, self.sessions_closed) == closings;
        closed && !self.polling && self.recorded == order.blocks_from(0).0
    }
}

/// Document 02, Ask 12: with an audio track in TAO 46h, 51h and 52h alone are
/// given, with the flag for erasing 46h and 51h.
fn may_give_to_audio(order: &Order, code: u8) -> bool {
    let audio = order.tracks.iter().any(|track| track.kind == Kind::Audio);
    match code {
        _ if order.method == Method::Sao || !audio => true,
        READ_TRACK_INFORMATION => !order.flags.erase,
        _ => [GET_CONFIGURATION, READ_DISC_INFORMATION].contains(&code),
    }
}

/// Document 02, Ask 7: 5Bh function 1 is given under recipe 0 alone, and no 5Bh at
/// all in SAO.
fn may_close(order: &Order, command: &Command) -> bool {
    let [code, _, function, ..] = *command.bytes else {
        return false;
    };
    match (order.method, order.recipe) {
        _ if code != CLOSE_TRACK_SESSION => true,
        (Method::Tao, Recipe::Old) => true,
        (Method::Tao, Recipe::New) => function == 2,
        (Method::Sao, _) => false,
    }
}

fn is_poll(command: &Command) -> bool {
    [TEST_UNIT_READY, REQUEST_SENSE].contains(&command.bytes[0])
}

/// The progress of a good 03h reply's data.
fn progress(data: &[u8]) -> Option<u32> {
    let &[flags, high, low] = data.get(15..18)? else {
        return None;
    };
    let valid = u32::from(flags / 128);
    Some(valid * (256 * u32::from(high) + u32::from(low)))
}

/// S of a whole order, in TAO with 152 blocks for each track after the first.
fn charged(order: &Order) -> u64 {
    let between = match order.method {
        Method::Tao => 152 * (order.tracks.len() as u64 - 1),
        Method::Sao => 0,
    };
    order.blocks_from(0).0 + between
}

/// The count of an all-good job.
fn all_good_count(order: &Order) -> u64 {
    let lengths = order.tracks.iter().map(|track| u64::from(track.length));
    let writes: u64 = lengths.map(|length| length.div_ceil(16)).sum();
    let tracks = order.tracks.len() as u64;
    match (order.method, order.recipe) {
        (Method::Tao, Recipe::Old) => 4 * tracks + 3 + writes,
        (Method::Tao, Recipe::New) => 3 * tracks + 3 + writes,
        (Method::Sao, _) => 16 + writes,
    }
}

/// Follows a job to its end; true where it is done.
fn follow(bytes: &[u8]) -> bool {
    let mut blocks = bytes.chunks(BLOCK);
    let first = blocks.next().unwrap_or(&[]);
    let (mut job, mut answer) = Job::take(first);
    let Ok(order) = read_order(first) else {
        assert!(matches!(answer, Answer::Refused(_)) && job.count() == 0);
        return false;
    };
    let mut watch = Watch::default();
    let (mut given, mut polls, mut busy) = (1, 0, 0);
    for reply in blocks.map_while(|block| read_reply(block).ok()) {
        let Answer::Command(command) = answer else {
            assert_eq!(job.give(&reply), Answer::Refused(Refusal::Ended));
            assert_eq!(job.count(), given);
            continue;
        };
        assert!(!watch.recorded_and_closed(&order));
        watch.reply(&order, &command, &reply);
        answer = job.give(&reply);
        if let Answer::Command(next) = answer {
            assert!(may_give_to_audio(&order, next.bytes[0]), "audio in TAO");
            assert!(may_close(&order, &next), "a 5Bh out of place");
            given += 1;
            polls += u64::from(is_poll(&next));
            let again = reply.status == Status::Failed && command.bytes[0] != TEST_UNIT_READY;
            assert!(!again || next == command, "busy moves on");
            busy += u64::from(again && !is_poll(&command));
        }
        assert_eq!(job.count(), given);
    }
    let done = answer == Answer::Done;
    assert_eq!(done, watch.recorded_and_closed(&order));
    assert!(order.flags.immed || polls == 0);
    if done {
        let erasing = 2 * watch.erased as u64;
        assert_eq!(job.count() - polls, all_good_count(&order) + erasing + busy);
    }
    done
}

#[test]
fn random_jobs_keep_demand_3() {
    let mut rng = Rng::new(2026);
    let mut done = [0; 2];
    for _ in 0..1_500 {
        let bytes = random::job(&mut rng).bytes;
        if follow(&bytes) {
            done[usize::from(bytes[RECIPE])] += 1;
        }
    }
    assert!(done[0] > 250 && done[1] > 50, "{done:?}");
}

/// Of the corner jobs, too; those with bad blocks end there.
#[test]
fn corner_jobs_keep_demand_3() {
    let done = corners::corners()
        .iter()
        .filter(|corner| follow(&corner.bytes) == corner.ends.starts_with("done"))
        .count();
    assert_eq!(done, corners::corners().len());
}
