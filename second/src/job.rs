//! The plain job of document 01, "Recording rules", with the polling and the
//! erasing of document 02, Asks 1 and 2, what Ask 6 charges for the room between
//! tracks, Ask 7's two recipes, and Ask 12's end of audio in TAO: an order is
//! taken, then replies are given; each time a command, the end as done, or a
//! refusal comes out.
//!
//! The job is a flat list of steps with a place in it. The three opening
//! steps stand there from the start; the others are laid down once the third
//! reply has passed the checks, so that the list stays short. With Immed, a
//! 00h and a 03h stand behind each 35h, 5Bh and A1h; they are gone through
//! until the drive has finished. With the flag for erasing, the first 51h's
//! reply is judged at once, and where the disc is used an A1h and a second 51h
//! are put in ahead of the 52h.

use crate::blocks::{read_order, Reply, Status};
use crate::commands::{self, Bytes, CLOSE_SESSION, CLOSE_TRACK, MOST_BLOCKS};
use crate::refusal::{require, Refusal};
use crate::replies::{self, Disc, DiscInformation, Failure, TrackInformation};
use crate::sheet::{ENTRY, MORE_ENTRIES};
use crate::units::{
    check_lead_out, Address, BlockCount, Method, Order, Recipe, TrackNumber, PAUSE_START,
};

/// The pause ahead of track 1 in SAO.
const PAUSE: u64 = 150;
/// 5Bh function 1 closes the track with this number.
const INVISIBLE_TRACK: TrackNumber = TrackNumber(0xFF);
/// The profiles of the discs that are recorded.
const CD_R: u16 = 0x0009;
const CD_RW: u16 = 0x000A;

/// The blocks a WRITE takes: of track 0 (the pause) or a track from 1, from
/// this first block, counted from 0.
#[derive(Clone, Copy, PartialEq, Eq, Debug)]
pub struct Blocks {
    pub track: TrackNumber,
    pub first: BlockCount,
    pub count: BlockCount,
}

/// A command is its bytes and, for a WRITE, its track, first block and count.
#[derive(Clone, Copy, PartialEq, Eq, Debug)]
pub struct Command {
    pub bytes: Bytes,
    pub blocks: Option<Blocks>,
}

#[derive(Clone, Copy, PartialEq, Eq, Debug)]
pub enum Answer {
    Command(Command),
    Done,
    Refused(Refusal),
}

/// A place in the sequence of commands. An index is that of the track.
#[derive(Clone, Copy, PartialEq, Eq, Debug)]
pub enum Step {
    GetConfiguration,
    ReadDiscInformation,
    /// A1h, where a used disc is erased.
    Blank,
    /// 51h anew, after an erasing.
    ReadDiscAgain,
    /// 52h ahead of its track.
    ReadTrackInformation(usize),
    ModeSelect(usize),
    SendCueSheet,
    Write(Blocks),
    /// In SAO with the last track's index.
    SynchronizeCache(usize),
    /// 5Bh function 1, under recipe 0 alone.
    CloseTrack(usize),
    CloseSession,
    TestUnitReady,
    RequestSense,
}

const OPENING: [Step; 3] = [
    Step::GetConfiguration,
    Step::ReadDiscInformation,
    Step::ReadTrackInformation(0),
];

#[derive(Clone, Debug)]
pub struct Job {
    /// None: the order was refused as 1 to 3.
    order: Option<Order>,
    steps: Vec<Step>,
    place: usize,
    ended: bool,
    /// Fields read from 46h and the first 51h.
    profile: u16,
    disc: DiscInformation,
    /// Where the next WRITE starts: at the address of the latest 52h in TAO,
    /// at -150 in SAO, afterwards where the last good WRITE ended.
    address: Address,
    /// Whether the latest 00h was answered good.
    ready: bool,
    /// What the latest good 03h of the polling said; 0 before its first.
    progress: u16,
    /// Commands given, repeats and polls too.
    count: u64,
}

impl Job {
    /// Takes an order block. An order that 1 to 3 refuse gives no command.
    pub fn take(order_block: &[u8]) -> (Job, Answer) {
        match read_order(order_block) {
            Ok(order) => {
                let mut job = Job::new(Some(order));
                let answer = job.command();
                (job, answer)
            }
            Err(refusal) => {
                let mut job = Job::new(None);
                let answer = job.end(Answer::Refused(refusal));
                (job, answer)
            }
        }
    }

    fn new(order: Option<Order>) -> Job {
        Job {
            order,
            steps: OPENING.to_vec(),
            place: 0,
            ended: false,
            profile: 0,
            disc: DiscInformation {
                status: Disc::Other,
                erasable: false,
            },
            address: Address(PAUSE_START),
            ready: false,
            progress: 0,
            count: 0,
        }
    }

    /// The order, unless it was refused as 1 to 3.
    pub fn order(&self) -> Option<&Order> {
        self.order.as_ref()
    }

    /// The step whose command was given last.
    pub fn step(&self) -> Step {
        // The place moves past the last step only where the job ends.
        self.steps[self.place.min(self.steps.len() - 1)]
    }

    /// The latest progress of a polling under way, else 0.
    pub fn progress(&self) -> u16 {
        match self.step() {
            Step::TestUnitReady | Step::RequestSense if !self.ended => self.progress,
            _ => 0,
        }
    }

    /// The number of commands given since the order was taken.
    pub fn count(&self) -> u64 {
        self.count
    }

    pub fn ended(&self) -> bool {
        self.ended
    }

    /// Gives one reply: one step of the plain job.
    pub fn give(&mut self, reply: &Reply) -> Answer {
        if self.ended {
            return Answer::Refused(Refusal::Ended);
        }
        match reply.status {
            Status::Failed => self.failed(&reply.data),
            Status::Good => self.good(&reply.data),
        }
    }

    /// Busy: the same command again. Failed otherwise: the end, 12. A 00h is
    /// never busy; after one that is not ready the 03h follows all the same.
    fn failed(&mut self, data: &[u8]) -> Answer {
        if self.step() == Step::TestUnitReady && replies::not_ready(data) {
            self.ready = false;
            self.place += 1;
            return self.command();
        }
        match replies::failure(data) {
            Failure::Busy => self.command(),
            Failure::Stop(sense) => self.end(Answer::Refused(Refusal::Failed(sense))),
        }
    }

    /// Good: the end with the number judged there, else the next command,
    /// after the last one the end as done.
    fn good(&mut self, data: &[u8]) -> Answer {
        if let Err(refusal) = self.judge(data) {
            return self.end(Answer::Refused(refusal));
        }
        if self.goes_round() {
            self.place -= 1;
        } else {
            self.place += 1;
        }
        if self.place < self.steps.len() {
            self.command()
        } else {
            self.end(Answer::Done)
        }
    }

    /// After a good 03h: 00h comes again, until it succeeds and the 03h after
    /// it reports progress 0.
    fn goes_round(&self) -> bool {
        let finished = self.ready && self.progress == 0;
        self.step() == Step::RequestSense && !finished
    }

    fn end(&mut self, answer: Answer) -> Answer {
        self.ended = true;
        answer
    }

    /// Reads and judges the good reply to the step at the job's place. The
    /// data of a reply to a data-less command is ignored.
    fn judge(&mut self, data: &[u8]) -> Result<(), Refusal> {
        match self.step() {
            Step::GetConfiguration => self.profile = replies::profile(data)?,
            Step::ReadDiscInformation => {
                self.disc = replies::disc(data)?;
                self.judge_disc()?;
            }
            Step::ReadDiscAgain => check_erased(replies::disc(data)?)?,
            Step::ReadTrackInformation(index) => {
                let info = replies::track_information(data)?;
                self.judge_track(index, info)?;
            }
            Step::Write(blocks) => self.address = self.address.after(blocks.count),
            Step::TestUnitReady => self.ready = true,
            Step::RequestSense => self.progress = replies::progress(data)?,
            Step::SynchronizeCache(_) | Step::CloseTrack(_) | Step::CloseSession | Step::Blank => {
                // A polling may begin here.
                self.progress = 0;
            }
            Step::ModeSelect(_) | Step::SendCueSheet => {}
        }
        Ok(())
    }

    /// After the first 51h, with the flag for erasing alone: 5, 6 for status 3,
    /// 24, 8, 9, 10 for S alone (charged by Ask 6), 16. The steps of an erasing
    /// come next where the disc is used.
    fn judge_disc(&mut self) -> Result<(), Refusal> {
        let Some(order) = self.order.as_ref().filter(|order| order.flags.erase) else {
            return Ok(());
        };
        check_profile(self.profile)?;
        require(self.disc.status != Disc::Other, Refusal::DiscStatus)?;
        check_order(order)?;
        check_lead_out(Address(0).after(order.needed_from(0)))?;
        if self.disc.status != Disc::Blank {
            check_erasable(self.profile, self.disc)?;
            let next = self.place + 1;
            self.steps.splice(next..next, erasing(order));
        }
        Ok(())
    }

    /// After the opening's 52h 5, 6, 7, 24, 8, 9, 10, at a later 52h 7 and 10.
    /// With the flag for erasing all but 7 and 10 were judged before.
    fn judge_track(&mut self, index: usize, info: TrackInformation) -> Result<(), Refusal> {
        let Some(order) = &self.order else {
            return Err(Refusal::Field);
        };
        let judge_all = index == 0 && !order.flags.erase;
        if judge_all {
            check_profile(self.profile)?;
            check_disc(order.method, self.disc.status)?;
        }
        let previous_end = (index > 0).then_some(self.address);
        check_usable(order.method, info, previous_end)?;
        if judge_all {
            check_order(order)?;
        }
        check_fit(order, index, info)?;
        self.address = start(order.method, info);
        if index == 0 {
            self.steps.extend(recording(order));
        }
        Ok(())
    }

    /// Gives the command at the job's place.
    fn command(&mut self) -> Answer {
        let step = self.step();
        match self.bytes(step) {
            Ok(bytes) => {
                self.count = self.count.saturating_add(1);
                let blocks = match step {
                    Step::Write(blocks) => Some(blocks),
                    _ => None,
                };
                Answer::Command(Command { bytes, blocks })
            }
            // The checks keep every number within its maker's range.
            Err(refusal) => self.end(Answer::Refused(refusal)),
        }
    }

    fn bytes(&self, step: Step) -> Result<Bytes, Refusal> {
        let immed = self.order().is_some_and(|order| order.flags.immed);
        Ok(match step {
            Step::GetConfiguration => commands::get_configuration(),
            Step::ReadDiscInformation | Step::ReadDiscAgain => commands::read_disc_information(),
            Step::Blank => commands::blank(immed),
            Step::ReadTrackInformation(_) => commands::read_track_information(),
            Step::ModeSelect(_) => commands::mode_select(),
            Step::SendCueSheet => commands::send_cue_sheet(self.sheet_length())?,
            Step::Write(blocks) => commands::write(self.address, blocks.count)?,
            Step::SynchronizeCache(_) => commands::synchronize_cache(immed),
            Step::CloseTrack(_) => {
                commands::close_track_session(CLOSE_TRACK, INVISIBLE_TRACK, immed)?
            }
            Step::CloseSession => {
                commands::close_track_session(CLOSE_SESSION, TrackNumber(0), immed)?
            }
            Step::TestUnitReady => commands::test_unit_ready(),
            Step::RequestSense => commands::request_sense(),
        })
    }

    fn sheet_length(&self) -> u64 {
        let tracks = self.order().map_or(0, |order| order.tracks.len());
        (ENTRY * (tracks + MORE_ENTRIES)) as u64
    }
}

/// Number 5.
fn check_profile(profile: u16) -> Result<(), Refusal> {
    require(profile == CD_R || profile == CD_RW, Refusal::Profile)
}

/// Number 6: TAO needs blank or appendable, SAO needs blank.
fn check_disc(method: Method, disc: Disc) -> Result<(), Refusal> {
    let suitable = match method {
        Method::Tao => disc == Disc::Blank || disc == Disc::Appendable,
        Method::Sao => disc == Disc::Blank,
    };
    require(suitable, Refusal::DiscStatus)
}

/// Number 6 after an erasing: the disc is blank, in TAO too. Erasable is not
/// judged again.
fn check_erased(disc: DiscInformation) -> Result<(), Refusal> {
    require(disc.status == Disc::Blank, Refusal::DiscStatus)
}

/// Number 16, of a used disc that is to be erased.
fn check_erasable(profile: u16, disc: DiscInformation) -> Result<(), Refusal> {
    require(profile == CD_RW && disc.erasable, Refusal::NotErasable)
}

/// Number 7: Damage set; or, in TAO, NWA_V clear or an address below the end
/// of the job's previous track.
fn check_usable(
    method: Method,
    info: TrackInformation,
    previous_end: Option<Address>,
) -> Result<(), Refusal> {
    require(!info.damage, Refusal::TrackInformation)?;
    if method == Method::Tao {
        require(info.address_valid, Refusal::TrackInformation)?;
        let stale = previous_end.is_some_and(|end| info.next_writable < end);
        require(!stale, Refusal::TrackInformation)?;
    }
    Ok(())
}

/// Numbers 24, 8 and 9, which are of the order alone.
fn check_order(order: &Order) -> Result<(), Refusal> {
    order.check_audio()?;
    order.check_session()?;
    order.check_lengths()
}

/// Number 10: S, which Ask 6 charges in TAO, is at most Free Blocks, and the
/// lead-out at most 404,849. In TAO the lead-out stands at the Next Writable
/// Address plus S, in SAO at S.
fn check_fit(order: &Order, index: usize, info: TrackInformation) -> Result<(), Refusal> {
    let needed = order.needed_from(index);
    require(needed <= info.free, Refusal::Fit)?;
    let base = match order.method {
        Method::Tao => info.next_writable,
        Method::Sao => Address(0),
    };
    check_lead_out(base.after(needed))
}

/// Where the first WRITE after a 52h starts.
fn start(method: Method, info: TrackInformation) -> Address {
    match method {
        Method::Tao => info.next_writable,
        Method::Sao => Address(PAUSE_START),
    }
}

/// The steps of an erasing: A1h, its polling, 51h anew.
fn erasing(order: &Order) -> Vec<Step> {
    let mut steps = polled(order, Step::Blank);
    steps.push(Step::ReadDiscAgain);
    steps
}

/// All steps after the opening.
fn recording(order: &Order) -> Vec<Step> {
    match order.method {
        Method::Tao => tao(order),
        Method::Sao => sao(order),
    }
}

/// TAO, each track: 52h before each but the first; 55h; WRITEs; 35h; under
/// recipe 0 5Bh function 1. After the last track: 5Bh function 2. Pollings come
/// behind.
fn tao(order: &Order) -> Vec<Step> {
    let mut steps = Vec::new();
    for (index, track) in order.tracks.iter().enumerate() {
        if index > 0 {
            steps.push(Step::ReadTrackInformation(index));
        }
        steps.push(Step::ModeSelect(index));
        steps.extend(writes(number(index), track.length.into()));
        steps.extend(polled(order, Step::SynchronizeCache(index)));
        match order.recipe {
            Recipe::Old => steps.extend(polled(order, Step::CloseTrack(index))),
            Recipe::New => {}
        }
    }
    steps.extend(polled(order, Step::CloseSession));
    steps
}

/// SAO: 55h; 5Dh; WRITEs of the pause; the tracks; 35h.
fn sao(order: &Order) -> Vec<Step> {
    let mut steps = vec![Step::ModeSelect(0), Step::SendCueSheet];
    steps.extend(writes(TrackNumber(0), PAUSE));
    for (index, track) in order.tracks.iter().enumerate() {
        steps.extend(writes(number(index), track.length.into()));
    }
    let last = order.tracks.len() - 1;
    steps.extend(polled(order, Step::SynchronizeCache(last)));
    steps
}

/// A 35h, 5Bh or A1h, with Immed the polling behind it.
fn polled(order: &Order, step: Step) -> Vec<Step> {
    if order.flags.immed {
        vec![step, Step::TestUnitReady, Step::RequestSense]
    } else {
        vec![step]
    }
}

fn number(index: usize) -> TrackNumber {
    TrackNumber(index as u16 + 1)
}

/// A WRITE takes the lesser of 16 and what is left of its pause or track.
fn writes(track: TrackNumber, length: u64) -> impl Iterator<Item = Step> {
    (0..length).step_by(MOST_BLOCKS as usize).map(move |first| {
        let count = BlockCount(MOST_BLOCKS.min(length - first));
        let first = BlockCount(first);
        Step::Write(Blocks {
            track,
            first,
            count,
        })
    })
}

#[cfg(test)]
mod tests {
    use super::*;
    use crate::blocks::{seal, BLOCK};
    use crate::hex::plain;
    use crate::refusal::Sense;
    use crate::wellformed::{
        disc_reply, profile_reply, progress_reply, sense_reply, track_reply, TrackFields,
    };
    use text::jobs::blocks_of;

    /// The block of an order in plain text, the word `order` left out.
    fn order(line: &str) -> [u8; BLOCK] {
        let block = blocks_of(&format!("order {line}\n")).unwrap();
        block.try_into().unwrap()
    }

    fn take(line: &str) -> (Job, Answer) {
        Job::take(&order(line))
    }

    fn track(next_writable: u32, free: u32) -> Reply {
        track_reply(TrackFields {
            next_writable,
            free,
            damaged: false,
            address_valid: true,
        })
    }

    /// Damage, and no free block.
    fn damaged() -> Reply {
        track_reply(TrackFields {
            next_writable: 0,
            free: 0,
            damaged: true,
            address_valid: true,
        })
    }

    fn opening(disc: u8, third: Reply) -> Vec<Reply> {
        vec![profile_reply(9), disc_reply(disc, false), third]
    }

    fn give_all(job: &mut Job, replies: &[Reply]) -> Answer {
        let mut answer = Answer::Done;
        for reply in replies {
            answer = job.give(reply);
        }
        answer
    }

    /// Answers all good; 52h replies come from the list. Gives the last
    /// answer and every WRITE with its address.
    fn run(line: &str, disc: u8, infos: &[Reply]) -> (Job, Answer, Vec<(i32, Blocks)>) {
        let (mut job, mut answer) = take(line);
        let mut infos = infos.iter();
        let mut writes = Vec::new();
        while let Answer::Command(command) = answer {
            let reply = match command.bytes[0] {
                commands::GET_CONFIGURATION => profile_reply(9),
                commands::READ_DISC_INFORMATION => disc_reply(disc, false),
                commands::READ_TRACK_INFORMATION => infos.next().unwrap().clone(),
                _ => Reply::good(&[]),
            };
            if let Some(blocks) = command.blocks {
                let b = command.bytes;
                let address = i32::from_be_bytes([b[2], b[3], b[4], b[5]]);
                assert_eq!(u64::from(b[8]), blocks.count.0);
                writes.push((address, blocks));
            }
            answer = job.give(&reply);
        }
        (job, answer, writes)
    }

    fn stop(line: &str, disc: u8, third: Reply) -> (Answer, u64) {
        let (job, answer, _) = run(line, disc, &[third]);
        (answer, job.count())
    }

    fn refused(refusal: Refusal) -> Answer {
        Answer::Refused(refusal)
    }

    /// Bench sheet: one track of 300: TAO 26 commands, SAO 35. TAO 300 and
    /// 317: 50.
    #[test]
    fn bench_command_counts() {
        let (job, answer, _) = run("tao data 300", 0, &[track(0, 300)]);
        assert_eq!((answer, job.count()), (Answer::Done, 26));
        let (job, answer, _) = run("sao audio 300", 0, &[track(0, 300)]);
        assert_eq!((answer, job.count()), (Answer::Done, 35));
        let infos = [track(7, 617 + 152), track(307, 317)];
        let (job, answer, _) = run("tao data 300 data 317", 1, &infos);
        assert_eq!((answer, job.count()), (Answer::Done, 50));
    }

    /// Bench sheet: length 299: 9. Length 300 passes.
    #[test]
    fn bench_lengths() {
        for method in ["tao", "sao"] {
            let short = stop(&format!("{method} data 299"), 0, track(0, 9_999));
            assert_eq!(short, (refused(Refusal::ShortTrack), 3));
            let passes = stop(&format!("{method} data 300"), 0, track(0, 9_999));
            assert_eq!(passes.0, Answer::Done);
        }
    }

    /// Bench sheet: S equal to Free Blocks passes; one more: 10.
    #[test]
    fn bench_free_blocks() {
        for line in ["tao data 400", "sao audio 400"] {
            assert_eq!(stop(line, 0, track(0, 400)).0, Answer::Done);
            assert_eq!(stop(line, 0, track(0, 399)), (refused(Refusal::Fit), 3));
        }
    }

    /// Bench sheet, as document 02, Ask 3, moves it: SAO with S 404,849 and
    /// room passes; 404,850: 10.
    #[test]
    fn bench_lead_out_limit() {
        let room = || track(0, u32::MAX);
        let full = stop("sao data 404849", 0, room());
        assert_eq!(full, (Answer::Done, 16 + 25_304));
        let full = stop("tao data 404849", 0, room());
        assert_eq!(full, (Answer::Done, 4 + 3 + 25_304));
        for over in ["404850", "404851", "449849", "449850"] {
            for method in ["sao", "tao"] {
                let answer = stop(&format!("{method} data {over}"), 0, room());
                assert_eq!(answer, (refused(Refusal::Fit), 3));
            }
        }
        let late = stop("tao data 300", 0, track(404_549, u32::MAX));
        assert_eq!(late, (Answer::Done, 26));
        for address in [404_550, 449_549] {
            let later = stop("tao data 300", 0, track(address, u32::MAX));
            assert_eq!(later, (refused(Refusal::Fit), 3));
        }
    }

    /// The limit at a later 52h; the last WRITE stands short of it.
    #[test]
    fn lead_out_limit_at_a_later_52h() {
        let line = "tao data 300 data 301";
        let second = |address| run(line, 0, &[track(0, u32::MAX), track(address, u32::MAX)]);
        let (job, answer, writes) = second(404_548);
        assert_eq!((answer, job.count()), (Answer::Done, 4 * 2 + 3 + 19 + 19));
        assert_eq!(writes[37].0, 404_548 + 288);
        for address in [404_549, 449_548] {
            let (job, answer, _) = second(address);
            assert_eq!((answer, job.count()), (refused(Refusal::Fit), 26));
        }
    }

    /// The 52h replies of TAO tracks of 300 blocks, each started 152 blocks
    /// after the last one's end; Free Blocks falls by what was taken.
    fn spaced(tracks: u32, first: u32, free: u32) -> Vec<Reply> {
        let taken = |index| index * (300 + 152);
        let info = |index| track(first + taken(index), free - taken(index));
        (0..tracks).map(info).collect()
    }

    /// Ask 6: in TAO each track after the first of those still to come is
    /// charged 152 blocks, against Free Blocks and the lead-out limit.
    #[test]
    fn room_between_tracks() {
        for tracks in [1, 2, 3, 99] {
            let line = format!("tao{}", " data 300".repeat(tracks as usize));
            let needed = 300 * tracks + 152 * (tracks - 1);
            let full = 404_849 - needed;
            let count = 23 * u64::from(tracks) + 3;
            for (first, free) in [(0, needed), (full, needed), (full, u32::MAX)] {
                let (job, answer, _) = run(&line, 0, &spaced(tracks, first, free));
                assert_eq!((answer, job.count()), (Answer::Done, count));
            }
            for (first, free) in [(0, needed - 1), (full + 1, u32::MAX)] {
                let late = stop(&line, 0, track(first, free));
                assert_eq!(late, (refused(Refusal::Fit), 3));
            }
        }
    }

    /// Ask 6 at the later 52h: of three tracks the second is charged once, the
    /// last not at all.
    #[test]
    fn room_between_later_tracks() {
        let line = "tao data 300 data 301 data 302";
        let room = || track(0, u32::MAX);
        let second = |info| run(line, 0, &[room(), info, track(404_547, 302)]);
        let third = |info| run(line, 0, &[room(), track(300, 755), info]);
        for info in [track(300, 755), track(404_094, u32::MAX)] {
            let (job, answer, _) = second(info);
            assert_eq!((answer, job.count()), (Answer::Done, 3 * 23 + 3));
        }
        for info in [track(300, 754), track(404_095, u32::MAX)] {
            let (job, answer, _) = second(info);
            assert_eq!((answer, job.count()), (refused(Refusal::Fit), 26));
        }
        for info in [track(601, 301), track(404_548, u32::MAX)] {
            let (job, answer, _) = third(info);
            assert_eq!((answer, job.count()), (refused(Refusal::Fit), 49));
        }
    }

    /// Ask 6: SAO is not charged.
    #[test]
    fn no_room_between_sao_tracks() {
        let line = "sao data 300 data 301 data 302";
        assert_eq!(stop(line, 0, track(0, 903)).0, Answer::Done);
        assert_eq!(stop(line, 0, track(0, 902)), (refused(Refusal::Fit), 3));
        let full = stop("sao data 300 data 404549", 0, track(0, 404_849));
        assert_eq!(full, (Answer::Done, 16 + 19 + 25_285));
    }

    /// Bench sheet: second TAO address equal to the previous end passes; one
    /// less: 7. The end has no charge.
    #[test]
    fn bench_second_address() {
        let line = "tao data 300 data 300";
        let (job, answer, writes) = run(line, 0, &[track(1_000, 752), track(1_300, 300)]);
        assert_eq!((answer, job.count()), (Answer::Done, 49));
        assert_eq!((writes[0].0, writes[18].0), (1_000, 1_288));
        assert_eq!((writes[19].0, writes[37].0), (1_300, 1_588));
        let (job, answer, _) = run(line, 0, &[track(1_000, 752), track(1_299, 300)]);
        assert_eq!(answer, refused(Refusal::TrackInformation));
        assert_eq!(job.count(), 3 + 1 + 19 + 2 + 1);
    }

    /// Bench sheet: first SAO WRITE; the pause takes ten WRITEs and ends at
    /// track 1.
    #[test]
    fn bench_first_sao_write() {
        let (_, _, writes) = run("sao audio 300 audio 317", 0, &[track(0, 617)]);
        let (mut job, _) = take("sao audio 300 audio 317");
        let mut replies = opening(0, track(0, 617));
        replies.extend([Reply::good(&[]), Reply::good(&[])]);
        let Answer::Command(first) = give_all(&mut job, &replies) else {
            panic!("no command");
        };
        assert_eq!(plain(&first.bytes), "2A 00 FF FF FF 6A 00 00 10 00");
        let blocks = |track, first, count| Blocks {
            track: TrackNumber(track),
            first: BlockCount(first),
            count: BlockCount(count),
        };
        assert_eq!(writes.len(), 10 + 19 + 20);
        assert_eq!(writes[0], (-150, blocks(0, 0, 16)));
        assert_eq!(writes[9], (-6, blocks(0, 144, 6)));
        assert_eq!(writes[10], (0, blocks(1, 0, 16)));
        assert_eq!(writes[28], (288, blocks(1, 288, 12)));
        assert_eq!(writes[29], (300, blocks(2, 0, 16)));
        assert_eq!(writes[48], (604, blocks(2, 304, 13)));
    }

    /// Bench sheet: finalized disc and a 299-block track: 6.
    #[test]
    fn bench_finalized_and_short() {
        let answer = stop("sao data 299", 2, track(0, 300));
        assert_eq!(answer, (refused(Refusal::DiscStatus), 3));
    }

    /// Bench sheet: track counts 0 and 100, as an order taken.
    #[test]
    fn bench_bad_orders() {
        let mut block = order("tao data 300");
        for count in [0, 100] {
            block[3] = count;
            seal(&mut block);
            let (mut job, answer) = Job::take(&block);
            assert_eq!(answer, refused(Refusal::Field));
            assert_eq!((job.count(), job.ended()), (0, true));
            assert_eq!(job.give(&Reply::good(&[])), refused(Refusal::Ended));
        }
        assert_eq!(Job::take(&[]).1, refused(Refusal::BlockLength));
        block[510] ^= 1;
        assert_eq!(Job::take(&block).1, refused(Refusal::Check));
    }

    /// 99 tracks: 4n+3+W and 16+W commands.
    #[test]
    fn ninety_nine_tracks() {
        let tao = format!("tao{}", " data 301".repeat(99));
        let infos: Vec<Reply> = (0..99).map(|i| track(5 + 302 * i, 45_000)).collect();
        let (job, answer, _) = run(&tao, 0, &infos);
        assert_eq!((answer, job.count()), (Answer::Done, 4 * 99 + 3 + 99 * 19));
        let sao = format!("sao{}", " audio 301".repeat(99));
        let (job, answer, _) = run(&sao, 0, &[track(0, 30_000)]);
        assert_eq!((answer, job.count()), (Answer::Done, 16 + 99 * 19));
    }

    /// Document 02, Ask 7: 3n+3+W commands under recipe 1.
    #[test]
    fn recipe_1_counts() {
        let (job, answer, _) = run("tao recipe 1 data 300", 0, &[track(0, 300)]);
        assert_eq!((answer, job.count()), (Answer::Done, 25));
        let infos = [track(7, 617 + 152), track(307, 317)];
        let (job, answer, _) = run("tao recipe 1 data 300 data 317", 1, &infos);
        assert_eq!((answer, job.count()), (Answer::Done, 48));
        let many = format!("tao recipe 1{}", " data 301".repeat(99));
        let infos: Vec<Reply> = (0..99).map(|i| track(5 + 302 * i, 45_000)).collect();
        let (job, answer, _) = run(&many, 0, &infos);
        assert_eq!((answer, job.count()), (Answer::Done, 3 * 99 + 3 + 99 * 19));
        let full = stop("tao recipe 1 data 404849", 0, track(0, u32::MAX));
        assert_eq!(full, (Answer::Done, 3 + 3 + 25_304));
    }

    /// After a track's 35h the next 52h, and behind the last the 5Bh function 2;
    /// function 1 is left out, and all else is as under recipe 0.
    #[test]
    fn recipe_1_steps() {
        for flags in 0..16 {
            let mut block = order("tao data 300 data 317 data 301");
            block[2] = flags;
            seal(&mut block);
            let old = read_order(&block).unwrap();
            block[499] = 1;
            seal(&mut block);
            let new = read_order(&block).unwrap();
            assert_eq!(new.recipe, Recipe::New);
            let (mut old, new) = (recording(&old), recording(&new));
            for index in 0..3 {
                let polls = if flags & 4 != 0 { 2 } else { 0 };
                let close = Step::CloseTrack(index);
                let place = old.iter().position(|&step| step == close).unwrap();
                old.drain(place..=place + polls);
            }
            assert_eq!(old, new);
            let behind = |step| {
                let place = new.iter().position(|&other| other == step).unwrap();
                new[place + if flags & 4 != 0 { 3 } else { 1 }]
            };
            let next = behind(Step::SynchronizeCache(0));
            assert_eq!(next, Step::ReadTrackInformation(1));
            assert_eq!(behind(Step::SynchronizeCache(2)), Step::CloseSession);
        }
    }

    /// The 52h right behind a 35h is judged for 4, 7 and 10 as any later one, and
    /// the track starts at its address.
    #[test]
    fn recipe_1_later_52h() {
        let line = "tao recipe 1 data 300 data 301";
        let second = |info| run(line, 0, &[track(1_000, 753), info]);
        let (job, answer, writes) = second(track(1_300, 301));
        assert_eq!((answer, job.count()), (Answer::Done, 3 * 2 + 3 + 38));
        assert_eq!((writes[18].0, writes[19].0), (1_288, 1_300));
        for (info, refusal) in [
            (Reply::good(&[0; 27]), Refusal::Reply),
            (damaged(), Refusal::TrackInformation),
            (track(1_299, 301), Refusal::TrackInformation),
            (track(1_300, 300), Refusal::Fit),
        ] {
            let (job, answer, _) = second(info);
            // 46h, 51h, 52h, 55h, 19 WRITEs, 35h, 52h.
            assert_eq!((answer, job.count()), (refused(refusal), 25));
        }
    }

    /// Byte 499 of other values, and recipe 1 with SAO: the job ends at once.
    #[test]
    fn recipes_refused() {
        for (line, bytes) in [("tao data 300", 2..=255), ("sao data 300", 1..=255)] {
            for byte in bytes {
                let mut block = order(line);
                block[499] = byte;
                assert_eq!(Job::take(&block).1, refused(Refusal::Check));
                seal(&mut block);
                let (job, answer) = Job::take(&block);
                assert_eq!((answer, job.count()), (refused(Refusal::Field), 0));
            }
        }
    }

    /// The lowest applying number is given: 5 to 10 after the third reply.
    #[test]
    fn numbers_in_order() {
        let line = "sao keep data 299 audio 300";
        let mut job = take(line).0;
        let replies = [profile_reply(8), disc_reply(2, false), damaged()];
        assert_eq!(give_all(&mut job, &replies), refused(Refusal::Profile));
        assert_eq!(stop(line, 2, damaged()).0, refused(Refusal::DiscStatus));
        assert_eq!(
            stop(line, 0, damaged()).0,
            refused(Refusal::TrackInformation)
        );
        assert_eq!(
            stop(line, 0, track(0, 0)).0,
            refused(Refusal::SessionAtOnce)
        );
        let one_kind = "sao data 299 data 300";
        assert_eq!(
            stop(one_kind, 0, track(0, 0)).0,
            refused(Refusal::ShortTrack)
        );
        assert_eq!(
            stop("sao data 300", 0, track(0, 0)).0,
            refused(Refusal::Fit)
        );
    }

    /// Ask 12: 24 comes after 7 and ahead of 9 and 10, which a track of data in
    /// the audio track's place gives.
    #[test]
    fn audio_in_tao_in_order() {
        let line = "tao keep data 299 audio 404850";
        let mut job = take(line).0;
        let replies = [profile_reply(8), disc_reply(2, false), damaged()];
        assert_eq!(give_all(&mut job, &replies), refused(Refusal::Profile));
        assert_eq!(stop(line, 2, damaged()).0, refused(Refusal::DiscStatus));
        assert_eq!(
            stop(line, 1, damaged()).0,
            refused(Refusal::TrackInformation)
        );
        let full = || track(0, 0);
        assert_eq!(stop(line, 1, full()), (refused(Refusal::AudioInTao), 3));
        let data = line.replace("audio", "data");
        assert_eq!(stop(&data, 1, full()).0, refused(Refusal::ShortTrack));
        let long = data.replace("299", "300");
        assert_eq!(stop(&long, 1, full()).0, refused(Refusal::Fit));
    }

    /// Ask 12: 24 waits for the third reply; 46h, 51h and 52h and their repeats
    /// are all that is given, and a reply after that is 13. SAO of audio is
    /// recorded as before.
    #[test]
    fn audio_in_tao_gets_no_other_command() {
        for line in [
            "tao audio 300",
            "tao protect immed audio 300 data 300",
            "tao data 300 audio 300 data 300",
        ] {
            let (mut job, mut answer) = take(line);
            let busy = sense_reply(0x70, 2, 4, 8);
            let opening = opening(0, track(0, 10_000));
            for (reply, code) in opening.iter().zip(["46 ", "51 ", "52 "]) {
                for given in [&busy, reply] {
                    assert!(bytes_of(answer).starts_with(code));
                    answer = job.give(given);
                }
            }
            assert_eq!(answer, refused(Refusal::AudioInTao));
            assert_eq!((job.count(), job.ended()), (6, true));
            assert_eq!(job.give(&opening[2]), refused(Refusal::Ended));
            assert_eq!(job.count(), 6);
        }
        assert_eq!(stop("sao audio 300", 0, track(0, 300)), (Answer::Done, 35));
    }

    /// SAO looks at Damage alone; TAO needs NWA_V.
    #[test]
    fn address_valid_counts_in_tao_alone() {
        let fields = TrackFields {
            next_writable: u32::MAX,
            free: 300,
            damaged: false,
            address_valid: false,
        };
        assert_eq!(stop("sao data 300", 0, track_reply(fields)).0, Answer::Done);
        assert_eq!(
            stop("tao data 300", 0, track_reply(fields)).0,
            refused(Refusal::TrackInformation)
        );
    }

    #[test]
    fn sums_are_exact() {
        let wraps = stop("tao data 4294967295 data 301", 0, track(0, u32::MAX));
        assert_eq!(wraps.0, refused(Refusal::Fit));
        let address = stop("tao data 300", 0, track(u32::MAX, u32::MAX));
        assert_eq!(address.0, refused(Refusal::Fit));
    }

    /// Busy repeats the command and counts it; 71h is not busy.
    #[test]
    fn busy_and_deferred() {
        let (mut job, first) = take("sao data 300");
        for repeats in 2..=50 {
            assert_eq!(job.give(&sense_reply(0x70, 2, 4, 8)), first);
            assert_eq!(job.count(), repeats);
        }
        let sense = Sense {
            key: 2,
            asc: 4,
            ascq: 8,
        };
        let answer = job.give(&sense_reply(0x71, 2, 4, 8));
        assert_eq!(answer, refused(Refusal::Failed(sense)));
        assert_eq!(job.count(), 50);
    }

    /// A reply to an ended job: 13, and nothing changes.
    #[test]
    fn replies_after_the_end() {
        let (mut job, answer, _) = run("tao data 300", 0, &[track(0, 300)]);
        assert_eq!(answer, Answer::Done);
        let busy = sense_reply(0x70, 2, 4, 8);
        for reply in [Reply::good(&[]), Reply::failed(&[]), busy] {
            assert_eq!(job.give(&reply), refused(Refusal::Ended));
            assert_eq!(job.count(), 26);
        }
    }

    /// Number 4 stops at once, with the count of commands given so far.
    #[test]
    fn number_4_stops_at_once() {
        for place in 0..3 {
            let mut job = take("tao data 300").0;
            let mut replies = opening(0, track(0, 300));
            replies[place] = Reply::good(&[0; 7]);
            assert_eq!(
                give_all(&mut job, &replies[..=place]),
                refused(Refusal::Reply)
            );
            assert_eq!(job.count(), place as u64 + 1);
        }
    }

    /// The recorder takes reply data of any length.
    #[test]
    fn long_reply_data() {
        let mut data = vec![0; 70_000];
        data[3] = 4;
        data[7] = 9;
        let (mut job, _) = take("tao data 300");
        assert!(matches!(job.give(&Reply::good(&data)), Answer::Command(_)));
    }

    /// The latest progress of a polling under way, else 0.
    #[test]
    fn progress_of_a_polling() {
        let (mut job, _) = take("sao immed data 300");
        let mut replies = opening(0, track(0, 300));
        replies.extend(vec![Reply::good(&[]); 32]);
        give_all(&mut job, &replies);
        assert_eq!((job.step(), job.progress()), (Step::TestUnitReady, 0));
        job.give(&sense_reply(0xF0, 2, 4, 8));
        assert_eq!((job.step(), job.progress()), (Step::RequestSense, 0));
        job.give(&progress_reply(0x8000));
        job.give(&sense_reply(0x70, 2, 4, 7));
        job.give(&sense_reply(0x70, 2, 4, 8));
        assert_eq!((job.step(), job.progress()), (Step::RequestSense, 0x8000));
        job.give(&progress_reply(0));
        assert_eq!((job.step(), job.progress()), (Step::TestUnitReady, 0));
        job.give(&Reply::good(&[]));
        let mut stopped = job.clone();
        let short = stopped.give(&Reply::good(&[0; 17]));
        assert_eq!((short, stopped.progress()), (refused(Refusal::Reply), 0));
        assert_eq!(job.give(&progress_reply(0)), Answer::Done);
        assert_eq!((job.progress(), job.count()), (0, 35 + 7));
        assert_eq!(job.give(&progress_reply(9)), refused(Refusal::Ended));
    }

    /// An erasing job up to its first 51h.
    fn opened(line: &str, profile: u16, disc: u8, erasable: bool) -> (Job, Answer) {
        let mut job = take(line).0;
        let replies = [profile_reply(profile), disc_reply(disc, erasable)];
        let answer = give_all(&mut job, &replies);
        (job, answer)
    }

    fn bytes_of(answer: Answer) -> String {
        match answer {
            Answer::Command(command) => plain(&command.bytes),
            _ => format!("{answer:?}"),
        }
    }

    /// Ask 2: A1h, 51h anew, 52h; the count grows by 2.
    #[test]
    fn a_used_disc_is_erased() {
        for (line, disc, rest, count) in [
            ("tao erase data 300", 1, 23, 28),
            ("tao erase data 300", 2, 23, 28),
            ("sao erase data 300", 1, 32, 37),
            ("sao erase data 300", 2, 32, 37),
        ] {
            let (mut job, answer) = opened(line, 0x000A, disc, true);
            assert_eq!(bytes_of(answer), format!("A1 01{}", " 00".repeat(10)));
            assert_eq!((job.step(), job.count()), (Step::Blank, 3));
            job.give(&Reply::good(&[]));
            assert_eq!((job.step(), job.count()), (Step::ReadDiscAgain, 4));
            job.give(&disc_reply(0, false));
            assert_eq!(job.step(), Step::ReadTrackInformation(0));
            job.give(&track(0, 300));
            let answer = give_all(&mut job, &vec![Reply::good(&[]); rest]);
            assert_eq!((answer, job.count()), (Answer::Done, count));
        }
    }

    /// With Immed A1h has 11h in byte 1 and is polled; progress starts at 0.
    #[test]
    fn an_erasing_is_polled() {
        let (mut job, answer) = opened("sao immed erase data 300", 0x000A, 2, true);
        assert_eq!(bytes_of(answer), format!("A1 11{}", " 00".repeat(10)));
        job.give(&Reply::good(&[]));
        assert_eq!((job.step(), job.progress()), (Step::TestUnitReady, 0));
        let polls = [sense_reply(0x70, 2, 4, 8), progress_reply(0x8000)];
        give_all(&mut job, &polls);
        assert_eq!((job.step(), job.progress()), (Step::TestUnitReady, 0x8000));
        give_all(&mut job, &[Reply::good(&[]), progress_reply(0)]);
        assert_eq!((job.step(), job.progress()), (Step::ReadDiscAgain, 0));
        assert_eq!(job.count(), 8);
    }

    /// Blank discs, CD-R too, are recorded without erasing.
    #[test]
    fn a_blank_disc_is_not_erased() {
        for (profile, erasable) in [(9, false), (9, true), (10, false), (10, true)] {
            let (mut job, _) = opened("tao erase data 300", profile, 0, erasable);
            assert_eq!(job.step(), Step::ReadTrackInformation(0));
            job.give(&track(0, 300));
            let answer = give_all(&mut job, &vec![Reply::good(&[]); 23]);
            assert_eq!((answer, job.count()), (Answer::Done, 26));
        }
    }

    /// After the first 51h: 5, 6 for status 3, 24, 8, 9, 10 for S alone, 16.
    #[test]
    fn numbers_at_the_first_51h() {
        let stop = |line: &str, profile, disc, erasable| {
            let (job, answer) = opened(line, profile, disc, erasable);
            assert_eq!(job.count(), 2);
            match answer {
                Answer::Refused(refusal) => refusal.number(),
                _ => panic!("{answer:?}"),
            }
        };
        let worst = "sao keep erase data 299 audio 4294967295";
        assert_eq!(stop(worst, 8, 3, false), 5);
        assert_eq!(stop(worst, 9, 3, false), 6);
        assert_eq!(stop(worst, 9, 2, false), 8);
        assert_eq!(stop("sao erase data 299 audio 404850", 9, 2, false), 8);
        assert_eq!(stop("sao erase data 299 data 404850", 9, 2, false), 9);
        assert_eq!(stop("tao erase data 299 data 404850", 9, 2, false), 9);
        for over in ["404850", "449849"] {
            for method in ["tao", "sao"] {
                let line = format!("{method} erase data {over}");
                assert_eq!(stop(&line, 9, 2, false), 10);
                assert_eq!(stop(&line, 10, 2, true), 10);
            }
        }
        assert_eq!(stop("tao erase data 404849", 9, 2, true), 16);
        assert_eq!(stop("sao erase data 404849", 9, 2, true), 16);
        assert_eq!(stop("tao erase data 300", 10, 1, false), 16);
        assert_eq!(stop("tao erase data 299", 9, 0, false), 9);
        assert_eq!(stop("tao erase data 404850", 9, 0, false), 10);
        for (profile, disc) in [(9, 0), (10, 2)] {
            let over = "tao erase data 300 data 300 data 403946";
            assert_eq!(stop(over, profile, disc, true), 10);
        }
        let limit = "tao erase data 300 data 300 data 403945";
        assert_eq!(stop(limit, 9, 2, true), 16);
        assert_eq!(stop("sao erase data 300 data 404549", 9, 2, true), 16);
        let audio = "tao keep erase data 299 audio 404850";
        assert_eq!(stop(audio, 8, 3, false), 5);
        assert_eq!(stop(audio, 9, 3, false), 6);
        for line in [audio, "tao erase audio 300"] {
            for disc in 0..3 {
                assert_eq!(stop(line, 9, disc, false), 24);
                assert_eq!(stop(line, 10, disc, true), 24);
            }
        }
    }

    /// At the second 51h 4 and 6; only blank passes, in TAO too.
    #[test]
    fn numbers_at_the_second_51h() {
        for line in ["tao erase data 300", "sao erase data 300"] {
            let again = |reply: &Reply| {
                let (mut job, _) = opened(line, 10, 1, true);
                job.give(&Reply::good(&[]));
                let answer = job.give(reply);
                (answer, job.step(), job.count())
            };
            for status in 1..4 {
                let (answer, _, count) = again(&disc_reply(status, true));
                assert_eq!((answer, count), (refused(Refusal::DiscStatus), 4));
            }
            let (answer, _, count) = again(&Reply::good(&[0; 33]));
            assert_eq!((answer, count), (refused(Refusal::Reply), 4));
            let (_, step, count) = again(&disc_reply(0, false));
            assert_eq!((step, count), (Step::ReadTrackInformation(0), 5));
        }
    }

    /// Without the flag everything is as before: Erasable doesn't count, and
    /// 5, 6, 24, 8, 9 wait for the third reply.
    #[test]
    fn without_the_flag_nothing_is_erased() {
        for line in [
            "tao data 300",
            "tao audio 300",
            "sao keep data 299",
            "tao immed data 404850",
        ] {
            for profile in [8, 9, 10] {
                for disc in 0..4 {
                    let (job, _) = opened(line, profile, disc, true);
                    assert_eq!(job.step(), Step::ReadTrackInformation(0));
                    assert_eq!((job.count(), job.ended()), (3, false));
                }
            }
        }
    }

    #[test]
    fn the_count_stays_at_its_limit() {
        let (mut job, first) = take("tao data 300");
        job.count = u64::MAX - 1;
        assert_eq!(job.give(&sense_reply(0x70, 2, 4, 8)), first);
        assert_eq!(job.count(), u64::MAX);
        assert_eq!(job.give(&sense_reply(0xF0, 2, 4, 8)), first);
        assert_eq!(job.count(), u64::MAX);
    }
}
