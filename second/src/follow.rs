//! What `print` and `watch` share: a job is fed an order block and then reply
//! blocks, and what each brings is shown.

use crate::blocks::{read_reply, BLOCK};
use crate::job::{Answer, Command, Job};
use crate::refusal::Refusal;
use std::io::{self, Read};

/// What a block brings, or the end of the input.
pub enum Event {
    Command(Command),
    Done,
    Stop(Refusal),
    /// The input ends while a reply is awaited.
    Waiting,
}

/// Shows the job of an input, event by event. After the job's end nothing
/// more is taken.
pub fn follow(
    mut input: impl Read,
    mut show: impl FnMut(&Job, Event) -> io::Result<()>,
) -> io::Result<()> {
    let (mut job, mut answer) = Job::take(&next_block(&mut input)?);
    loop {
        match answer {
            Answer::Command(command) => show(&job, Event::Command(command))?,
            Answer::Done => return show(&job, Event::Done),
            Answer::Refused(refusal) => return show(&job, Event::Stop(refusal)),
        }
        let block = next_block(&mut input)?;
        if block.is_empty() {
            return show(&job, Event::Waiting);
        }
        answer = match read_reply(&block) {
            Ok(reply) => job.give(&reply),
            Err(refusal) => Answer::Refused(refusal),
        };
    }
}

/// The next 512 bytes, or what is left of the input.
fn next_block(input: &mut impl Read) -> io::Result<Vec<u8>> {
    let mut block = Vec::with_capacity(BLOCK);
    input.take(BLOCK as u64).read_to_end(&mut block)?;
    Ok(block)
}
