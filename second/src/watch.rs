//! The panel program (document 02, Ask 1): reads what `print` reads and tells
//! after each block whether the job is busy, finished or stopped.

use crate::follow::{follow, Event};
use crate::hex;
use crate::job::{Blocks, Job, Step};
use crate::refusal::Refusal;
use std::io::{self, Read, Write};

/// The pause ahead of track 1 in SAO has this many blocks.
const PAUSE: u32 = 150;

/// Shows the job of an input. `idle` stands there before anything is read.
pub fn watch(input: impl Read, output: &mut impl Write) -> io::Result<()> {
    writeln!(output, "idle")?;
    output.flush()?;
    follow(input, |job, event| {
        let count = job.count();
        match event {
            Event::Command(_) => writeln!(output, "busy: {}", busy_words(job)),
            Event::Done => writeln!(output, "finished, commands given: {count}"),
            Event::Stop(refusal) => {
                let (number, words) = (refusal.number(), stop_words(refusal));
                writeln!(
                    output,
                    "stopped: {number}, {words}, commands given: {count}"
                )
            }
            Event::Waiting => writeln!(output, "waiting, commands given: {count}"),
        }
    })
}

/// The command that was given last, and how far the job has come.
fn busy_words(job: &Job) -> String {
    let tracks = job.order().map_or(0, |order| order.tracks.len());
    let of_track = |name: &str, index: usize| format!("{name}, track {} of {tracks}", index + 1);
    match job.step() {
        Step::GetConfiguration => "GET CONFIGURATION".to_string(),
        Step::ReadDiscInformation | Step::ReadDiscAgain => "READ DISC INFORMATION".to_string(),
        Step::Blank => "BLANK".to_string(),
        Step::ReadTrackInformation(index) => of_track("READ TRACK INFORMATION", index),
        Step::ModeSelect(index) => of_track("MODE SELECT", index),
        Step::SendCueSheet => "SEND CUE SHEET".to_string(),
        Step::Write(blocks) => write_words(job, blocks),
        Step::SynchronizeCache(index) => of_track("SYNCHRONIZE CACHE", index),
        Step::CloseTrack(index) => of_track("CLOSE TRACK SESSION", index),
        Step::CloseSession => "CLOSE TRACK SESSION, session".to_string(),
        Step::TestUnitReady => format!("TEST UNIT READY, {} %", percent(job.progress())),
        Step::RequestSense => format!("REQUEST SENSE, {} %", percent(job.progress())),
    }
}

fn write_words(job: &Job, blocks: Blocks) -> String {
    let (track, first) = (blocks.track.0, blocks.first.0);
    if track == 0 {
        return format!("WRITE, pause, {first} of {PAUSE} blocks");
    }
    let tracks = job.order().map_or(&[][..], |order| &order.tracks);
    let length = tracks[usize::from(track) - 1].length;
    format!(
        "WRITE, track {track} of {}, {first} of {length} blocks",
        tracks.len()
    )
}

/// The fraction of a progress in percent, rounded down to a tenth.
fn percent(progress: u16) -> String {
    let tenths = u32::from(progress) * 1000 / 65_536;
    format!("{}.{}", tenths / 10, tenths % 10)
}

fn stop_words(refusal: Refusal) -> String {
    let words = match refusal {
        Refusal::BlockLength => "block not of 512 bytes",
        Refusal::Check => "block check differs",
        Refusal::Field => "field value not allowed",
        Refusal::Reply => "reply too short or of another type",
        Refusal::Profile => "neither CD-R nor CD-RW",
        Refusal::DiscStatus => "disc status unsuitable",
        Refusal::TrackInformation => "track information unusable",
        Refusal::SessionAtOnce => "session at once of mixed kinds or kept appendable",
        Refusal::ShortTrack => "track of fewer than 300 blocks",
        Refusal::Fit => "does not fit",
        Refusal::Buffer => "lent buffer too short",
        Refusal::Failed(sense) => {
            let triple = hex::plain(&[sense.key, sense.asc, sense.ascq]);
            return format!("drive failed with {triple}");
        }
        Refusal::Ended => "job already ended",
        Refusal::NoSheet => "no cue sheet",
        Refusal::Range => "number out of range",
        Refusal::NotErasable => "disc cannot be erased",
        Refusal::AudioInTao => "track at once with an audio track",
        // A job gives none of these.
        Refusal::Title | Refusal::NoPacks | Refusal::PackCount => "stop names or packs",
    };
    words.to_string()
}

#[cfg(test)]
mod tests {
    use super::*;
    use text::jobs::blocks_of;

    fn watched(input: &[u8]) -> String {
        let mut output = Vec::new();
        watch(input, &mut output).unwrap();
        String::from_utf8(output).unwrap()
    }

    fn lines(text: &str) -> Vec<String> {
        let output = watched(&blocks_of(text).unwrap());
        output.lines().map(str::to_string).collect()
    }

    #[test]
    fn percentages() {
        assert_eq!(percent(0), "0.0");
        assert_eq!(percent(1), "0.0");
        assert_eq!(percent(65), "0.0");
        assert_eq!(percent(66), "0.1");
        assert_eq!(percent(0x8000), "50.0");
        assert_eq!(percent(0x7FFF), "49.9");
        assert_eq!(percent(0xFFFF), "99.9");
    }

    /// The double is exact, so its percentage is that of whole numbers.
    #[test]
    fn the_fraction_is_exact() {
        for progress in 0..=u16::MAX {
            let fraction = f64::from(progress) / 65_536.0;
            assert!(fraction < 1.0 && fraction * 65_536.0 == f64::from(progress));
            let tenths = (fraction * 1000.0).floor() as u32;
            assert_eq!(
                percent(progress),
                format!("{}.{}", tenths / 10, tenths % 10)
            );
        }
    }

    #[test]
    fn bad_input() {
        let order = blocks_of("order tao data 300\n").unwrap();
        let short = "stopped: 1, block not of 512 bytes, commands given: ";
        assert_eq!(watched(&[]), format!("idle\n{short}0\n"));
        assert_eq!(watched(&order[..511]), format!("idle\n{short}0\n"));
        let begun = "idle\nbusy: GET CONFIGURATION\n";
        assert_eq!(
            watched(&order),
            format!("{begun}waiting, commands given: 1\n")
        );
        let more = [&order[..], &[0]].concat();
        assert_eq!(watched(&more), format!("{begun}{short}1\n"));
        let two = [&order[..], &order].concat();
        let field = "stopped: 3, field value not allowed, commands given: 1\n";
        assert_eq!(watched(&two), format!("{begun}{field}"));
        let mut check = order;
        check[511] ^= 1;
        assert_eq!(
            watched(&check),
            "idle\nstopped: 2, block check differs, commands given: 0\n"
        );
    }

    #[test]
    fn an_erasing() {
        let open = "good profile 000A\ngood disc finalized erasable\n";
        let shown = lines(&format!(
            "order tao immed erase data 300\n{open}good\nbusy\ngood progress 4000\n"
        ));
        let expected = [
            "idle",
            "busy: GET CONFIGURATION",
            "busy: READ DISC INFORMATION",
            "busy: BLANK",
            "busy: TEST UNIT READY, 0.0 %",
            "busy: REQUEST SENSE, 0.0 %",
            "busy: TEST UNIT READY, 25.0 %",
            "waiting, commands given: 6",
        ];
        assert_eq!(shown, expected);
        let shown = lines(&format!("order sao erase data 300\n{open}busy\ngood\n"));
        assert_eq!(
            shown[3..6],
            ["busy: BLANK", "busy: BLANK", "busy: READ DISC INFORMATION"]
        );
        let refused = lines("order sao erase data 300\ngood profile 0009\ngood disc finalized\n");
        let stop = "stopped: 16, disc cannot be erased, commands given: 2";
        assert_eq!(refused.last().unwrap(), stop);
    }

    #[test]
    fn stops() {
        let job = |order: &str, third: &str| {
            let text = format!("order {order}\ngood profile 0009\ngood disc blank\n{third}\n");
            lines(&text).pop().unwrap()
        };
        assert_eq!(
            job("sao keep data 300", "good track nwa 0 free 300"),
            "stopped: 8, session at once of mixed kinds or kept appendable, commands given: 3"
        );
        assert_eq!(
            job("tao data 300 audio 300", "good track nwa 0 free 300"),
            "stopped: 24, track at once with an audio track, commands given: 3"
        );
        assert_eq!(
            job("tao data 299", "good track nwa 0 free 300"),
            "stopped: 9, track of fewer than 300 blocks, commands given: 3"
        );
        assert_eq!(
            job("tao data 300", "failed 0B 4A AA"),
            "stopped: 12, drive failed with 0B 4A AA, commands given: 3"
        );
        assert_eq!(
            job("tao data 300", "good"),
            "stopped: 4, reply too short or of another type, commands given: 3"
        );
    }
}
