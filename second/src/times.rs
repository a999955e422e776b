//! Addresses and minute-second-frame times ("Cue sheet and times").

use crate::refusal::{require, Refusal};
use crate::units::{Address, PAUSE_START, TIMED};

const FRAMES_A_SECOND: i64 = 75;
const SECONDS_A_MINUTE: i64 = 60;
const MINUTES: i64 = 100;

/// Minutes from this one on stand for the lead-in, ahead of 00:00:00.
const LEAD_IN_MINUTE: u8 = 90;
/// Time in frames is address plus this much below that minute,
const SUM: i64 = 150;
/// and address plus this much from it on.
const LEAD_IN_SUM: i64 = 450_150;

/// A time in plain binary, not BCD. A later time may stand for a lower address.
#[derive(Clone, Copy, PartialEq, Eq, Debug)]
pub struct Time {
    pub minute: u8,
    pub second: u8,
    pub frame: u8,
}

/// The time of an address from -45,150 to 404,849; any other is refused, 15.
pub fn time_of(address: Address) -> Result<Time, Refusal> {
    require(TIMED.contains(&address.0), Refusal::Range)?;
    let in_lead_in = address.0 < PAUSE_START;
    let frames = address.0 + if in_lead_in { LEAD_IN_SUM } else { SUM };
    let seconds = frames / FRAMES_A_SECOND;
    Ok(Time {
        minute: (seconds / SECONDS_A_MINUTE) as u8,
        second: (seconds % SECONDS_A_MINUTE) as u8,
        frame: (frames % FRAMES_A_SECOND) as u8,
    })
}

/// The address of a time up to 99:59:74; any other is refused, 15.
pub fn address_of(time: Time) -> Result<Address, Refusal> {
    let minute = i64::from(time.minute);
    let second = i64::from(time.second);
    let frame = i64::from(time.frame);
    let valid = minute < MINUTES && second < SECONDS_A_MINUTE && frame < FRAMES_A_SECOND;
    require(valid, Refusal::Range)?;
    let frames = (minute * SECONDS_A_MINUTE + second) * FRAMES_A_SECOND + frame;
    let in_lead_in = time.minute >= LEAD_IN_MINUTE;
    let sum = if in_lead_in { LEAD_IN_SUM } else { SUM };
    Ok(Address(frames - sum))
}

#[cfg(test)]
mod tests {
    use super::*;

    fn time(minute: u8, second: u8, frame: u8) -> Time {
        Time {
            minute,
            second,
            frame,
        }
    }

    /// Bench sheet, as document 02, Ask 3, moves it: -150 is 00:00:00, 0 is
    /// 00:02:00, 404,849 is 89:59:74, -151 is 99:59:74; -45,151 is refused, 15.
    #[test]
    fn bench_times() {
        assert_eq!(time_of(Address(-150)), Ok(time(0, 0, 0)));
        assert_eq!(time_of(Address(0)), Ok(time(0, 2, 0)));
        assert_eq!(time_of(Address(404_849)), Ok(time(89, 59, 74)));
        assert_eq!(time_of(Address(-151)), Ok(time(99, 59, 74)));
        assert_eq!(time_of(Address(-45_151)), Err(Refusal::Range));
        assert_eq!(Refusal::Range.number(), 15);
    }

    /// The addresses around each end and each seam, both ways.
    #[test]
    fn ends_and_seams() {
        for (address, (minute, second, frame)) in [
            (-45_150, (90, 0, 0)),
            (-45_149, (90, 0, 1)),
            (-40_651, (90, 59, 74)),
            (-40_650, (91, 0, 0)),
            (-4_651, (98, 59, 74)),
            (-4_650, (99, 0, 0)),
            (-152, (99, 59, 73)),
            (-151, (99, 59, 74)),
            (-150, (0, 0, 0)),
            (-149, (0, 0, 1)),
            (-1, (0, 1, 74)),
            (4_349, (0, 59, 74)),
            (4_350, (1, 0, 0)),
            (400_349, (88, 59, 74)),
            (400_350, (89, 0, 0)),
            (404_848, (89, 59, 73)),
            (404_849, (89, 59, 74)),
        ] {
            let time = time(minute, second, frame);
            assert_eq!(time_of(Address(address)), Ok(time), "{address}");
            assert_eq!(address_of(time), Ok(Address(address)), "{address}");
        }
    }

    /// All 450,000 addresses: each goes to its own time and back. From the
    /// lead-in's first one on the times are gone through from 90:00:00 to
    /// 99:59:74, then from 00:00:00 to 89:59:74.
    #[test]
    fn every_address_and_back() {
        let minutes = (90..=99).chain(0..=89);
        let times = minutes.flat_map(|minute| {
            (0..60).flat_map(move |second| (0..75).map(move |frame| time(minute, second, frame)))
        });
        let mut count = 0;
        for (address, time) in (-45_150..=404_849).zip(times) {
            assert_eq!(time_of(Address(address)), Ok(time));
            assert_eq!(address_of(time), Ok(Address(address)));
            count += 1;
        }
        assert_eq!(count, 450_000);
    }

    #[test]
    fn every_time_and_back() {
        for minute in 0..=255 {
            for second in 0..=255 {
                for frame in 0..=255 {
                    let given = time(minute, second, frame);
                    let valid = minute < 100 && second < 60 && frame < 75;
                    match address_of(given) {
                        Ok(address) => assert!(valid && time_of(address) == Ok(given)),
                        Err(refusal) => assert!(!valid && refusal == Refusal::Range),
                    }
                }
            }
        }
    }

    #[test]
    fn addresses_out_of_range() {
        for address in [
            i64::MIN,
            -450_150,
            -45_151,
            404_850,
            404_999,
            449_849,
            449_850,
            1 << 32,
            i64::MAX,
        ] {
            assert_eq!(time_of(Address(address)), Err(Refusal::Range));
        }
    }
}
