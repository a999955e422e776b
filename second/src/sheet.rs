//! The cue sheet, which goes with 5Dh.

use crate::refusal::{require, Refusal};
use crate::times::{address_of, time_of, Time};
use crate::units::{
    check_lead_out, Address, BlockCount, Flags, Kind, Method, Order, Recipe, Track,
};

pub const ENTRY: usize = 8;
/// Lead-in, pause and lead-out come besides one entry a track.
pub const MORE_ENTRIES: usize = 3;
const LEAD_OUT: u8 = 0xAA;

/// Makes the cue sheet of an SAO order; refuses with 3 (a TAO order too), 8,
/// 9, or 10 for the lead-out limit alone.
pub fn sheet(order: &Order) -> Result<Vec<u8>, Refusal> {
    order.check_fields()?;
    require(order.method == Method::Sao, Refusal::Field)?;
    order.check_session()?;
    order.check_lengths()?;
    check_lead_out(Address(0).after(order.blocks_from(0)))?;
    entries(order.tracks[0].kind, &order.tracks)
}

fn entries(kind: Kind, tracks: &[Track]) -> Result<Vec<u8>, Refusal> {
    let mut address = Address(0);
    let zero = Time {
        minute: 0,
        second: 0,
        frame: 0,
    };
    let mut bytes = Vec::with_capacity(ENTRY * (tracks.len() + MORE_ENTRIES));
    bytes.extend(entry(kind, 0, 0, lead_form(kind), zero));
    bytes.extend(entry(kind, 1, 0, track_form(kind), zero));
    for (number, track) in (1u8..).zip(tracks) {
        bytes.extend(entry(kind, number, 1, track_form(kind), time_of(address)?));
        address = address.after(BlockCount(track.length.into()));
    }
    bytes.extend(entry(kind, LEAD_OUT, 1, lead_form(kind), time_of(address)?));
    Ok(bytes)
}

fn entry(kind: Kind, tno: u8, index: u8, form: u8, time: Time) -> [u8; ENTRY] {
    let Time {
        minute,
        second,
        frame,
    } = time;
    [ctl_adr(kind), tno, index, form, 0, minute, second, frame]
}

fn ctl_adr(kind: Kind) -> u8 {
    match kind {
        Kind::Data => 0x41,
        Kind::Audio => 0x01,
    }
}

/// The form of lead-in and lead-out.
fn lead_form(kind: Kind) -> u8 {
    match kind {
        Kind::Data => 0x14,
        Kind::Audio => 0x01,
    }
}

/// The form of the pause and the tracks.
fn track_form(kind: Kind) -> u8 {
    match kind {
        Kind::Data => 0x10,
        Kind::Audio => 0x00,
    }
}

/// Reads a cue sheet back to its kind and lengths. Whatever the maker gives
/// for no order is refused, 14: the bytes are taken for a sheet's, and pass
/// if the maker gives these very bytes for what was read.
pub fn read_sheet(bytes: &[u8]) -> Result<(Kind, Vec<u32>), Refusal> {
    let (kind, lengths) = guess(bytes).ok_or(Refusal::NoSheet)?;
    let order = Order {
        method: Method::Sao,
        flags: Flags::default(),
        tracks: lengths
            .iter()
            .map(|&length| Track { kind, length })
            .collect(),
        recipe: Recipe::default(),
    };
    let same = sheet(&order).is_ok_and(|made| made == bytes);
    require(same, Refusal::NoSheet)?;
    Ok((kind, lengths))
}

/// Kind and lengths as the index 1 and lead-out entries tell them.
fn guess(bytes: &[u8]) -> Option<(Kind, Vec<u32>)> {
    let kind = [Kind::Audio, Kind::Data]
        .into_iter()
        .find(|&kind| bytes.first() == Some(&ctl_adr(kind)))?;
    let starts = bytes
        .chunks_exact(ENTRY)
        .skip(2)
        .map(entry_address)
        .collect::<Option<Vec<Address>>>()?;
    let lengths = starts
        .windows(2)
        .map(|pair| u32::try_from(pair[1].0 - pair[0].0).ok())
        .collect::<Option<Vec<u32>>>()?;
    Some((kind, lengths))
}

fn entry_address(entry: &[u8]) -> Option<Address> {
    let time = Time {
        minute: entry[5],
        second: entry[6],
        frame: entry[7],
    };
    address_of(time).ok()
}

#[cfg(test)]
mod tests {
    use super::*;
    use crate::rng::Rng;
    use crate::units::MOST_TRACKS;

    fn order(kind: Kind, lengths: &[u32]) -> Order {
        Order {
            method: Method::Sao,
            flags: Flags {
                protect: true,
                immed: true,
                ..Flags::default()
            },
            tracks: lengths
                .iter()
                .map(|&length| Track { kind, length })
                .collect(),
            recipe: Recipe::default(),
        }
    }

    /// Bench sheet: audio 300 and 450.
    #[test]
    fn bench_sheet() {
        let expected = [
            [0x01, 0x00, 0x00, 0x01, 0x00, 0x00, 0x00, 0x00],
            [0x01, 0x01, 0x00, 0x00, 0x00, 0x00, 0x00, 0x00],
            [0x01, 0x01, 0x01, 0x00, 0x00, 0x00, 0x02, 0x00],
            [0x01, 0x02, 0x01, 0x00, 0x00, 0x00, 0x06, 0x00],
            [0x01, 0xAA, 0x01, 0x01, 0x00, 0x00, 0x0C, 0x00],
        ];
        let made = sheet(&order(Kind::Audio, &[300, 450])).unwrap();
        assert_eq!(made, expected.concat());
        assert_eq!(read_sheet(&made), Ok((Kind::Audio, vec![300, 450])));
    }

    #[test]
    fn data_sheet() {
        let made = sheet(&order(Kind::Data, &[4_575])).unwrap();
        let expected = [
            [0x41, 0x00, 0x00, 0x14, 0x00, 0x00, 0x00, 0x00],
            [0x41, 0x01, 0x00, 0x10, 0x00, 0x00, 0x00, 0x00],
            [0x41, 0x01, 0x01, 0x10, 0x00, 0x00, 0x02, 0x00],
            [0x41, 0xAA, 0x01, 0x14, 0x00, 0x01, 0x03, 0x00],
        ];
        assert_eq!(made, expected.concat());
    }

    /// Bench sheets: length 299: 9, 300 passes; S 404,849 passes, 404,850: 10.
    #[test]
    fn bench_limits() {
        let make = |lengths: &[u32]| sheet(&order(Kind::Data, lengths)).map(|_| ());
        assert_eq!(make(&[299]), Err(Refusal::ShortTrack));
        assert_eq!(make(&[300]), Ok(()));
        assert_eq!(make(&[404_849]), Ok(()));
        assert_eq!(make(&[404_850]), Err(Refusal::Fit));
        assert_eq!(make(&[449_849]), Err(Refusal::Fit));
        assert_eq!(make(&[404_549, 300]), Ok(()));
        assert_eq!(make(&[404_550, 300]), Err(Refusal::Fit));
        assert_eq!(make(&[u32::MAX; 99]), Err(Refusal::Fit));
        assert_eq!(make(&[u32::MAX, 1 + 300]), Err(Refusal::Fit));
    }

    #[test]
    fn refusals_in_order_3_8_9_10() {
        let mut order = order(Kind::Data, &[404_850, 299]);
        order.method = Method::Tao;
        order.tracks[0].kind = Kind::Audio;
        assert_eq!(sheet(&order), Err(Refusal::Field));
        order.method = Method::Sao;
        assert_eq!(sheet(&order), Err(Refusal::SessionAtOnce));
        order.tracks[0].kind = Kind::Data;
        order.flags.keep = true;
        assert_eq!(sheet(&order), Err(Refusal::SessionAtOnce));
        order.flags.keep = false;
        assert_eq!(sheet(&order), Err(Refusal::ShortTrack));
        order.tracks[1].length = 300;
        assert_eq!(sheet(&order), Err(Refusal::Fit));
        order.tracks.clear();
        assert_eq!(sheet(&order), Err(Refusal::Field));
    }

    /// Document 02, Ask 7: recipe 1 is 3 with SAO, ahead of 8, 9 and 10, and
    /// so is all of TAO.
    #[test]
    fn recipe_1_has_no_sheet() {
        for lengths in [&[300][..], &[299], &[404_850], &[]] {
            let mut order = order(Kind::Data, lengths);
            order.recipe = Recipe::New;
            assert_eq!(sheet(&order), Err(Refusal::Field));
            order.flags.keep = true;
            assert_eq!(sheet(&order), Err(Refusal::Field));
            order.method = Method::Tao;
            assert_eq!(sheet(&order), Err(Refusal::Field));
        }
    }

    #[test]
    fn sheets_read_back() {
        let mut rng = Rng::new(2);
        for count in 1..=MOST_TRACKS {
            let lengths: Vec<u32> = (0..count).map(|_| 300 + rng.below(4_000) as u32).collect();
            let kind = if rng.chance(50) {
                Kind::Audio
            } else {
                Kind::Data
            };
            let made = sheet(&order(kind, &lengths)).unwrap();
            assert_eq!(made.len(), ENTRY * (count + MORE_ENTRIES));
            assert_eq!(read_sheet(&made), Ok((kind, lengths)));
        }
    }

    /// Any one byte changed: refused as 14, or another order's own sheet.
    #[test]
    fn changed_sheets() {
        let made = sheet(&order(Kind::Audio, &[300, 450, 10_000])).unwrap();
        let mut still_sheets = 0;
        for place in 0..made.len() {
            for value in 0..=255 {
                let mut bytes = made.clone();
                bytes[place] = value;
                match read_sheet(&bytes) {
                    Ok((kind, lengths)) => {
                        assert_eq!(sheet(&order(kind, &lengths)), Ok(bytes));
                        still_sheets += 1;
                    }
                    Err(refusal) => assert_eq!(refusal, Refusal::NoSheet),
                }
            }
        }
        assert!(still_sheets > made.len());
    }

    /// The longest sheet ends at 89:59:74 and reads back.
    #[test]
    fn the_longest_sheet() {
        for lengths in [&[404_849][..], &[404_549, 300], &[300, 404_549]] {
            let made = sheet(&order(Kind::Data, lengths)).unwrap();
            assert!(made.ends_with(&[0x41, 0xAA, 0x01, 0x14, 0x00, 89, 59, 74]));
            assert_eq!(read_sheet(&made), Ok((Kind::Data, lengths.to_vec())));
        }
    }

    /// Document 02, Ask 3: a time of minute 90 or more, in any entry, is 14.
    #[test]
    fn no_sheet_names_the_lead_in() {
        for lengths in [&[300][..], &[300, 450], &[404_849], &[404_249, 300, 300]] {
            let made = sheet(&order(Kind::Audio, lengths)).unwrap();
            for entry in 0..made.len() / ENTRY {
                for minute in 90..=255 {
                    for (second, frame) in [(0, 0), (2, 0), (59, 74)] {
                        let mut bytes = made.clone();
                        let time = &mut bytes[ENTRY * entry + 5..ENTRY * (entry + 1)];
                        time.copy_from_slice(&[minute, second, frame]);
                        assert_eq!(read_sheet(&bytes), Err(Refusal::NoSheet));
                    }
                    // The entry's own second and frame, too.
                    let mut bytes = made.clone();
                    bytes[ENTRY * entry + 5] = minute;
                    assert_eq!(read_sheet(&bytes), Err(Refusal::NoSheet));
                }
            }
        }
    }

    /// Nor where all times are the lead-in's, and would give lengths.
    #[test]
    fn no_sheet_within_the_lead_in() {
        let made = sheet(&order(Kind::Data, &[300, 450])).unwrap();
        for first in [0, 2] {
            let mut bytes = made.clone();
            bytes[ENTRY * first..]
                .chunks_exact_mut(ENTRY)
                .for_each(|entry| entry[5] += 90);
            assert_eq!(read_sheet(&bytes), Err(Refusal::NoSheet));
        }
    }

    #[test]
    fn no_sheets() {
        let made = sheet(&order(Kind::Data, &[300])).unwrap();
        for length in 0..made.len() {
            assert_eq!(read_sheet(&made[..length]), Err(Refusal::NoSheet));
        }
        let longer = [made.clone(), vec![0]].concat();
        assert_eq!(read_sheet(&longer), Err(Refusal::NoSheet));
        assert_eq!(read_sheet(&made.repeat(30)), Err(Refusal::NoSheet));
    }
}
