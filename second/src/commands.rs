//! The bytes of the eleven commands.

use crate::refusal::{require, Refusal};
use crate::units::{Address, BlockCount, TrackNumber, WRITABLE};
use std::ops::Deref;

/// A command's bytes: ten, or six for 00h and 03h, or twelve for A1h.
#[derive(Clone, Copy, PartialEq, Eq, Debug)]
pub enum Bytes {
    Six([u8; 6]),
    Ten([u8; 10]),
    Twelve([u8; 12]),
}

impl Deref for Bytes {
    type Target = [u8];

    fn deref(&self) -> &[u8] {
        match self {
            Bytes::Six(bytes) => bytes,
            Bytes::Ten(bytes) => bytes,
            Bytes::Twelve(bytes) => bytes,
        }
    }
}

pub const TEST_UNIT_READY: u8 = 0x00;
pub const REQUEST_SENSE: u8 = 0x03;
pub const GET_CONFIGURATION: u8 = 0x46;
pub const READ_DISC_INFORMATION: u8 = 0x51;
pub const READ_TRACK_INFORMATION: u8 = 0x52;
pub const MODE_SELECT: u8 = 0x55;
pub const SEND_CUE_SHEET: u8 = 0x5D;
pub const WRITE: u8 = 0x2A;
pub const SYNCHRONIZE_CACHE: u8 = 0x35;
pub const CLOSE_TRACK_SESSION: u8 = 0x5B;
pub const BLANK: u8 = 0xA1;

pub const CLOSE_TRACK: u8 = 1;
pub const CLOSE_SESSION: u8 = 2;

/// A WRITE takes at most this many blocks.
pub const MOST_BLOCKS: u64 = 16;
/// Sense data up to its last progress byte.
pub const SENSE_LENGTH: u8 = 18;

/// Immed in byte 1 of 35h, of 5Bh and of A1h.
const SYNCHRONIZE_IMMED: u8 = 0x02;
const CLOSE_IMMED: u8 = 0x01;
const BLANK_IMMED: u8 = 0x10;
/// A1h erases what is needed and no more.
const BLANK_MINIMALLY: u8 = 0x01;

/// A command of an operation code with a length in bytes 7 and 8.
fn with_length(code: u8, length: u16) -> [u8; 10] {
    let mut bytes = [0; 10];
    bytes[0] = code;
    bytes[7..9].copy_from_slice(&length.to_be_bytes());
    bytes
}

pub fn get_configuration() -> Bytes {
    Bytes::Ten(with_length(GET_CONFIGURATION, 8))
}

pub fn read_disc_information() -> Bytes {
    Bytes::Ten(with_length(READ_DISC_INFORMATION, 34))
}

pub fn read_track_information() -> Bytes {
    let mut bytes = with_length(READ_TRACK_INFORMATION, 48);
    bytes[1] = 0x01;
    bytes[5] = 0xFF;
    Bytes::Ten(bytes)
}

pub fn mode_select() -> Bytes {
    let mut bytes = with_length(MODE_SELECT, 60);
    bytes[1] = 0x10;
    Bytes::Ten(bytes)
}

/// The length in bytes is 8 times 4 to 102, else 15.
pub fn send_cue_sheet(length: u64) -> Result<Bytes, Refusal> {
    let valid = length.is_multiple_of(8) && (4..=102).contains(&(length / 8));
    require(valid, Refusal::Range)?;
    // Three bytes hold the length; the first of them, byte 6, stays 0.
    Ok(Bytes::Ten(with_length(SEND_CUE_SHEET, length as u16)))
}

/// The address is -150 to 404,849 and the count 1 to 16, else 15.
pub fn write(address: Address, count: BlockCount) -> Result<Bytes, Refusal> {
    let valid = WRITABLE.contains(&address.0) && (1..=MOST_BLOCKS).contains(&count.0);
    require(valid, Refusal::Range)?;
    let mut bytes = with_length(WRITE, count.0 as u16);
    bytes[2..6].copy_from_slice(&(address.0 as i32).to_be_bytes());
    Ok(Bytes::Ten(bytes))
}

/// With Immed, bit 1 of byte 1 is set.
pub fn synchronize_cache(immed: bool) -> Bytes {
    let mut bytes = with_length(SYNCHRONIZE_CACHE, 0);
    if immed {
        bytes[1] = SYNCHRONIZE_IMMED;
    }
    Bytes::Ten(bytes)
}

/// The function is 1 or 2, else 15; any 16-bit track passes. With Immed, bit
/// 0 of byte 1 is set.
pub fn close_track_session(
    function: u8,
    track: TrackNumber,
    immed: bool,
) -> Result<Bytes, Refusal> {
    require(
        function == CLOSE_TRACK || function == CLOSE_SESSION,
        Refusal::Range,
    )?;
    let mut bytes = with_length(CLOSE_TRACK_SESSION, 0);
    if immed {
        bytes[1] = CLOSE_IMMED;
    }
    bytes[2] = function;
    bytes[4..6].copy_from_slice(&track.0.to_be_bytes());
    Ok(Bytes::Ten(bytes))
}

/// Twelve bytes with 01h in byte 1, 11h with Immed.
pub fn blank(immed: bool) -> Bytes {
    let mut bytes = [0; 12];
    bytes[0] = BLANK;
    bytes[1] = BLANK_MINIMALLY;
    if immed {
        bytes[1] |= BLANK_IMMED;
    }
    Bytes::Twelve(bytes)
}

pub fn test_unit_ready() -> Bytes {
    Bytes::Six([TEST_UNIT_READY, 0, 0, 0, 0, 0])
}

pub fn request_sense() -> Bytes {
    Bytes::Six([REQUEST_SENSE, 0, 0, 0, SENSE_LENGTH, 0])
}

/// Whether a command is a 35h, a 5Bh or an A1h with Immed set.
pub fn has_immed(bytes: &[u8]) -> bool {
    match bytes[0] {
        SYNCHRONIZE_CACHE => bytes[1] & SYNCHRONIZE_IMMED != 0,
        CLOSE_TRACK_SESSION => bytes[1] & CLOSE_IMMED != 0,
        BLANK => bytes[1] & BLANK_IMMED != 0,
        _ => false,
    }
}

#[cfg(test)]
mod tests {
    use super::*;
    use crate::hex::plain;
    use crate::times::time_of;

    #[test]
    fn fixed_commands() {
        assert_eq!(plain(&get_configuration()), "46 00 00 00 00 00 00 00 08 00");
        assert_eq!(
            plain(&read_disc_information()),
            "51 00 00 00 00 00 00 00 22 00"
        );
        assert_eq!(
            plain(&read_track_information()),
            "52 01 00 00 00 FF 00 00 30 00"
        );
        assert_eq!(plain(&mode_select()), "55 10 00 00 00 00 00 00 3C 00");
        assert_eq!(
            plain(&synchronize_cache(false)),
            "35 00 00 00 00 00 00 00 00 00"
        );
        assert_eq!(plain(&test_unit_ready()), "00 00 00 00 00 00");
        assert_eq!(plain(&request_sense()), "03 00 00 00 12 00");
    }

    /// Bench sheet: first SAO WRITE.
    #[test]
    fn bench_write() {
        let bytes = write(Address(-150), BlockCount(16)).unwrap();
        assert_eq!(plain(&bytes), "2A 00 FF FF FF 6A 00 00 10 00");
    }

    #[test]
    fn write_ranges() {
        let passes = |address, count| write(Address(address), BlockCount(count)).is_ok();
        assert!(passes(404_849, 16) && passes(0, 1) && passes(-150, 1));
        for (address, count) in [(-151, 1), (404_850, 1), (0, 0), (0, 17), (i64::MIN, 1)] {
            assert!(!passes(address, count));
        }
        for address in [-45_151, -45_150, -45_149, -152, 449_849, 449_850] {
            assert!(!passes(address, 1));
        }
        let bytes = write(Address(404_849), BlockCount(1)).unwrap();
        assert_eq!(plain(&bytes), "2A 00 00 06 2D 71 00 00 01 00");
    }

    /// The lead-in's addresses have a time, but no WRITE starts there.
    #[test]
    fn no_write_in_the_lead_in() {
        for address in [-45_150, -151] {
            assert!(time_of(Address(address)).is_ok());
            let refused = write(Address(address), BlockCount(16));
            assert_eq!(refused, Err(Refusal::Range));
        }
    }

    #[test]
    fn cue_sheet_lengths() {
        for length in 0..=1_000 {
            let entries = length / 8;
            let valid = length == 8 * entries && (4..=102).contains(&entries);
            assert_eq!(send_cue_sheet(length).is_ok(), valid);
        }
        let bytes = send_cue_sheet(816).unwrap();
        assert_eq!(plain(&bytes), "5D 00 00 00 00 00 00 03 30 00");
        assert_eq!(send_cue_sheet(65_536 + 32), Err(Refusal::Range));
    }

    #[test]
    fn close_functions() {
        let close = |function, track| close_track_session(function, TrackNumber(track), false);
        assert_eq!(
            plain(&close(1, 0xFF).unwrap()),
            "5B 00 01 00 00 FF 00 00 00 00"
        );
        assert_eq!(
            plain(&close(2, 0).unwrap()),
            "5B 00 02 00 00 00 00 00 00 00"
        );
        assert_eq!(
            plain(&close(2, 0xABCD).unwrap()),
            "5B 00 02 00 AB CD 00 00 00 00"
        );
        assert_eq!(close(0, 0), Err(Refusal::Range));
        assert_eq!(close(3, 0), Err(Refusal::Range));
    }

    #[test]
    fn immed_bits() {
        assert_eq!(
            plain(&synchronize_cache(true)),
            "35 02 00 00 00 00 00 00 00 00"
        );
        let close = |function, track| close_track_session(function, TrackNumber(track), true);
        assert_eq!(
            plain(&close(1, 0xFF).unwrap()),
            "5B 01 01 00 00 FF 00 00 00 00"
        );
        assert_eq!(
            plain(&close(2, 0).unwrap()),
            "5B 01 02 00 00 00 00 00 00 00"
        );
        assert_eq!(close(3, 0), Err(Refusal::Range));
        assert!(has_immed(&synchronize_cache(true)) && has_immed(&close(2, 0).unwrap()));
        assert!(!has_immed(&synchronize_cache(false)) && !has_immed(&read_track_information()));
    }

    /// Document 02, Ask 2: twelve bytes, 01h in byte 1, 11h with Immed.
    #[test]
    fn blank_bytes() {
        let zeros = " 00".repeat(10);
        assert_eq!(plain(&blank(false)), format!("A1 01{zeros}"));
        assert_eq!(plain(&blank(true)), format!("A1 11{zeros}"));
        assert!(has_immed(&blank(true)) && !has_immed(&blank(false)));
    }
}
