//! "Reading the replies": the fields of good 46h, 51h, 52h and 03h replies,
//! and the sense data of failed ones.

use crate::refusal::{require, Refusal, Sense};
use crate::units::{Address, BlockCount};

const BUSY: Sense = Sense {
    key: 0x02,
    asc: 0x04,
    ascq: 0x08,
};

#[derive(Clone, Copy, PartialEq, Eq, Debug)]
pub enum Disc {
    Blank,
    Appendable,
    Finalized,
    Other,
}

/// What a 51h reply says.
#[derive(Clone, Copy, PartialEq, Eq, Debug)]
pub struct DiscInformation {
    pub status: Disc,
    pub erasable: bool,
}

#[derive(Clone, Copy, PartialEq, Eq, Debug)]
pub struct TrackInformation {
    pub damage: bool,
    /// The Next Writable Address counts (NWA_V).
    pub address_valid: bool,
    pub next_writable: Address,
    pub free: BlockCount,
}

fn word(data: &[u8], place: usize) -> u16 {
    u16::from_be_bytes([data[place], data[place + 1]])
}

fn long(data: &[u8], place: usize) -> u32 {
    u32::from_be_bytes([
        data[place],
        data[place + 1],
        data[place + 2],
        data[place + 3],
    ])
}

/// 46h: at least 8 bytes, length field (0 to 3) at least 4; else 4.
pub fn profile(data: &[u8]) -> Result<u16, Refusal> {
    require(data.len() >= 8, Refusal::Reply)?;
    require(long(data, 0) >= 4, Refusal::Reply)?;
    Ok(word(data, 6))
}

/// 51h: at least 34 bytes, length field (0, 1) at least 32, and of the type
/// with bits 7 to 5 of byte 2 zero; else 4. Erasable is bit 4 of byte 2.
pub fn disc(data: &[u8]) -> Result<DiscInformation, Refusal> {
    require(data.len() >= 34, Refusal::Reply)?;
    require(word(data, 0) >= 32, Refusal::Reply)?;
    require(data[2] >> 5 == 0, Refusal::Reply)?;
    let status = match data[2] & 3 {
        0 => Disc::Blank,
        1 => Disc::Appendable,
        2 => Disc::Finalized,
        _ => Disc::Other,
    };
    let erasable = data[2] & (1 << 4) != 0;
    Ok(DiscInformation { status, erasable })
}

/// 52h: at least 28 bytes, length field (0, 1) at least 26; else 4.
pub fn track_information(data: &[u8]) -> Result<TrackInformation, Refusal> {
    require(data.len() >= 28, Refusal::Reply)?;
    require(word(data, 0) >= 26, Refusal::Reply)?;
    Ok(TrackInformation {
        damage: data[5] & (1 << 5) != 0,
        address_valid: data[7] & 1 != 0,
        next_writable: Address(long(data, 12).into()),
        free: BlockCount(long(data, 16).into()),
    })
}

/// 03h: at least 18 bytes, else 4. Progress is bytes 16 and 17 when bit 7 of
/// byte 15 is set, else 0.
pub fn progress(data: &[u8]) -> Result<u16, Refusal> {
    require(data.len() >= 18, Refusal::Reply)?;
    let valid = data[15] & (1 << 7) != 0;
    Ok(if valid { word(data, 16) } else { 0 })
}

#[derive(Clone, Copy, PartialEq, Eq, Debug)]
pub enum Failure {
    /// The drive took nothing; the same command goes again.
    Busy,
    Stop(Sense),
}

/// The triple of a failed reply, and whether it is current (70h): 0, 0, 0 and
/// not current where the reply has none.
fn sense(data: &[u8]) -> (Sense, bool) {
    let code = data.first().map_or(0, |byte| byte % 128);
    let known = data.len() >= 14 && (code == 0x70 || code == 0x71);
    let (key, asc, ascq) = if known {
        (data[2] % 16, data[12], data[13])
    } else {
        (0, 0, 0)
    };
    (Sense { key, asc, ascq }, known && code == 0x70)
}

/// What a failed reply says. Only current sense data (70h) can say busy;
/// deferred (71h) cannot.
pub fn failure(data: &[u8]) -> Failure {
    match sense(data) {
        (BUSY, true) => Failure::Busy,
        (sense, _) => Failure::Stop(sense),
    }
}

/// Whether a failed 00h says not ready: code 70h with 02h/04h, any ASCQ.
pub fn not_ready(data: &[u8]) -> bool {
    let (sense, current) = sense(data);
    current && sense.key == 0x02 && sense.asc == 0x04
}

#[cfg(test)]
mod tests {
    use super::*;

    fn sense_data(code: u8, key: u8, length: usize) -> Vec<u8> {
        let mut data = vec![code, 0, key, 0, 0, 0, 0, 10, 0, 0, 0, 0, 4, 8, 0, 0];
        data.truncate(length);
        data
    }

    fn stop(key: u8, asc: u8, ascq: u8) -> Failure {
        Failure::Stop(Sense { key, asc, ascq })
    }

    #[test]
    fn busy_is_current_sense_alone() {
        assert_eq!(failure(&sense_data(0x70, 2, 14)), Failure::Busy);
        assert_eq!(failure(&sense_data(0xF0, 2, 16)), Failure::Busy);
        assert_eq!(failure(&sense_data(0x70, 0xE2, 14)), Failure::Busy);
        assert_eq!(failure(&sense_data(0x71, 2, 14)), stop(2, 4, 8));
        assert_eq!(failure(&sense_data(0xF1, 2, 14)), stop(2, 4, 8));
        assert_eq!(failure(&sense_data(0x70, 3, 14)), stop(3, 4, 8));
        assert_eq!(failure(&sense_data(0x70, 2, 13)), stop(0, 0, 0));
        assert_eq!(failure(&sense_data(0x72, 2, 14)), stop(0, 0, 0));
        assert_eq!(failure(&[]), stop(0, 0, 0));
    }

    /// Any ASCQ, 08h too; deferred sense data never.
    #[test]
    fn not_ready_is_current_sense_alone() {
        for ascq in [0, 1, 4, 7, 8, 0xFF] {
            let mut data = sense_data(0x70, 2, 14);
            data[13] = ascq;
            assert!(not_ready(&data));
            data[0] = 0xF0;
            assert!(not_ready(&data));
            data[0] = 0x71;
            assert!(!not_ready(&data));
        }
        assert!(not_ready(&sense_data(0x70, 0xF2, 16)));
        assert!(!not_ready(&sense_data(0x70, 3, 14)));
        assert!(!not_ready(&sense_data(0x70, 2, 13)));
        assert!(!not_ready(&sense_data(0x72, 2, 14)));
        assert!(!not_ready(&sense_data(0xF1, 2, 14)));
        let mut data = sense_data(0x70, 2, 14);
        data[12] = 0x3A;
        assert!(!not_ready(&data));
        assert!(!not_ready(&[]));
    }

    /// Bytes 15 to 17 count and nothing else.
    #[test]
    fn progress_of_sense_data() {
        let mut data = [0xFF; 19];
        data[15..18].copy_from_slice(&[0x80, 0x12, 0x34]);
        assert_eq!(progress(&data), Ok(0x1234));
        assert_eq!(progress(&data[..18]), Ok(0x1234));
        assert_eq!(progress(&data[..17]), Err(Refusal::Reply));
        assert_eq!(progress(&[]), Err(Refusal::Reply));
        data[15] = 0x7F;
        assert_eq!(progress(&data), Ok(0));
        assert_eq!(progress(&[0; 18]), Ok(0));
    }

    #[test]
    fn profiles() {
        assert_eq!(profile(&[0, 0, 0, 4, 9, 9, 0, 9]), Ok(9));
        assert_eq!(profile(&[0xFF, 0, 0, 0, 0, 0, 1, 0x0A, 7]), Ok(0x010A));
        assert_eq!(profile(&[0, 0, 0, 3, 0, 0, 0, 9]), Err(Refusal::Reply));
        assert_eq!(profile(&[0, 0, 0, 4, 0, 0, 0]), Err(Refusal::Reply));
    }

    #[test]
    fn discs() {
        let read = |status, erasable| Ok(DiscInformation { status, erasable });
        let mut data = [0; 34];
        data[1] = 32;
        data[2] = 0x1D;
        assert_eq!(disc(&data), read(Disc::Appendable, true));
        assert_eq!(disc(&data[..33]), Err(Refusal::Reply));
        data[1] = 31;
        assert_eq!(disc(&data), Err(Refusal::Reply));
        data[0] = 1;
        assert_eq!(disc(&data), read(Disc::Appendable, true));
        data[2] = 0x20;
        assert_eq!(disc(&data), Err(Refusal::Reply));
    }

    /// Byte 2: bits 1 and 0 the status, bit 4 Erasable, bits 7 to 5 zero.
    #[test]
    fn byte_2_of_a_disc() {
        let mut data = [0xFF; 34];
        for byte in 0..=255 {
            data[2] = byte;
            let Ok(read) = disc(&data) else {
                assert!(byte >= 32);
                continue;
            };
            let statuses = [Disc::Blank, Disc::Appendable, Disc::Finalized, Disc::Other];
            assert_eq!(read.status, statuses[usize::from(byte % 4)]);
            assert!(byte < 32 && read.erasable == (byte >= 16));
        }
    }

    #[test]
    fn tracks() {
        let mut data = [0; 28];
        data[1] = 26;
        data[5] = 0x20;
        data[7] = 1;
        data[12..16].copy_from_slice(&0xFFFF_FF6Au32.to_be_bytes());
        data[16..20].copy_from_slice(&300u32.to_be_bytes());
        let read = TrackInformation {
            damage: true,
            address_valid: true,
            next_writable: Address(4_294_967_146),
            free: BlockCount(300),
        };
        assert_eq!(track_information(&data), Ok(read));
        assert_eq!(track_information(&data[..27]), Err(Refusal::Reply));
        data[1] = 25;
        assert_eq!(track_information(&data), Err(Refusal::Reply));
    }
}
