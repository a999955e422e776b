//! Well-formed replies of a drive, of the shapes that job texts name.

use crate::blocks::Reply;

/// A good 46h reply: 8 bytes, length field 4.
pub fn profile_reply(profile: u16) -> Reply {
    let [high, low] = profile.to_be_bytes();
    Reply::good(&[0, 0, 0, 4, 0, 0, high, low])
}

/// A good 51h reply: 34 bytes, length field 32, status 0 to 3, Erasable.
pub fn disc_reply(status: u8, erasable: bool) -> Reply {
    let mut data = [0; 34];
    data[1] = 32;
    data[2] = (status & 3) + (u8::from(erasable) << 4);
    Reply::good(&data)
}

#[derive(Clone, Copy, PartialEq, Eq, Debug)]
pub struct TrackFields {
    pub next_writable: u32,
    pub free: u32,
    pub damaged: bool,
    pub address_valid: bool,
}

/// A good 52h reply: 48 bytes, length field 46, as 52h asks for.
pub fn track_reply(fields: TrackFields) -> Reply {
    let mut data = [0; 48];
    data[1] = 46;
    data[5] = u8::from(fields.damaged) << 5;
    data[7] = u8::from(fields.address_valid);
    data[12..16].copy_from_slice(&fields.next_writable.to_be_bytes());
    data[16..20].copy_from_slice(&fields.free.to_be_bytes());
    Reply::good(&data)
}

/// A good 03h reply: 18 bytes of sense data. With progress it says that a
/// long write goes on, with none that there is nothing to tell.
pub fn progress_reply(progress: u16) -> Reply {
    let mut data = [0; 18];
    data[0] = 0x70;
    data[7] = 10;
    if progress > 0 {
        data[2] = 0x02;
        data[12..14].copy_from_slice(&[0x04, 0x08]);
        data[15] = 0x80;
        data[16..].copy_from_slice(&progress.to_be_bytes());
    }
    Reply::good(&data)
}

/// A failed reply with 18 bytes of sense data.
pub fn sense_reply(code: u8, key: u8, asc: u8, ascq: u8) -> Reply {
    let mut data = [0; 18];
    data[0] = code;
    data[2] = key;
    data[7] = 10;
    data[12] = asc;
    data[13] = ascq;
    Reply::failed(&data)
}

/// The busy reply: 70h with 02h/04h/08h.
pub fn busy_reply() -> Reply {
    sense_reply(0x70, 0x02, 0x04, 0x08)
}
