//! Odd replies to the polls 00h and 03h, for random jobs.

use second::blocks::Reply;
use second::rng::Rng;
use second::wellformed::{progress_reply, sense_reply};

/// Progress at the ends of its bytes.
const EDGES: [u16; 8] = [0, 1, 0xFF, 0x100, 0x7FFF, 0x8000, 0xFF00, 0xFFFF];

/// A reply to 00h: not ready or nearly so, or good with data.
pub fn ready(rng: &mut Rng) -> (Reply, String) {
    let ascq = rng.byte();
    let ascq = rng.pick(&[0x00, 0x01, 0x04, 0x07, 0x08, 0xFF, ascq]);
    let code = rng.pick(&[0x70, 0xF0]);
    let mut reply = sense_reply(code, 0x02, 0x04, ascq);
    let data = &mut reply.data;
    let note = match rng.below(10) {
        0 => {
            data[0] += 1;
            "deferred not ready"
        }
        1 => {
            data[12] = rng.pick(&[0x00, 0x03, 0x05, 0x3A]);
            "not ready with another ASC"
        }
        2 => {
            data[2] = rng.pick(&[0x00, 0x01, 0x03, 0x05, 0x06, 0x0B]);
            "not ready with another key"
        }
        3 => {
            data.truncate(rng.pick(&[13, 14]));
            "not ready of 13 or 14 bytes"
        }
        4 => {
            data[0] = rng.pick(&[0x72, 0x73, 0xF2, 0x00]);
            "not ready with another response code"
        }
        5..=7 => {
            data[2] |= rng.byte() & 0xF0;
            data[15..].copy_from_slice(&[0x80, rng.byte(), rng.byte()]);
            "not ready, with progress that doesn't count"
        }
        _ => {
            let length = rng.pick(&[1, 14, 18, 506]);
            reply = Reply::good(&rng.bytes(length));
            "good with data that doesn't count"
        }
    };
    (reply, format!("{note}, ASCQ {ascq:02X}h"))
}

/// A good reply to 03h: too short, just long enough, or with odd bytes.
pub fn sense(rng: &mut Rng) -> (Reply, String) {
    let any = rng.next_u64() as u16;
    let progress = rng.pick(&EDGES);
    let progress = rng.pick(&[progress, progress, any]);
    let mut reply = progress_reply(progress);
    let data = &mut reply.data;
    let note = match rng.below(8) {
        0..=1 => {
            data.truncate(rng.pick(&[0, 1, 14, 15, 16, 17, 17]));
            format!("good, {} bytes", data.len())
        }
        2 => {
            data.resize(rng.pick(&[18, 19, 20, 252, 506]), rng.byte());
            format!("good, {} bytes, progress {progress}", data.len())
        }
        3 => {
            data[15] = rng.byte() & 0x7F;
            data[16..].copy_from_slice(&any.to_be_bytes());
            "good, progress that is not valid".to_string()
        }
        4 => {
            let length = rng.pick(&[18, 18, 19, 100]);
            *data = rng.bytes(length);
            "good, any bytes".to_string()
        }
        5 => {
            data[15] = 0x80 | rng.byte();
            data[16..].copy_from_slice(&progress.to_be_bytes());
            format!("good, byte 15 is {:02X}h, progress {progress}", data[15])
        }
        _ => format!("good, progress {progress}"),
    };
    (reply, note)
}
