//! The mode data with the write parameters page, which goes with 55h.

use crate::refusal::Refusal;
use crate::units::{Kind, Method, Order};

pub const MODE_DATA: usize = 60;
/// 8 zero bytes stand ahead of the page.
const HEADER: usize = 8;
const AUDIO_PAUSE: u8 = 150;

/// Makes the mode data of an order for a track of a kind. Refuses with 3 for
/// an order that no block holds, with 8 for SAO with keep appendable.
pub fn mode_data(order: &Order, kind: Kind) -> Result<[u8; MODE_DATA], Refusal> {
    order.check_fields()?;
    order.check_keep()?;
    let mut bytes = [0; MODE_DATA];
    let page = &mut bytes[HEADER..];
    page[0] = 0x05;
    page[1] = 0x32;
    page[2] = protection(order) + write_type(order.method);
    page[3] = multi_session(order) + track_mode(kind);
    page[4] = block_type(kind);
    page[15] = AUDIO_PAUSE;
    Ok(bytes)
}

fn protection(order: &Order) -> u8 {
    if order.flags.protect {
        0x40
    } else {
        0
    }
}

fn write_type(method: Method) -> u8 {
    match method {
        Method::Tao => 1,
        Method::Sao => 2,
    }
}

fn multi_session(order: &Order) -> u8 {
    if order.flags.keep {
        0xC0
    } else {
        0
    }
}

fn track_mode(kind: Kind) -> u8 {
    match kind {
        Kind::Data => 4,
        Kind::Audio => 0,
    }
}

fn block_type(kind: Kind) -> u8 {
    match kind {
        Kind::Data => 8,
        Kind::Audio => 0,
    }
}

#[cfg(test)]
mod tests {
    use super::*;
    use crate::units::{Flags, Recipe, Track};

    fn order(method: Method, flags: u8, count: usize) -> Order {
        let track = Track {
            kind: Kind::Audio,
            length: 0,
        };
        Order {
            method,
            flags: Flags::from_byte(flags).unwrap(),
            tracks: vec![track; count],
            recipe: Recipe::default(),
        }
    }

    /// Bench sheet: TAO data, keep, protected: page starts 05 32 41 C4 08.
    #[test]
    fn bench_page() {
        let bytes = mode_data(&order(Method::Tao, 3, 1), Kind::Data).unwrap();
        assert_eq!(bytes[..8], [0; 8]);
        assert_eq!(bytes[8..13], [0x05, 0x32, 0x41, 0xC4, 0x08]);
        assert_eq!(bytes[13..22], [0; 9]);
        assert_eq!(bytes[22..24], [0, 150]);
        assert_eq!(bytes[24..], [0; 36]);
    }

    #[test]
    fn other_pages() {
        let start = |method, flags, kind| {
            let bytes = mode_data(&order(method, flags, 2), kind).unwrap();
            [bytes[10], bytes[11], bytes[12]]
        };
        assert_eq!(start(Method::Tao, 0, Kind::Audio), [0x01, 0x00, 0]);
        assert_eq!(start(Method::Tao, 1, Kind::Audio), [0x01, 0xC0, 0]);
        assert_eq!(start(Method::Sao, 0, Kind::Audio), [0x02, 0x00, 0]);
        assert_eq!(start(Method::Sao, 2, Kind::Audio), [0x42, 0x00, 0]);
        assert_eq!(start(Method::Sao, 2, Kind::Data), [0x42, 0x04, 8]);
    }

    #[test]
    fn refusals() {
        let make = |method, flags, count| mode_data(&order(method, flags, count), Kind::Data);
        assert_eq!(make(Method::Sao, 1, 0), Err(Refusal::Field));
        assert_eq!(make(Method::Tao, 0, 100), Err(Refusal::Field));
        assert_eq!(make(Method::Sao, 1, 1), Err(Refusal::SessionAtOnce));
        assert_eq!(make(Method::Sao, 3, 99), Err(Refusal::SessionAtOnce));
    }

    /// Document 02, Ask 7: recipe 1 changes no page, and with SAO is 3 ahead of
    /// 8.
    #[test]
    fn recipes() {
        for flags in 0..16 {
            for kind in [Kind::Audio, Kind::Data] {
                let old = order(Method::Tao, flags, 2);
                let mut new = old.clone();
                new.recipe = Recipe::New;
                assert_eq!(mode_data(&new, kind), mode_data(&old, kind));
                assert!(mode_data(&new, kind).is_ok());
                new.method = Method::Sao;
                assert_eq!(mode_data(&new, kind), Err(Refusal::Field));
            }
        }
    }
}
