//! The 512-byte order and reply blocks.

use crate::refusal::{require, Refusal};
use crate::units::{Flags, Kind, Method, Order, Recipe, Track, MOST_TRACKS};
use std::ops::Range;

pub const BLOCK: usize = 512;
/// The check stands in bytes 510 and 511.
pub const CHECK: usize = 510;
/// A reply block holds at most this many data bytes.
pub const MOST_DATA: usize = 506;

/// Rows of an order and data of a reply start at byte 4.
const HEAD: usize = 4;
const ROW: usize = 5;
/// The recipe of an order stands behind the room of its 99 rows (document 02,
/// Ask 7).
pub const RECIPE: usize = 499;
const ORDER_TYPE: u8 = 1;
const REPLY_TYPE: u8 = 2;

#[derive(Clone, Copy, PartialEq, Eq, Debug)]
pub enum Status {
    Good,
    Failed,
}

impl Status {
    pub fn from_byte(byte: u8) -> Option<Status> {
        match byte {
            0 => Some(Status::Good),
            1 => Some(Status::Failed),
            _ => None,
        }
    }

    pub fn byte(self) -> u8 {
        match self {
            Status::Good => 0,
            Status::Failed => 1,
        }
    }
}

/// A reply of the drive: a good or failed mark with any data bytes.
#[derive(Clone, PartialEq, Eq, Debug)]
pub struct Reply {
    pub status: Status,
    pub data: Vec<u8>,
}

impl Reply {
    pub fn good(data: &[u8]) -> Reply {
        Reply {
            status: Status::Good,
            data: data.to_vec(),
        }
    }

    pub fn failed(data: &[u8]) -> Reply {
        Reply {
            status: Status::Failed,
            data: data.to_vec(),
        }
    }
}

/// The sum of bytes 0 to 509 modulo 65,536.
pub fn sum(block: &[u8; BLOCK]) -> u16 {
    block[..CHECK]
        .iter()
        .fold(0u16, |sum, &byte| sum.wrapping_add(u16::from(byte)))
}

/// Puts the right check into a block.
pub fn seal(block: &mut [u8; BLOCK]) {
    let check = sum(block).to_be_bytes();
    block[CHECK..].copy_from_slice(&check);
}

/// Numbers 1 and 2: the length, then the check.
fn open(bytes: &[u8]) -> Result<&[u8; BLOCK], Refusal> {
    let block: &[u8; BLOCK] = bytes.try_into().map_err(|_| Refusal::BlockLength)?;
    let check = u16::from_be_bytes([block[CHECK], block[CHECK + 1]]);
    require(check == sum(block), Refusal::Check)?;
    Ok(block)
}

/// Number 3: all else up to byte 509 is 0.
fn check_padding(block: &[u8; BLOCK], places: Range<usize>) -> Result<(), Refusal> {
    let zeros = block[places].iter().all(|&byte| byte == 0);
    require(zeros, Refusal::Field)
}

fn read_row(row: &[u8]) -> Result<Track, Refusal> {
    Ok(Track {
        kind: Kind::from_byte(row[0]).ok_or(Refusal::Field)?,
        length: u32::from_be_bytes([row[1], row[2], row[3], row[4]]),
    })
}

/// Reads an order block; refuses with 1, 2 or 3.
pub fn read_order(bytes: &[u8]) -> Result<Order, Refusal> {
    let block = open(bytes)?;
    require(block[0] == ORDER_TYPE, Refusal::Field)?;
    let method = Method::from_byte(block[1]).ok_or(Refusal::Field)?;
    let flags = Flags::from_byte(block[2]).ok_or(Refusal::Field)?;
    let count = usize::from(block[3]);
    require((1..=MOST_TRACKS).contains(&count), Refusal::Field)?;
    let end = HEAD + ROW * count;
    let rows = block[HEAD..end].chunks_exact(ROW);
    let tracks = rows
        .map(read_row)
        .collect::<Result<Vec<Track>, Refusal>>()?;
    check_padding(block, end..RECIPE)?;
    let recipe = Recipe::from_byte(block[RECIPE]).ok_or(Refusal::Field)?;
    check_padding(block, RECIPE + 1..CHECK)?;
    let order = Order {
        method,
        flags,
        tracks,
        recipe,
    };
    order.check_fields()?;
    Ok(order)
}

/// Makes an order block; refuses with 3.
pub fn order_block(order: &Order) -> Result<[u8; BLOCK], Refusal> {
    order.check_fields()?;
    let mut block = [0; BLOCK];
    block[0] = ORDER_TYPE;
    block[1] = order.method.byte();
    block[2] = order.flags.byte();
    block[3] = order.tracks.len() as u8;
    for (row, track) in block[HEAD..].chunks_exact_mut(ROW).zip(&order.tracks) {
        row[0] = track.kind.byte();
        row[1..].copy_from_slice(&track.length.to_be_bytes());
    }
    block[RECIPE] = order.recipe.byte();
    seal(&mut block);
    Ok(block)
}

/// Reads a reply block; refuses with 1, 2 or 3.
pub fn read_reply(bytes: &[u8]) -> Result<Reply, Refusal> {
    let block = open(bytes)?;
    require(block[0] == REPLY_TYPE, Refusal::Field)?;
    let status = Status::from_byte(block[1]).ok_or(Refusal::Field)?;
    let length = usize::from(u16::from_be_bytes([block[2], block[3]]));
    require(length <= MOST_DATA, Refusal::Field)?;
    let end = HEAD + length;
    check_padding(block, end..CHECK)?;
    Ok(Reply {
        status,
        data: block[HEAD..end].to_vec(),
    })
}

/// Makes a reply block; refuses with 3 where the data is over 506 bytes.
pub fn reply_block(reply: &Reply) -> Result<[u8; BLOCK], Refusal> {
    let length = reply.data.len();
    require(length <= MOST_DATA, Refusal::Field)?;
    let mut block = [0; BLOCK];
    block[0] = REPLY_TYPE;
    block[1] = reply.status.byte();
    block[2..HEAD].copy_from_slice(&(length as u16).to_be_bytes());
    block[HEAD..HEAD + length].copy_from_slice(&reply.data);
    seal(&mut block);
    Ok(block)
}

#[cfg(test)]
mod tests {
    use super::*;
    use crate::rng::Rng;

    fn order(method: Method, flags: u8, tracks: &[(Kind, u32)]) -> Order {
        Order {
            method,
            flags: Flags::from_byte(flags).unwrap(),
            tracks: tracks
                .iter()
                .map(|&(kind, length)| Track { kind, length })
                .collect(),
            recipe: Recipe::default(),
        }
    }

    fn many(count: usize) -> Order {
        order(Method::Tao, 0, &vec![(Kind::Data, 300); count])
    }

    /// Bench sheet: SAO, no flags, one data track of 300.
    #[test]
    fn bench_order_block() {
        let order = order(Method::Sao, 0, &[(Kind::Data, 300)]);
        let block = order_block(&order).unwrap();
        assert_eq!(block[..9], [1, 2, 0, 1, 1, 0, 0, 1, 0x2C]);
        assert!(block[9..510].iter().all(|&byte| byte == 0));
        assert_eq!(block[510..], [0x00, 0x32]);
        assert_eq!(read_order(&block), Ok(order));
    }

    /// Bench sheet: track count 0 or 100: 3; 1 and 99 pass.
    #[test]
    fn bench_track_counts() {
        for count in [0, 100, 255] {
            assert_eq!(order_block(&many(count)), Err(Refusal::Field));
            let mut block = order_block(&many(1)).unwrap();
            block[3] = count as u8;
            seal(&mut block);
            assert_eq!(read_order(&block), Err(Refusal::Field));
        }
        // Count 0 with no rows: only the count is wrong.
        let mut none = [0; BLOCK];
        none[..2].copy_from_slice(&[1, 2]);
        seal(&mut none);
        assert_eq!(read_order(&none), Err(Refusal::Field));
        for count in [1, 99] {
            let block = order_block(&many(count)).unwrap();
            assert_eq!(read_order(&block), Ok(many(count)));
        }
        assert_eq!(Refusal::Field.number(), 3);
    }

    /// Flag bits 0 to 3 pass in every mix; any other bit is 3.
    #[test]
    fn flag_bytes() {
        for flags in 0..=255 {
            let mut block = order_block(&many(2)).unwrap();
            block[2] = flags;
            seal(&mut block);
            match read_order(&block) {
                Ok(order) => assert!(flags < 16 && order_block(&order) == Ok(block)),
                Err(refusal) => assert!(flags > 15 && refusal == Refusal::Field),
            }
        }
        let immed = order(Method::Tao, 4, &[(Kind::Data, 300)]);
        assert!(immed.flags.immed && !immed.flags.keep && !immed.flags.protect);
        let erase = order(Method::Sao, 8, &[(Kind::Data, 300)]);
        assert!(erase.flags.erase && !immed.flags.erase && !erase.flags.immed);
    }

    /// Document 02, Ask 7: byte 499 is 0 or 1, and 1 with TAO alone. Where 99
    /// rows end right before it, it is no part of them.
    #[test]
    fn recipe_bytes() {
        for (method, count) in [
            (Method::Tao, 1),
            (Method::Tao, 99),
            (Method::Sao, 2),
            (Method::Sao, 99),
        ] {
            let old = order(method, 5, &vec![(Kind::Data, 300); count]);
            for byte in 0..=255 {
                let mut block = order_block(&old).unwrap();
                assert_eq!(block[499], 0);
                block[499] = byte;
                assert!(byte == 0 || read_order(&block) == Err(Refusal::Check));
                seal(&mut block);
                let mut expected = old.clone();
                match (byte, method) {
                    (0, _) => {}
                    (1, Method::Tao) => expected.recipe = Recipe::New,
                    _ => {
                        assert_eq!(read_order(&block), Err(Refusal::Field));
                        continue;
                    }
                }
                assert_eq!(read_order(&block), Ok(expected.clone()));
                assert_eq!(order_block(&expected), Ok(block));
            }
        }
        let mut sao = order(Method::Sao, 0, &[(Kind::Data, 300)]);
        sao.recipe = Recipe::New;
        assert_eq!(order_block(&sao), Err(Refusal::Field));
    }

    /// All else up to byte 509 is 0, on both sides of the recipe.
    #[test]
    fn padding_around_the_recipe() {
        for recipe in [Recipe::Old, Recipe::New] {
            let mut order = many(1);
            order.recipe = recipe;
            let good = order_block(&order).unwrap();
            assert_eq!(read_order(&good), Ok(order));
            for place in (9..499).chain(500..510) {
                let mut block = good;
                block[place] = 1;
                seal(&mut block);
                assert_eq!(read_order(&block), Err(Refusal::Field));
            }
        }
    }

    #[test]
    fn faults_in_order_1_2_3() {
        let mut block = order_block(&many(2)).unwrap();
        block[0] = 9;
        assert_eq!(read_order(&block[..511]), Err(Refusal::BlockLength));
        assert_eq!(read_order(&block), Err(Refusal::Check));
        seal(&mut block);
        assert_eq!(read_order(&block), Err(Refusal::Field));
        assert_eq!(read_order(&[]), Err(Refusal::BlockLength));
        assert_eq!(read_order(&[0; 513]), Err(Refusal::BlockLength));
        assert_eq!(read_order(&[0; 512]), Err(Refusal::Field));
    }

    /// With any one byte changed and the check made good, what is read back
    /// writes the very same block, or the block is refused as 3.
    #[test]
    fn order_blocks_are_read_exactly() {
        let good = order_block(&order(
            Method::Tao,
            3,
            &[(Kind::Data, u32::MAX), (Kind::Audio, 0), (Kind::Data, 317)],
        ))
        .unwrap();
        for place in 0..CHECK {
            for value in 0..=255 {
                let mut block = good;
                block[place] = value;
                seal(&mut block);
                match read_order(&block) {
                    Ok(order) => assert_eq!(order_block(&order), Ok(block)),
                    Err(refusal) => assert_eq!(refusal, Refusal::Field),
                }
            }
        }
    }

    #[test]
    fn reply_blocks_are_read_exactly() {
        let mut rng = Rng::new(1);
        for length in [0, 1, 14, 505, 506] {
            let reply = Reply::failed(&rng.bytes(length));
            let good = reply_block(&reply).unwrap();
            assert_eq!(read_reply(&good), Ok(reply));
            for place in 0..CHECK {
                let mut block = good;
                block[place] ^= 1 << rng.below(8);
                assert_eq!(read_reply(&block), Err(Refusal::Check));
                seal(&mut block);
                match read_reply(&block) {
                    Ok(reply) => assert_eq!(reply_block(&reply), Ok(block)),
                    Err(refusal) => assert_eq!(refusal, Refusal::Field),
                }
            }
        }
    }

    #[test]
    fn reply_data_over_506_bytes() {
        assert_eq!(reply_block(&Reply::good(&[0; 507])), Err(Refusal::Field));
        let mut block = reply_block(&Reply::good(&[7; 506])).unwrap();
        block[3] = 0xFB;
        seal(&mut block);
        assert_eq!(read_reply(&block), Err(Refusal::Field));
    }

    /// The sum passes 65,535 and starts again from 0.
    #[test]
    fn the_check_wraps() {
        let block = reply_block(&Reply::good(&[0xFF; 506])).unwrap();
        let exact: u32 = block[..510].iter().map(|&byte| u32::from(byte)).sum();
        assert!(exact > 65_535);
        assert_eq!(u32::from(sum(&block)), exact % 65_536);
        assert_eq!(read_reply(&block), Ok(Reply::good(&[0xFF; 506])));
    }
}
