//! Material for tests of CD-TEXT: runs of titles, and packs of any text, right
//! or wrong, with right check bytes.

use crate::cdtext::{
    check_number, CHARACTER_CODE, CHECKED, HEADER, LANGUAGE, PACK, PAYLOAD, SIZES, SIZE_PACKS,
    TITLES,
};

/// A run of titles of these lengths. Neighbouring bytes and titles differ.
pub fn run_of_lengths(lengths: &[usize]) -> Vec<u8> {
    let mut run = Vec::new();
    for (title, &length) in lengths.iter().enumerate() {
        run.extend((0..length).map(|place| 0x20 + ((7 * title + place + 33) % 95) as u8));
        run.push(0);
    }
    run
}

/// The packs of a text that may break any rule: each zero counts as the end of
/// a title, and `titles` goes into the size record. Numbers beyond a byte wrap.
pub fn forge(text: &[u8], titles: u8) -> Vec<u8> {
    let mut packs = Vec::new();
    let (mut track, mut characters) = (1u8, 0usize);
    for (number, piece) in text.chunks(PAYLOAD).enumerate() {
        let position = characters.min(15) as u8;
        push_pack(&mut packs, [TITLES, track, number as u8, position], piece);
        for &byte in piece {
            if byte == 0 {
                track = track.wrapping_add(1);
                characters = 0;
            } else {
                characters += 1;
            }
        }
    }
    push_sizes(&mut packs, titles);
    packs
}

/// The packs of a run of titles.
pub fn packs_of(run: &[u8]) -> Vec<u8> {
    let titles = run.iter().filter(|&&byte| byte == 0).count();
    forge(run, titles as u8)
}

/// Three size packs, as they follow the text packs that stand there.
fn push_sizes(packs: &mut Vec<u8>, titles: u8) {
    let text_packs = (packs.len() / PACK) as u8;
    let last = text_packs.wrapping_add(SIZE_PACKS as u8 - 1);
    let sizes: [&[u8]; SIZE_PACKS] = [
        &[CHARACTER_CODE, 1, titles, 0, text_packs],
        &[0, 0, 0, 0, 0, 0, 0, SIZE_PACKS as u8, last],
        &[0, 0, 0, 0, LANGUAGE],
    ];
    for (nth, payload) in (0u8..).zip(sizes) {
        let number = text_packs.wrapping_add(nth);
        push_pack(packs, [SIZES, nth, number, 0], payload);
    }
}

fn push_pack(packs: &mut Vec<u8>, header: [u8; HEADER], payload: &[u8]) {
    let mut pack = [0; PACK];
    pack[..HEADER].copy_from_slice(&header);
    pack[HEADER..][..payload.len()].copy_from_slice(payload);
    repair(&mut pack);
    packs.extend(pack);
}

/// Makes the check bytes of all whole packs right.
pub fn repair(packs: &mut [u8]) {
    for pack in packs.chunks_exact_mut(PACK) {
        let check = check_number(&pack[..CHECKED]);
        pack[CHECKED..].copy_from_slice(&check.to_be_bytes());
    }
}

/// Numbers all whole packs from 0.
pub fn renumber(packs: &mut [u8]) {
    for (number, pack) in packs.chunks_exact_mut(PACK).enumerate() {
        pack[2] = number as u8;
    }
}

/// Where a byte of the size record stands in the packs.
pub fn record_place(packs: &[u8], byte: usize) -> usize {
    let first = packs.len() - SIZE_PACKS * PACK;
    first + byte / PAYLOAD * PACK + HEADER + byte % PAYLOAD
}

#[cfg(test)]
mod tests {
    use super::*;
    use crate::cdtext::make_packs;

    /// Of allowed titles these are the packs that are made.
    #[test]
    fn forged_like_made() {
        for lengths in [vec![1], vec![12, 4], vec![24, 11, 160], vec![29; 99]] {
            let run = run_of_lengths(&lengths);
            let packs = packs_of(&run);
            let mut made = vec![0; packs.len()];
            assert_eq!(make_packs(&run, &mut made), Ok(packs.len() / PACK));
            assert_eq!(made, packs);
            assert_eq!(packs[record_place(&packs, 2)], lengths.len() as u8);
            assert_eq!(packs[record_place(&packs, 28)], LANGUAGE);
        }
    }
}
