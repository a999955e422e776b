//! CD-TEXT packs (document 02, Ask 4; document 000, "Format of CD-TEXT
//! packs"), written without sight of the program that
//! it is compared with. Titles stand in one run of bytes,
//! each ended by a zero byte; the first belongs to track 1.
//!
//! The maker looks back over the run from each pack's first byte. The reader
//! follows the packs byte by byte and makes none.

use crate::refusal::{require, Refusal};
use crate::units::MOST_TRACKS;

/// A pack is a header of 4 bytes, a payload of 12 and two check bytes.
pub const PACK: usize = 18;
pub const HEADER: usize = 4;
pub const PAYLOAD: usize = 12;
/// The check bytes are those of the bytes ahead of them.
pub const CHECKED: usize = HEADER + PAYLOAD;
/// Three packs of sizes follow the text.
pub const SIZE_PACKS: usize = 3;
pub const MOST_PACKS: usize = 255;
/// A run that fits in the packs has at most this many bytes.
pub const MOST_RUN: usize = (MOST_PACKS - SIZE_PACKS) * PAYLOAD;
pub const MOST_CHARACTERS: usize = 160;

/// The pack types.
pub const TITLES: u8 = 0x80;
pub const SIZES: u8 = 0x8F;
/// 7-bit ASCII and English, in the size record.
pub const CHARACTER_CODE: u8 = 0x01;
pub const LANGUAGE: u8 = 0x09;

/// The character position has four bits and ends here.
const LAST_POSITION: usize = 15;
const POLYNOMIAL: u16 = 0x1021;

// ---- check bytes ----

/// The two check bytes of some bytes as a number: the remainder by 1021h from
/// the start 0, all bits inverted. Worked out bit by bit.
pub fn check_number(bytes: &[u8]) -> u16 {
    let mut remainder = 0u16;
    for &byte in bytes {
        remainder ^= u16::from(byte) << 8;
        for _ in 0..8 {
            let divides = remainder & 0x8000 != 0;
            remainder <<= 1;
            if divides {
                remainder ^= POLYNOMIAL;
            }
        }
    }
    !remainder
}

fn is_character(byte: u8) -> bool {
    (0x20..=0x7E).contains(&byte)
}

// ---- from titles to packs ----

/// Puts the packs of a run of titles at the start of a lent buffer and gives
/// their number. Refuses with 17, then 19, then 11.
pub fn make_packs(run: &[u8], buffer: &mut [u8]) -> Result<usize, Refusal> {
    let titles = count_titles(run).ok_or(Refusal::Title)?;
    let text_packs = run.len().div_ceil(PAYLOAD);
    let packs = text_packs + SIZE_PACKS;
    require(packs <= MOST_PACKS, Refusal::PackCount)?;
    let lent = buffer.get_mut(..packs * PACK).ok_or(Refusal::Buffer)?;
    let (text, sizes) = lent.split_at_mut(text_packs * PACK);
    write_text(run, text);
    write_sizes(titles, text_packs as u8, sizes);
    Ok(packs)
}

/// The count of titles, if it and each of them is allowed and each has its
/// ending zero.
fn count_titles(run: &[u8]) -> Option<u8> {
    let inner = run.strip_suffix(&[0])?;
    let mut titles = inner.split(|&byte| byte == 0);
    let count = titles.clone().count();
    let allowed = count <= MOST_TRACKS && titles.all(is_allowed);
    allowed.then_some(count as u8)
}

fn is_allowed(title: &[u8]) -> bool {
    let fits = (1..=MOST_CHARACTERS).contains(&title.len());
    fits && title.iter().all(|&byte| is_character(byte))
}

/// A pack's track is one more than the zeros ahead of its text, and its
/// position the count of characters since the last of them.
fn write_text(run: &[u8], packs: &mut [u8]) {
    let mut track = 1;
    let pieces = run.chunks(PAYLOAD).zip(packs.chunks_exact_mut(PACK));
    for (number, (piece, pack)) in pieces.enumerate() {
        let earlier = run[..number * PAYLOAD].iter().rev().take(LAST_POSITION);
        let position = earlier.take_while(|&&byte| byte != 0).count();
        write_pack(pack, [TITLES, track, number as u8, position as u8], piece);
        track += piece.iter().filter(|&&byte| byte == 0).count() as u8;
    }
}

/// The record of sizes goes over three packs; their numbers run on.
fn write_sizes(titles: u8, text_packs: u8, packs: &mut [u8]) {
    let mut record = [0; SIZE_PACKS * PAYLOAD];
    record[0] = CHARACTER_CODE;
    record[1] = 1;
    record[2] = titles;
    record[4] = text_packs;
    record[19] = SIZE_PACKS as u8;
    record[20] = text_packs + SIZE_PACKS as u8 - 1;
    record[28] = LANGUAGE;
    let pieces = record.chunks(PAYLOAD).zip(packs.chunks_exact_mut(PACK));
    for (nth, (piece, pack)) in (0u8..).zip(pieces) {
        write_pack(pack, [SIZES, nth, text_packs + nth, 0], piece);
    }
}

/// Writes a pack; a short payload is filled with zeros.
fn write_pack(pack: &mut [u8], header: [u8; HEADER], payload: &[u8]) {
    pack.fill(0);
    pack[..HEADER].copy_from_slice(&header);
    pack[HEADER..][..payload.len()].copy_from_slice(payload);
    let check = check_number(&pack[..CHECKED]);
    pack[CHECKED..].copy_from_slice(&check.to_be_bytes());
}

// ---- from packs to titles ----

/// Puts the run of titles of some packs at the start of a lent buffer and
/// gives its length. Refuses with 18, then 11.
pub fn read_titles(packs: &[u8], buffer: &mut [u8]) -> Result<usize, Refusal> {
    let length = run_length(packs).ok_or(Refusal::NoPacks)?;
    let lent = buffer.get_mut(..length).ok_or(Refusal::Buffer)?;
    let pieces = lent.chunks_mut(PAYLOAD).zip(packs.chunks_exact(PACK));
    for (piece, pack) in pieces {
        piece.copy_from_slice(&pack[HEADER..][..piece.len()]);
    }
    Ok(length)
}

/// The length of the run, if these are exactly the packs of allowed titles.
fn run_length(packs: &[u8]) -> Option<usize> {
    let count = packs.len() / PACK;
    let whole = packs.len().is_multiple_of(PACK);
    if !whole || count <= SIZE_PACKS || count > MOST_PACKS {
        return None;
    }
    let text_packs = count - SIZE_PACKS;
    let mut text = Text::new();
    for (number, pack) in packs.chunks_exact(PACK).enumerate() {
        let fits = match number.checked_sub(text_packs) {
            None => text.take_pack(pack),
            Some(nth) => text.is_size_pack(pack, nth, text_packs),
        };
        if !fits || usize::from(pack[2]) != number || !check_is_right(pack) {
            return None;
        }
    }
    Some(text.length)
}

fn check_is_right(pack: &[u8]) -> bool {
    check_number(&pack[..CHECKED]).to_be_bytes() == pack[CHECKED..]
}

/// What the text packs have shown so far.
struct Text {
    /// The title that goes on, or comes next.
    track: u8,
    /// How many of its characters were there.
    characters: usize,
    /// How long the run is, fill left out.
    length: usize,
    /// Zeros that end no title were there.
    filled: bool,
}

impl Text {
    fn new() -> Text {
        Text {
            track: 1,
            characters: 0,
            length: 0,
            filled: false,
        }
    }

    /// A text pack begins in a title, never in the fill.
    fn take_pack(&mut self, pack: &[u8]) -> bool {
        let position = self.characters.min(LAST_POSITION) as u8;
        let header = pack[0] == TITLES && pack[1] == self.track && pack[3] == position;
        let payload = &pack[HEADER..CHECKED];
        let begins = self.characters > 0 || payload[0] != 0;
        header && begins && payload.iter().all(|&byte| self.take(byte))
    }

    fn take(&mut self, byte: u8) -> bool {
        match byte {
            0 if self.characters == 0 => self.filled = true,
            0 => {
                self.track += 1;
                self.characters = 0;
                self.length += 1;
            }
            _ => {
                let room = self.characters < MOST_CHARACTERS;
                let known = usize::from(self.track) <= MOST_TRACKS;
                if self.filled || !room || !known || !is_character(byte) {
                    return false;
                }
                self.characters += 1;
                self.length += 1;
            }
        }
        true
    }

    /// The n-th size pack, counted from 0, behind the whole text.
    fn is_size_pack(&self, pack: &[u8], nth: usize, text_packs: usize) -> bool {
        let ended = self.characters == 0;
        let header = pack[0] == SIZES && usize::from(pack[1]) == nth && pack[3] == 0;
        let mut record = (nth * PAYLOAD..).zip(&pack[HEADER..CHECKED]);
        ended && header && record.all(|(place, &byte)| byte == self.size(place, text_packs))
    }

    /// The byte of the size record at a place.
    fn size(&self, place: usize, text_packs: usize) -> u8 {
        match place {
            0 => CHARACTER_CODE,
            1 => 1,
            2 => self.track - 1,
            4 => text_packs as u8,
            19 => SIZE_PACKS as u8,
            20 => (text_packs + SIZE_PACKS - 1) as u8,
            28 => LANGUAGE,
            _ => 0,
        }
    }
}

#[cfg(test)]
mod tests {
    use super::*;
    use crate::cdtext_forge::{forge, packs_of, repair, run_of_lengths};
    use crate::hex;

    const ROOM: usize = MOST_PACKS * PACK;

    fn made(run: &[u8]) -> Result<Vec<u8>, Refusal> {
        let mut buffer = vec![0xA5; ROOM];
        let packs = make_packs(run, &mut buffer)?;
        assert!(buffer[packs * PACK..].iter().all(|&byte| byte == 0xA5));
        buffer.truncate(packs * PACK);
        Ok(buffer)
    }

    fn read(packs: &[u8]) -> Result<Vec<u8>, Refusal> {
        let mut buffer = vec![0xA5; MOST_RUN];
        let length = read_titles(packs, &mut buffer)?;
        assert!(buffer[length..].iter().all(|&byte| byte == 0xA5));
        buffer.truncate(length);
        Ok(buffer)
    }

    /// The packs of a run, which reads back.
    fn there_and_back(run: &[u8]) -> Vec<u8> {
        let packs = made(run).unwrap();
        assert_eq!(read(&packs).unwrap(), run);
        assert_eq!(packs_of(run), packs);
        packs
    }

    fn hex_lines(packs: &[u8]) -> Vec<String> {
        packs.chunks(PACK).map(hex::plain).collect()
    }

    /// Track and position of each text pack.
    fn places(packs: &[u8]) -> Vec<(u8, u8)> {
        let text = packs.chunks(PACK).filter(|pack| pack[0] == TITLES);
        text.map(|pack| (pack[1], pack[3])).collect()
    }

    /// Document 000's three example packs, the first of which it also shows
    /// where the packs are split up for the lead-in.
    #[test]
    fn example_packs() {
        let packs = [
            "8F 00 2A 00 01 01 03 00 06 05 04 05 07 06 01 02 48 65",
            "8F 01 2B 00 00 00 00 00 00 00 06 03 2C 00 00 00 C0 20",
            "8F 02 2C 00 00 00 00 00 09 00 00 00 00 00 00 00 11 45",
        ];
        for line in packs {
            let words: Vec<&str> = line.split(' ').collect();
            let pack = hex::bytes(&words).unwrap();
            assert!(check_is_right(&pack), "{line}");
        }
    }

    #[test]
    fn check_numbers() {
        assert_eq!(check_number(&[]), 0xFFFF);
        assert_eq!(check_number(&[0; 16]), 0xFFFF);
        assert_eq!(check_number(&[1]), !POLYNOMIAL);
        // The known number of this algorithm.
        assert_eq!(check_number(b"123456789"), 0xCE3C);
        // Bytes with their check bytes behind them leave one remainder.
        for length in 0..40 {
            let mut bytes = run_of_lengths(&[length]);
            bytes.extend(check_number(&bytes).to_be_bytes());
            assert_eq!(check_number(&bytes), !0x1D0F);
        }
    }

    /// Whole packs, worked out by hand; check bytes from another program.
    #[test]
    fn smallest_packs() {
        let packs = there_and_back(b"A\0");
        let lines = [
            "80 01 00 00 41 00 00 00 00 00 00 00 00 00 00 00 87 47",
            "8F 00 01 00 01 01 01 00 01 00 00 00 00 00 00 00 06 5F",
            "8F 01 02 00 00 00 00 00 00 00 00 03 03 00 00 00 A3 A4",
            "8F 02 03 00 00 00 00 00 09 00 00 00 00 00 00 00 17 E7",
        ];
        assert_eq!(hex_lines(&packs), lines);
    }

    /// An ending zero that begins a pack belongs to the title it ends.
    #[test]
    fn zero_begins_a_pack() {
        let packs = there_and_back(b"Depot, north\0Mill\0");
        let lines = [
            "80 01 00 00 44 65 70 6F 74 2C 20 6E 6F 72 74 68 23 50",
            "80 01 01 0C 00 4D 69 6C 6C 00 00 00 00 00 00 00 FC 92",
            "8F 00 02 00 01 01 02 00 02 00 00 00 00 00 00 00 F2 46",
            "8F 01 03 00 00 00 00 00 00 00 00 03 04 00 00 00 89 E8",
            "8F 02 04 00 00 00 00 00 09 00 00 00 00 00 00 00 67 E1",
        ];
        assert_eq!(hex_lines(&packs), lines);
        let packs = there_and_back(&run_of_lengths(&[24, 3]));
        assert_eq!(places(&packs), [(1, 0), (1, 12), (1, 15)]);
    }

    /// A second title that starts at each place of a pack.
    #[test]
    fn positions() {
        let second = |first| {
            let packs = there_and_back(&run_of_lengths(&[first, 30]));
            places(&packs)[1..3].to_vec()
        };
        assert_eq!(second(11), [(2, 0), (2, 12)]);
        assert_eq!(second(10), [(2, 1), (2, 13)]);
        assert_eq!(second(9), [(2, 2), (2, 14)]);
        assert_eq!(second(8), [(2, 3), (2, 15)]);
        assert_eq!(second(7), [(2, 4), (2, 15)]);
        assert_eq!(second(1), [(2, 10), (2, 15)]);
        let packs = there_and_back(&run_of_lengths(&[12, 30]));
        assert_eq!(places(&packs), [(1, 0), (1, 12), (2, 11), (2, 15)]);
    }

    /// The last pack's text ends with it: no fill, and no pack more.
    #[test]
    fn full_last_pack() {
        assert_eq!(there_and_back(&run_of_lengths(&[11])).len(), 4 * PACK);
        assert_eq!(there_and_back(&run_of_lengths(&[3, 7])).len(), 4 * PACK);
        assert_eq!(there_and_back(&run_of_lengths(&[12])).len(), 5 * PACK);
        assert_eq!(there_and_back(&run_of_lengths(&[23])).len(), 5 * PACK);
    }

    #[test]
    fn lengths_and_counts() {
        for length in 1..=MOST_CHARACTERS {
            there_and_back(&run_of_lengths(&[length]));
            there_and_back(&run_of_lengths(&[5, length, 1]));
        }
        for count in 1..=MOST_TRACKS {
            let packs = there_and_back(&run_of_lengths(&vec![1 + count % 5; count]));
            assert_eq!(packs[packs.len() - 3 * PACK + 6], count as u8);
        }
        for lengths in [vec![], vec![0], vec![161], vec![1; 100], vec![2, 0, 2]] {
            let run = run_of_lengths(&lengths);
            assert_eq!(made(&run), Err(Refusal::Title), "{lengths:?}");
            assert_eq!(read(&packs_of(&run)), Err(Refusal::NoPacks), "{lengths:?}");
        }
        for count in [256, 257, 355] {
            assert_eq!(made(&run_of_lengths(&vec![1; count])), Err(Refusal::Title));
        }
    }

    #[test]
    fn characters() {
        for byte in 1..=255 {
            for place in 0..3 {
                let mut run = b"ABC\0D\0".to_vec();
                run[place] = byte;
                if (0x20..=0x7E).contains(&byte) {
                    there_and_back(&run);
                } else {
                    assert_eq!(made(&run), Err(Refusal::Title));
                    assert_eq!(read(&packs_of(&run)), Err(Refusal::NoPacks));
                }
            }
        }
        assert_eq!(made(b"ABC"), Err(Refusal::Title));
        assert_eq!(made(b"ABC\0D"), Err(Refusal::Title));
        assert_eq!(made(b"ABC\0\0"), Err(Refusal::Title));
    }

    /// 252 text packs of 3,024 bytes are the most.
    #[test]
    fn most_packs() {
        let mut lengths = vec![160; 18];
        lengths.push(125);
        let run = run_of_lengths(&lengths);
        assert_eq!(run.len(), MOST_RUN);
        let packs = there_and_back(&run);
        assert_eq!(packs.len(), ROOM);
        let sizes = &packs[252 * PACK..];
        assert_eq!((sizes[2], sizes[8]), (252, 252));
        assert_eq!((sizes[PACK + 11], sizes[PACK + 12]), (3, 254));
        lengths[18] = 126;
        let run = run_of_lengths(&lengths);
        assert_eq!(made(&run), Err(Refusal::PackCount));
        assert_eq!(read(&packs_of(&run)), Err(Refusal::NoPacks));
        // 99 titles of 160 characters are allowed, each by itself.
        let run = run_of_lengths(&[160; 99]);
        assert_eq!(made(&run), Err(Refusal::PackCount));
        // 17 comes first.
        let run = run_of_lengths(&[160; 100]);
        assert_eq!(made(&run), Err(Refusal::Title));
    }

    /// 11 comes last, and no refusal changes a byte.
    #[test]
    fn lent_buffers() {
        let make = |run: &[u8], lent: usize| {
            let mut buffer = vec![0xA5; lent];
            let refusal = make_packs(run, &mut buffer).unwrap_err();
            assert_eq!(buffer, vec![0xA5; lent]);
            refusal.number()
        };
        assert_eq!(make(b"A\0", 71), 11);
        assert_eq!(make(b"A\0", 0), 11);
        assert_eq!(make(b"A", 0), 17);
        assert_eq!(make(&run_of_lengths(&[160; 19]), 0), 19);
        let packs = packs_of(b"A\0");
        let read = |packs: &[u8], lent: usize| {
            let mut buffer = vec![0xA5; lent];
            let refusal = read_titles(packs, &mut buffer).unwrap_err();
            assert_eq!(buffer, vec![0xA5; lent]);
            refusal.number()
        };
        assert_eq!(read(&packs, 1), 11);
        assert_eq!(read(&packs, 0), 11);
        assert_eq!(read(&packs[1..], 0), 18);
    }

    /// Every other value of every byte is refused, with check bytes that no
    /// longer fit. With right ones a character may become another, the last
    /// one may be left out, and one may be added where fill follows.
    #[test]
    fn damaged_bytes() {
        let packs = packs_of(b"Depot, north\0Mill\0");
        for place in 0..packs.len() {
            for change in 1..=255 {
                let mut damaged = packs.clone();
                damaged[place] ^= change;
                assert_eq!(read(&damaged), Err(Refusal::NoPacks));
                repair(&mut damaged);
                let allowed = match place {
                    4..=15 | 23..=25 | 27 => is_character(damaged[place]),
                    26 => is_character(damaged[place]) || damaged[place] == 0,
                    _ => damaged == packs,
                };
                assert_eq!(read(&damaged).is_ok(), allowed, "{place} {change}");
            }
        }
    }

    #[test]
    fn lengths_of_packs() {
        let packs = packs_of(b"Depot, north\0Mill\0");
        for length in 0..packs.len() {
            assert_eq!(read(&packs[..length]), Err(Refusal::NoPacks));
            let longer = [&packs[..], &packs[..length + 1]].concat();
            assert_eq!(read(&longer), Err(Refusal::NoPacks));
        }
    }

    /// Texts that no titles give, in packs that are right otherwise.
    #[test]
    fn forged_texts() {
        let long = [&[b'A'; 12][..], &[0; 13]].concat();
        let texts: [(&[u8], u8); 9] = [
            (b"", 0),
            (b"\0", 0),
            (b"\0", 1),
            (b"\0A\0", 1),
            (b"A\0\0B\0", 2),
            (b"A\0\0B\0", 3),
            (b"ABCDEFGHIJKL", 1),
            (b"ABCDEFGHIJK\0\0", 1),
            (&long, 1),
        ];
        for (text, titles) in texts {
            assert_eq!(read(&forge(text, titles)), Err(Refusal::NoPacks));
        }
        assert_eq!(read(&forge(b"A\0", 1)), Ok(b"A\0".to_vec()));
    }
}
