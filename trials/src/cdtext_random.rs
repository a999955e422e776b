//! Random CD-TEXT requests: mostly allowed titles and their packs, and each
//! sort of damage to them.

use second::cdtext::{
    CHECKED, HEADER, MOST_CHARACTERS, MOST_PACKS, MOST_RUN, PACK, PAYLOAD, SIZE_PACKS,
};
use second::cdtext_forge::{forge, packs_of, record_place, renumber, repair};
use second::cdtext_requests::{Operation, Request, MOST_LENT, MOST_PAYLOAD};
use second::rng::Rng;
use second::units::MOST_TRACKS;

/// A random request.
pub fn request(rng: &mut Rng) -> Request {
    let (operation, lent, payload) = match rng.below(20) {
        0..=8 => make(rng),
        9..=17 => read(rng),
        _ => check(rng),
    };
    let payload = payload.into_iter().take(MOST_PAYLOAD).collect();
    Request::new(operation, lent.min(MOST_LENT), payload).expect("within the limits")
}

type Parts = (Operation, usize, Vec<u8>);

fn make(rng: &mut Rng) -> Parts {
    let mut run = any_run(rng);
    if rng.chance(30) {
        spoil_run(rng, &mut run);
    }
    let needs = (run.len().div_ceil(PAYLOAD) + SIZE_PACKS) * PACK;
    (Operation::MakePacks, any_lent(rng, needs), run)
}

fn read(rng: &mut Rng) -> Parts {
    let run = loop {
        let run = any_run(rng);
        if run.len() <= MOST_RUN {
            break run;
        }
    };
    let mut packs = packs_of(&run);
    if rng.chance(50) {
        damage(rng, &run, &mut packs);
    }
    (Operation::ReadPacks, any_lent(rng, run.len()), packs)
}

fn check(rng: &mut Rng) -> Parts {
    let length = match rng.below(20) {
        0..=9 => CHECKED,
        10..=17 => rng.below(64) as usize,
        18 => rng.below(2_000) as usize,
        _ => rng.pick(&[0, 1, 255, 256, MOST_PAYLOAD - 1, MOST_PAYLOAD]),
    };
    let lent = rng.pick(&[0, 0, 1, 2, 18, 100]);
    (Operation::CheckBytes, lent, rng.bytes(length))
}

/// The length of a lent buffer for an answer of `needs` bytes.
fn any_lent(rng: &mut Rng, needs: usize) -> usize {
    match rng.below(20) {
        0..=11 => needs,
        12..=13 => needs + rng.between(1, 40) as usize,
        14 => rng.between(needs as u64, 2 * needs as u64) as usize,
        15 => MOST_LENT,
        16..=17 => needs.saturating_sub(1),
        18 => rng.below(needs.max(1) as u64) as usize,
        _ => 0,
    }
}

// ---- runs of titles ----

/// A run of allowed titles, sometimes of too many packs.
fn any_run(rng: &mut Rng) -> Vec<u8> {
    if rng.chance(12) {
        return full_run(rng);
    }
    let count = match rng.below(20) {
        0..=3 => 1,
        4..=10 => rng.between(2, 6),
        11..=16 => rng.between(7, 30),
        17..=18 => rng.between(31, 98),
        _ => MOST_TRACKS as u64,
    };
    let style = rng.below(10);
    let mut run = Vec::new();
    for _ in 0..count {
        let length = any_length(rng, style);
        push_title(rng, &mut run, length);
    }
    run
}

/// Titles of one run are alike, so that many runs stay short.
fn any_length(rng: &mut Rng, style: u64) -> u64 {
    let most = MOST_CHARACTERS as u64;
    match style {
        0..=1 => rng.between(1, 3),
        2..=6 => rng.between(4, 30),
        7 => rng.pick(&[10, 11, 12, 13, 22, 23, 24, 25]),
        8 => rng.between(1, most),
        _ => rng.pick(&[1, 2, 11, 12, most - 1, most]),
    }
}

fn push_title(rng: &mut Rng, run: &mut Vec<u8>, length: u64) {
    for _ in 0..length {
        run.push(character(rng));
    }
    run.push(0);
}

fn character(rng: &mut Rng) -> u8 {
    if rng.chance(5) {
        rng.pick(&[0x20, 0x7E])
    } else {
        rng.between(0x20, 0x7E) as u8
    }
}

/// A run whose last pack is about the 255th.
fn full_run(rng: &mut Rng) -> Vec<u8> {
    let most = MOST_RUN as u64;
    let some = rng.between(most - 20, most + 20);
    let bytes = rng.pick(&[some, some, most - 12, most - 11, most, most, most + 1]);
    let mut run = Vec::new();
    let mut left = bytes;
    while left > 0 {
        let mut piece = left.min(rng.between(40, 161));
        if left - piece == 1 {
            // The last title needs a character too.
            piece -= 1;
        }
        push_title(rng, &mut run, piece - 1);
        left -= piece;
    }
    run
}

/// Breaks a rule for titles.
fn spoil_run(rng: &mut Rng, run: &mut Vec<u8>) {
    let place = rng.below(run.len() as u64) as usize;
    match rng.below(10) {
        0..=2 => run[place] = no_character(rng),
        3 => run[place] = 0,
        4 => {
            run.pop();
        }
        5 => run.insert(place, 0),
        6 => run.truncate(place),
        7 => {
            let length = rng.pick(&[161, 161, 162, 255, 256, 257, 416, 0]);
            push_title(rng, run, length);
        }
        8 => {
            let more = rng.pick(&[1, 1, 2, 100, 157, 256]);
            let titles = run.iter().filter(|&&byte| byte == 0).count();
            for _ in titles..MOST_TRACKS + more {
                push_title(rng, run, 1);
            }
        }
        _ => *run = any_bytes(rng),
    }
}

fn no_character(rng: &mut Rng) -> u8 {
    let control = rng.between(0x01, 0x1F) as u8;
    let high = rng.between(0x7F, 0xFF) as u8;
    rng.pick(&[0x1F, 0x7F, 0x80, 0xFF, control, high])
}

fn any_bytes(rng: &mut Rng) -> Vec<u8> {
    let length = rng.pick(&[0, 1, 2, 12, 18, 72, 90, 1_000]);
    match rng.below(3) {
        0 => vec![0; length],
        1 => vec![rng.byte(); length],
        _ => rng.bytes(length),
    }
}

// ---- damage to packs ----

/// Damages packs of a run; check bytes are then made right for about half.
fn damage(rng: &mut Rng, run: &[u8], packs: &mut Vec<u8>) {
    let times = rng.pick(&[1, 1, 1, 2]);
    for _ in 0..times {
        match rng.below(10) {
            0..=1 => change_byte(rng, packs),
            2 => change_header(rng, packs),
            3 => change_record(rng, packs),
            4 => change_text(rng, packs),
            5 => change_length(rng, packs),
            6 => change_order(rng, packs),
            7..=8 => *packs = forged(rng, run),
            _ => change_check(rng, packs),
        }
    }
    if rng.chance(15) {
        renumber(packs);
    }
    if rng.chance(50) {
        repair(packs);
    }
}

/// A place in some bytes, or in none.
fn place(rng: &mut Rng, bytes: &[u8]) -> Option<usize> {
    (!bytes.is_empty()).then(|| rng.below(bytes.len() as u64) as usize)
}

/// Sets a byte of some pack; packs that were cut may have none.
fn set(rng: &mut Rng, packs: &mut [u8], in_pack: usize, value: u8) {
    let number = rng.below((packs.len() / PACK).max(1) as u64) as usize;
    if let Some(byte) = packs.get_mut(number * PACK + in_pack) {
        *byte = value;
    }
}

fn change_byte(rng: &mut Rng, packs: &mut [u8]) {
    let Some(place) = place(rng, packs) else {
        return;
    };
    let flip = 1 << rng.below(8);
    let old = packs[place];
    packs[place] = rng.pick(&[old ^ flip, old ^ flip, 0, 0xFF, old.wrapping_add(1)]);
}

fn change_header(rng: &mut Rng, packs: &mut [u8]) {
    let in_pack = rng.below(HEADER as u64) as usize;
    let low = rng.below(16) as u8;
    let any = rng.byte();
    let value = rng.pick(&[low, low, any, 0, 1, 2, 0x10, 0x80, 0x81, 0x8F, 99, 100]);
    set(rng, packs, in_pack, value);
}

fn change_record(rng: &mut Rng, packs: &mut [u8]) {
    if packs.len() < SIZE_PACKS * PACK {
        return;
    }
    let any = rng.below((SIZE_PACKS * PAYLOAD) as u64) as usize;
    let byte = rng.pick(&[any, any, 0, 1, 2, 3, 4, 19, 20, 28]);
    let place = record_place(packs, byte);
    let old = packs[place];
    let any = rng.byte();
    packs[place] = rng.pick(&[any, old.wrapping_add(1), old.wrapping_sub(1), 0, 1]);
}

/// Another character gives allowed packs, once the check bytes are right.
fn change_text(rng: &mut Rng, packs: &mut [u8]) {
    let in_pack = HEADER + rng.below(PAYLOAD as u64) as usize;
    let value = match rng.below(4) {
        0 => no_character(rng),
        1 => 0,
        _ => character(rng),
    };
    set(rng, packs, in_pack, value);
}

fn change_length(rng: &mut Rng, packs: &mut Vec<u8>) {
    let bytes = rng.between(1, 40) as usize;
    let some = rng.pick(&[1, 1, PACK - 1, PACK, PACK, 2 * PACK, bytes]);
    match rng.below(4) {
        0..=1 => packs.truncate(packs.len().saturating_sub(some)),
        2 => packs.resize(packs.len() + some, 0),
        _ => packs.extend(rng.bytes(some)),
    }
}

/// A pack is left out, doubled, or swapped with another.
fn change_order(rng: &mut Rng, packs: &mut Vec<u8>) {
    let mut list: Vec<Vec<u8>> = packs.chunks(PACK).map(Vec::from).collect();
    if list.is_empty() {
        return;
    }
    let count = list.len() as u64;
    let [a, b] = [rng.below(count) as usize, rng.below(count) as usize];
    match rng.below(4) {
        0 => {
            list.remove(a);
        }
        1 => list.insert(b, list[a].clone()),
        2 => list.swap(a, b),
        _ => list.swap(a, (a + 1) % count as usize),
    }
    *packs = list.concat();
}

fn change_check(rng: &mut Rng, packs: &mut [u8]) {
    let in_pack = CHECKED + rng.below(2) as usize;
    let value = rng.byte();
    set(rng, packs, in_pack, value);
}

/// Packs with right check bytes, of a text that no titles give or with a false
/// count of titles.
fn forged(rng: &mut Rng, run: &[u8]) -> Vec<u8> {
    let titles = run.iter().filter(|&&byte| byte == 0).count() as u8;
    match rng.below(12) {
        0..=1 => forge(run, rng.pick(&[titles - 1, titles + 1, 0, 100])),
        2..=6 => forge(&forged_text(rng, run), titles),
        _ => packs_of(&forged_text(rng, run)),
    }
}

fn forged_text(rng: &mut Rng, run: &[u8]) -> Vec<u8> {
    let mut text = run.to_vec();
    let whole = run.len().next_multiple_of(PAYLOAD);
    match rng.below(5) {
        // A gap of zeros behind some title, or ahead of the first.
        0 => {
            let at = place(rng, run).unwrap_or(0);
            let next = run[at..].iter().position(|&byte| byte == 0);
            text.insert(rng.pick(&[0, at + next.unwrap_or(0)]), 0);
        }
        // A whole pack of zeros, or several.
        1 => text.resize(whole + rng.between(1, 3) as usize * PAYLOAD, 0),
        // Fill that is not zero.
        2 => {
            text.resize(whole, 0);
            let fill = &mut text[run.len()..];
            if let Some(at) = place(rng, fill) {
                fill[at] = rng.pick(&[1, 0x20, b'A', 0xFF]);
            }
        }
        3 => spoil_run(rng, &mut text),
        // More than 255 packs.
        _ => {
            while text.len() <= MOST_RUN {
                push_title(rng, &mut text, 160);
            }
            text.truncate((MOST_PACKS + 4) * PAYLOAD);
        }
    }
    text
}

#[cfg(test)]
mod tests {
    use super::*;
    use second::cdtext::{make_packs, read_titles};
    use second::refusal::Refusal;
    use std::collections::BTreeMap;

    #[test]
    fn the_same_seed_gives_the_same_request() {
        let bytes = |seed| request(&mut Rng::new(seed)).bytes();
        assert_eq!(bytes(5), bytes(5));
        assert_ne!(bytes(5), bytes(6));
    }

    /// Every number occurs often for each operation.
    #[test]
    fn every_answer_occurs() {
        let mut rng = Rng::new(7);
        let mut answers: BTreeMap<(u8, u8), u32> = BTreeMap::new();
        for _ in 0..5_000 {
            let request = request(&mut rng);
            let status = request.answer()[0];
            let key = (request.operation().byte(), status);
            *answers.entry(key).or_default() += 1;
        }
        let keys: Vec<(u8, u8)> = answers.keys().copied().collect();
        let wanted = [
            (1, 0),
            (1, 11),
            (1, 17),
            (1, 19),
            (2, 0),
            (2, 11),
            (2, 18),
            (3, 0),
        ];
        assert_eq!(keys, wanted);
        assert!(answers.values().all(|&count| count > 100), "{answers:?}");
    }

    /// The only titles that packs can be of: their text without its fill.
    fn made_again(packs: &[u8]) -> Result<Vec<u8>, Refusal> {
        let text = packs.len().saturating_sub(SIZE_PACKS * PACK);
        let pieces = packs[..text].chunks(PACK);
        let mut run: Vec<u8> = pieces
            .flat_map(|pack| pack.iter().skip(HEADER).take(PAYLOAD))
            .copied()
            .collect();
        while run.last() == Some(&0) {
            run.pop();
        }
        run.push(0);
        let mut again = vec![0; MOST_PACKS * PACK];
        let count = make_packs(&run, &mut again).map_err(|_| Refusal::NoPacks)?;
        if again[..count * PACK] == *packs {
            Ok(run)
        } else {
            Err(Refusal::NoPacks)
        }
    }

    /// The reader takes what the maker gives, and nothing else.
    #[test]
    fn reader_and_maker_agree() {
        let mut rng = Rng::new(11);
        let mut taken = 0;
        for _ in 0..8_000 {
            let (_, _, packs) = read(&mut rng);
            let mut buffer = vec![0; MOST_RUN];
            let titles = read_titles(&packs, &mut buffer).map(|length| buffer[..length].to_vec());
            assert_eq!(titles, made_again(&packs));
            taken += u32::from(titles.is_ok());
        }
        assert!((3_000..6_000).contains(&taken), "{taken}");
    }
}
