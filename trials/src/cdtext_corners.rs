//! A fixed list of CD-TEXT requests, at least one for each sentence of
//! document 02's Ask 4, with the number each is answered with.

use second::cdtext::{
    CHECKED, HEADER, MOST_CHARACTERS, MOST_PACKS, MOST_RUN, PACK, PAYLOAD, SIZE_PACKS,
};
use second::cdtext_forge::{forge, packs_of, record_place, renumber, repair, run_of_lengths};
use second::cdtext_requests::{Operation, Request, MOST_LENT, MOST_PAYLOAD};

/// A request, and its answer's first byte by the papers.
pub struct Corner {
    pub shows: String,
    pub status: u8,
    pub request: Request,
}

/// All corner requests.
pub fn corners() -> Vec<Corner> {
    let mut list = List(Vec::new());
    single_titles(&mut list);
    pairs(&mut list);
    many_titles(&mut list);
    characters(&mut list);
    most_packs(&mut list);
    titles_not_allowed(&mut list);
    counts_not_allowed(&mut list);
    order_of_refusals(&mut list);
    changed_bytes(&mut list);
    changed_records(&mut list);
    changed_headers(&mut list);
    lengths_of_packs(&mut list);
    order_of_packs(&mut list);
    forged_texts(&mut list);
    extra_packs(&mut list);
    fill(&mut list);
    too_many_packs(&mut list);
    check_bytes(&mut list);
    list.0
}

/// Ample room for any packs.
const ROOM: usize = MOST_PACKS * PACK;
/// Two titles; the first one's ending zero begins the second pack.
const SMALL: &[u8] = b"Depot, north\0Mill\0";

struct List(Vec<Corner>);

impl List {
    fn push(&mut self, shows: &str, status: u8, operation: Operation, lent: usize, bytes: &[u8]) {
        let request = Request::new(operation, lent, bytes.to_vec());
        self.0.push(Corner {
            shows: shows.to_string(),
            status,
            request: request.unwrap_or_else(|| panic!("{shows}: beyond the limits")),
        });
    }

    /// An answer of `needs` bytes into buffers around that length.
    fn lents(&mut self, shows: &str, operation: Operation, needs: usize, bytes: &[u8]) {
        for (lent, status) in [(needs, 0), (needs + 1, 0), (needs - 1, 11), (0, 11)] {
            self.push(shows, status, operation, lent, bytes);
        }
    }

    /// A run that is made into packs and read back.
    fn allowed(&mut self, shows: &str, run: &[u8]) {
        let packs = packs_of(run);
        self.lents(shows, Operation::MakePacks, packs.len(), run);
        self.lents(shows, Operation::ReadPacks, run.len(), &packs);
    }

    /// A run that is refused, whatever is lent.
    fn no_run(&mut self, shows: &str, status: u8, run: &[u8]) {
        for lent in [0, ROOM] {
            self.push(shows, status, Operation::MakePacks, lent, run);
        }
    }

    /// Bytes that are refused as packs, whatever is lent.
    fn no_packs(&mut self, shows: &str, packs: &[u8]) {
        for lent in [0, MOST_RUN] {
            self.push(shows, 18, Operation::ReadPacks, lent, packs);
        }
    }

    /// A run that is refused, and so are packs forged of it.
    fn not_allowed(&mut self, shows: &str, run: &[u8]) {
        self.no_run(shows, 17, run);
        self.no_packs(shows, &packs_of(run));
    }

    /// Packs of a run with some bytes changed, check bytes made right.
    fn patched(&mut self, shows: &str, run: &[u8], changes: &[(usize, u8)]) {
        let mut packs = packs_of(run);
        for &(place, value) in changes {
            packs[place] = value;
        }
        repair(&mut packs);
        self.no_packs(shows, &packs);
    }
}

// ---- titles that are allowed ----

fn single_titles(list: &mut List) {
    for length in 1..=MOST_CHARACTERS {
        let shows = format!("a title of {length}");
        list.allowed(&shows, &run_of_lengths(&[length]));
    }
    let run = run_of_lengths(&[1]);
    list.push("much room", 0, Operation::MakePacks, MOST_LENT, &run);
    let packs = packs_of(&run);
    list.push("much room", 0, Operation::ReadPacks, MOST_LENT, &packs);
}

/// The second title starts at every place of a pack, so that its position is
/// each of 0 to 15 in some pack; so does an ending zero.
fn pairs(list: &mut List) {
    for first in 1..=40 {
        let shows = format!("titles of {first} and 30");
        list.allowed(&shows, &run_of_lengths(&[first, 30]));
        let shows = format!("titles of 30, {first} and 1");
        list.allowed(&shows, &run_of_lengths(&[30, first, 1]));
    }
    for (first, second) in [(11, 11), (12, 12), (24, 24), (160, 160), (159, 160)] {
        let shows = format!("titles of {first} and {second}");
        list.allowed(&shows, &run_of_lengths(&[first, second]));
    }
}

fn many_titles(list: &mut List) {
    for count in [2, 3, 6, 7, 12, 13, 50, 98, 99] {
        for length in [1, 2, 3, 11, 12, 25] {
            let shows = format!("{count} titles of {length}");
            list.allowed(&shows, &run_of_lengths(&vec![length; count]));
        }
    }
    let rising: Vec<usize> = (1..=70).collect();
    list.allowed("titles of 1 to 70", &run_of_lengths(&rising));
    list.allowed("two stops", SMALL);
}

fn characters(list: &mut List) {
    for byte in [0x20, 0x21, 0x41, 0x5C, 0x7D, 0x7E] {
        list.allowed("one character", &[byte, 0]);
        for place in [0, 5, 11, 13, 16] {
            let mut run = SMALL.to_vec();
            run[place] = byte;
            list.allowed("another character", &run);
        }
    }
    for byte in [0x01, 0x0A, 0x0D, 0x1F, 0x7F, 0x80, 0x9F, 0xA0, 0xFE, 0xFF] {
        list.not_allowed("one byte that is no character", &[byte, 0]);
        for place in [0, 5, 11, 13, 16] {
            let mut run = SMALL.to_vec();
            run[place] = byte;
            list.not_allowed("a byte that is no character", &run);
        }
    }
}

/// Lengths of titles in a run of 3,024 bytes and `more`.
fn full(more: usize) -> [Vec<usize>; 3] {
    let long = [vec![160; 18], vec![125 + more]].concat();
    let even = [vec![30; 53], vec![29; 45], vec![30 + more]].concat();
    let late = [vec![1; 80], vec![150; 18], vec![145 + more]].concat();
    [long, even, late]
}

fn most_packs(list: &mut List) {
    for lengths in full(0) {
        list.allowed("252 text packs, full", &run_of_lengths(&lengths));
        let mut shorter = lengths.clone();
        shorter[0] -= 1;
        if shorter[0] > 0 {
            list.allowed("252 text packs", &run_of_lengths(&shorter));
        }
    }
    for more in [1, 2, 12, 13] {
        for lengths in full(more) {
            list.no_run("more than 255 packs", 19, &run_of_lengths(&lengths));
        }
    }
    for length in [30, 31, 32, 60, 160] {
        let run = run_of_lengths(&vec![length; 99]);
        list.no_run("99 titles of more than 255 packs", 19, &run);
    }
    // Pack counts that would be allowed in eight bits.
    for bytes in [255 * PAYLOAD, 256 * PAYLOAD, 400 * PAYLOAD, 512 * PAYLOAD] {
        let titles = bytes / 161;
        let last = bytes - 161 * titles;
        let mut lengths = vec![160; titles];
        lengths.extend((last > 1).then(|| last - 1));
        list.no_run(
            "packs of several bytes' count",
            19,
            &run_of_lengths(&lengths),
        );
    }
}

// ---- titles that are refused ----

fn titles_not_allowed(list: &mut List) {
    for length in [161, 162, 255, 256, 257, 416, 417, 1_000] {
        let shows = format!("a title of {length}");
        list.not_allowed(&shows, &run_of_lengths(&[length]));
        list.not_allowed(&shows, &run_of_lengths(&[length, 5]));
        list.not_allowed(&shows, &run_of_lengths(&[5, length]));
    }
    for lengths in [[0, 5, 5], [5, 0, 5], [5, 5, 0], [11, 0, 3], [12, 0, 3]] {
        list.not_allowed("an empty title", &run_of_lengths(&lengths));
    }
    for lengths in [vec![1], vec![12], vec![160], vec![3, 8], vec![3, 9]] {
        let mut run = run_of_lengths(&lengths);
        run.pop();
        list.no_run("without its zero", 17, &run);
        // In packs only where no fill stands in for it.
        if run.len().is_multiple_of(PAYLOAD) {
            list.no_packs("without its zero", &forge(&run, lengths.len() as u8));
        }
    }
}

fn counts_not_allowed(list: &mut List) {
    list.not_allowed("no titles", &[]);
    for zeros in [1, 2, 11, 12, 13, 36, 99, 100, 255, 256, MOST_RUN] {
        list.not_allowed("zeros", &vec![0; zeros]);
    }
    list.no_run("zeros", 17, &vec![0; MOST_PAYLOAD]);
    for count in [100, 101, 127, 128, 200, 255, 256, 257, 300, 355] {
        let shows = format!("{count} titles");
        list.not_allowed(&shows, &run_of_lengths(&vec![1; count]));
    }
}

/// 17, 19, 11 for the maker; 18, 11 for the reader.
fn order_of_refusals(list: &mut List) {
    for lengths in [
        vec![160; 100],
        vec![31; 100],
        vec![160; 203],
        vec![1; 16_384],
    ] {
        list.no_run("17 before 19", 17, &run_of_lengths(&lengths));
    }
    let most = run_of_lengths(&[160; 99]);
    assert_eq!(most.len(), 15_939);
    for lent in [0, 1, ROOM - 1, ROOM, ROOM + 1, MOST_LENT] {
        list.push("19 before 11", 19, Operation::MakePacks, lent, &most);
        list.push("17 before 11", 17, Operation::MakePacks, lent, b"A");
        list.push("18 before 11", 18, Operation::ReadPacks, lent, b"A");
    }
    for (place, byte) in [(0, 0x1F), (0, 0), (15_937, 0x7F), (15_938, b'A')] {
        let mut run = most.clone();
        run[place] = byte;
        list.no_run("17 before 19", 17, &run);
    }
    list.no_run("17 before 19", 17, &[&most[..], b"A\0"].concat());
    list.no_run("17 before 19", 17, &[&most[..], b"A"].concat());
    list.no_run("17 before 19", 17, &[&most[..], b"\0"].concat());
}

// ---- packs that are refused ----

/// Each byte of a small set of packs, without right check bytes.
fn changed_bytes(list: &mut List) {
    let packs = packs_of(SMALL);
    for place in 0..packs.len() {
        for change in [0x01, 0x04, 0x10, 0x80, 0xFF] {
            let mut changed = packs.clone();
            changed[place] ^= change;
            list.no_packs(&format!("byte {place} is changed"), &changed);
        }
        if packs[place] != 0 {
            let mut changed = packs.clone();
            changed[place] = 0;
            list.no_packs(&format!("byte {place} is 0"), &changed);
        }
    }
    let mut swapped = packs.clone();
    for pack in swapped.chunks_exact_mut(PACK) {
        pack[CHECKED..].reverse();
    }
    list.no_packs("check bytes low byte first", &swapped);
    let mut plain = packs;
    for pack in plain.chunks_exact_mut(PACK) {
        pack[CHECKED..].iter_mut().for_each(|byte| *byte = !*byte);
    }
    list.no_packs("check bytes not inverted", &plain);
}

/// Each byte of the size record, with right check bytes.
fn changed_records(list: &mut List) {
    let packs = packs_of(SMALL);
    for byte in 0..SIZE_PACKS * PAYLOAD {
        let place = record_place(&packs, byte);
        let old = packs[place];
        for value in [
            0,
            1,
            2,
            3,
            9,
            old.wrapping_sub(1),
            old + 1,
            old ^ 0x80,
            0xFF,
        ] {
            if value != old {
                let shows = format!("byte {byte} of the record is {value}");
                list.patched(&shows, SMALL, &[(place, value)]);
            }
        }
    }
    let count = record_place(&packs, 2);
    for value in [98, 100] {
        let run = run_of_lengths(&[1; 99]);
        let place = record_place(&packs_of(&run), 2);
        list.patched("a false count of 99", &run, &[(place, value)]);
    }
    list.patched("tracks 0 to 1", SMALL, &[(count - 1, 0), (count, 1)]);
}

/// Each byte of each header, with right check bytes.
fn changed_headers(list: &mut List) {
    let packs = packs_of(SMALL);
    for place in (0..packs.len()).filter(|place| place % PACK < HEADER) {
        let old = packs[place];
        let near = [old.wrapping_sub(1), old.wrapping_add(1)];
        let flips = [0x08, 0x10, 0x40, 0x80].map(|flip| old ^ flip);
        for value in [&near[..], &flips, &[0, 0x0F, 0x80, 0x81, 0x8E, 0x8F]].concat() {
            if value != old {
                let shows = format!("byte {place} is {value:02X}h");
                list.patched(&shows, SMALL, &[(place, value)]);
            }
        }
    }
    // The ending zero's pack with the next title's track.
    list.patched("track of the next title", SMALL, &[(19, 2)]);
    list.patched("the next title's place", SMALL, &[(19, 2), (21, 0)]);
    // Document 000's 15 for a text from before the last pack, where it
    // isn't yet 15 by document 02, and positions without an end.
    for (first, counted) in [(10, 13), (9, 14), (8, 15), (7, 16)] {
        let run = run_of_lengths(&[first, 30]);
        let place = 2 * PACK + 3;
        let right = counted.min(15);
        for value in [counted - 1, counted, counted + 1, 15, 0, counted % 12] {
            if value != right {
                list.patched("another position", &run, &[(place, value)]);
            }
        }
    }
}

fn lengths_of_packs(list: &mut List) {
    let packs = packs_of(SMALL);
    for length in 0..packs.len() {
        list.no_packs("cut", &packs[..length]);
    }
    for more in 1..=PACK {
        list.no_packs("zeros behind", &[&packs[..], &vec![0; more]].concat());
        list.no_packs("bytes behind", &[&packs[..], &packs[..more]].concat());
        list.no_packs("bytes ahead", &[&packs[..more], &packs[..]].concat());
        list.no_packs("cut ahead", &packs[more..]);
    }
    list.no_packs("twice", &[&packs[..], &packs[..]].concat());
    list.no_packs("the titles themselves", SMALL);
    for length in [PACK, 4 * PACK, ROOM, ROOM + PACK, MOST_PAYLOAD] {
        for byte in [0, 0x20, 0x80, 0x8F, 0xFF] {
            list.no_packs("one byte throughout", &vec![byte; length]);
        }
    }
}

/// Packs left out, doubled and in another order; as they are, and with
/// numbers and check bytes made right.
fn order_of_packs(list: &mut List) {
    let run = run_of_lengths(&[12, 30, 1, 4]);
    let packs = packs_of(&run);
    let count = packs.len() / PACK;
    let mut orders: Vec<(&str, Vec<usize>)> = Vec::new();
    for place in 0..count {
        let mut order: Vec<usize> = (0..count).collect();
        order.remove(place);
        orders.push(("a pack is missing", order.clone()));
        order.splice(place..place, [place, place]);
        orders.push(("a pack is double", order));
        let mut order: Vec<usize> = (0..count).collect();
        order.swap(place, (place + 1) % count);
        orders.push(("neighbours are swapped", order.clone()));
        order.rotate_left(place);
        orders.push(("turned round", order));
    }
    orders.push(("backwards", (0..count).rev().collect()));
    orders.push(("text only", (0..count - SIZE_PACKS).collect()));
    orders.push(("sizes only", (count - SIZE_PACKS..count).collect()));
    for (shows, order) in orders {
        let pack = |&number: &usize| packs[number * PACK..][..PACK].to_vec();
        let mut moved: Vec<u8> = order.iter().flat_map(pack).collect();
        list.no_packs(shows, &moved);
        renumber(&mut moved);
        list.no_packs(shows, &moved);
        repair(&mut moved);
        list.no_packs(shows, &moved);
    }
}

/// Texts that no titles give, in packs that are right otherwise.
fn forged_texts(list: &mut List) {
    let texts: [&[u8]; 12] = [
        b"A\0\0B\0",
        b"A\0\0\0B\0",
        b"A\0\0\0\0\0\0\0\0\0\0\0B\0",
        b"ABCDEFGHIJK\0\0L\0",
        b"ABCDEFGHIJKL\0\0M\0",
        b"ABCDEFGHIJ\0\0L\0",
        b"\0A\0",
        b"\0\0A\0",
        b"ABCDEFGHIJKL",
        b"A\0ABCDEFGHIJ",
        b"A\0\x01\0",
        b"A\0B\0\0\0\0\0\0\0\0\x01",
    ];
    for text in texts {
        for titles in 0..=4 {
            list.no_packs("a text that no titles give", &forge(text, titles));
        }
    }
    for titles in [0, 1, 99, 255] {
        list.no_packs("no text", &forge(&[], titles));
    }
    for titles in [0, 1, 3, 99, 102] {
        list.no_packs("a false count", &forge(SMALL, titles));
    }
    let examples = example_packs().concat();
    list.no_packs("document 000's example", &examples);
    let text = packs_of(SMALL)[..2 * PACK].to_vec();
    list.no_packs("sizes of another disc", &[text, examples].concat());
}

/// A text pack more that holds nothing but zeros, with several headers.
fn extra_packs(list: &mut List) {
    for lengths in [
        vec![11],
        vec![10],
        vec![12],
        vec![1, 1],
        vec![3, 7],
        vec![23],
    ] {
        let mut text = run_of_lengths(&lengths);
        let titles = lengths.len() as u8;
        text.resize(text.len().next_multiple_of(PAYLOAD) + PAYLOAD, 0);
        let packs = forge(&text, titles);
        let extra = (text.len() / PAYLOAD - 1) * PACK;
        for track in [0, titles, titles + 1, packs[extra + 1]] {
            for position in [0, lengths[lengths.len() - 1].min(15) as u8] {
                let mut packs = packs.clone();
                packs[extra + 1] = track;
                packs[extra + 3] = position;
                repair(&mut packs);
                list.no_packs("a pack of zeros behind the text", &packs);
            }
        }
    }
}

/// The fill of the last text pack; a character behind a zero is no fill
/// either.
fn fill(list: &mut List) {
    let place_of = |byte: usize| PACK + HEADER + byte;
    for byte in 7..PAYLOAD {
        for value in [0x01, 0x1F, 0x20, b'A', 0x7E, 0x7F, 0x80, 0xFF] {
            list.patched("fill that is not zero", SMALL, &[(place_of(byte), value)]);
        }
    }
    let all: Vec<(usize, u8)> = (6..PAYLOAD).map(|byte| (place_of(byte), b' ')).collect();
    list.patched("blanks as fill", SMALL, &all);
    let last = (place_of(5), 0x20);
    let changes = [&[last], &all[..]].concat();
    list.patched("blanks and no ending zero", SMALL, &changes);
}

/// Packs of allowed titles, but too many of them.
fn too_many_packs(list: &mut List) {
    for more in [1, 12, 13, 24, 36, 48] {
        for lengths in full(more) {
            list.no_packs("more than 255 packs", &packs_of(&run_of_lengths(&lengths)));
        }
    }
    for titles in [76, 99] {
        let packs = packs_of(&run_of_lengths(&vec![160; titles]));
        list.no_packs("more than 255 packs", &packs);
    }
}

// ---- check bytes ----

/// Document 000's three example packs.
fn example_packs() -> [[u8; PACK]; 3] {
    [
        [
            0x8F, 0x00, 0x2A, 0x00, 0x01, 0x01, 0x03, 0x00, 0x06, 0x05, 0x04, 0x05, 0x07, 0x06,
            0x01, 0x02, 0x48, 0x65,
        ],
        [
            0x8F, 0x01, 0x2B, 0x00, 0x00, 0x00, 0x00, 0x00, 0x00, 0x00, 0x06, 0x03, 0x2C, 0x00,
            0x00, 0x00, 0xC0, 0x20,
        ],
        [
            0x8F, 0x02, 0x2C, 0x00, 0x00, 0x00, 0x00, 0x00, 0x09, 0x00, 0x00, 0x00, 0x00, 0x00,
            0x00, 0x00, 0x11, 0x45,
        ],
    ]
}

fn check_bytes(list: &mut List) {
    let mut check = |lent, bytes: &[u8]| {
        list.push("check bytes", 0, Operation::CheckBytes, lent, bytes);
    };
    for pack in example_packs() {
        check(0, &pack[..CHECKED]);
        check(2, &pack[..CHECKED]);
        check(0, &pack);
    }
    for lent in [0, 1, MOST_LENT] {
        check(lent, &[]);
    }
    // One byte shows each of the table's remainders.
    for byte in 0..=255 {
        check(0, &[byte]);
        check(0, &[0, byte]);
        check(0, &[byte, 0]);
    }
    for length in 2..=40 {
        check(0, &vec![0; length]);
        check(0, &vec![0xFF; length]);
        check(0, &run_of_lengths(&[length]));
    }
    for bit in 0..8 * CHECKED {
        let mut bytes = [0; CHECKED];
        bytes[bit / 8] = 0x80 >> (bit % 8);
        check(0, &bytes);
    }
    for length in [255, 256, 257, 4_096, MOST_PAYLOAD - 1, MOST_PAYLOAD] {
        check(3, &vec![0xA5; length]);
        check(3, &run_of_lengths(&[length - 1]));
    }
}

#[cfg(test)]
mod tests {
    use super::*;

    /// Every corner is answered with the number stated for it, and a refusal
    /// leaves the buffer as it was.
    #[test]
    fn corners_are_answered_as_stated() {
        for corner in corners() {
            let answer = corner.request.answer();
            let (shows, status) = (&corner.shows, corner.status);
            assert_eq!(answer[0], status, "{shows}: {:?}", corner.request);
            if status != 0 {
                let untouched = answer[3..].iter().all(|&byte| byte == 0xA5);
                assert!(untouched && answer[1..3] == [0, 0], "{shows}");
            }
        }
    }

    /// Maker and reader are each other's reverse: what is made reads back.
    #[test]
    fn corners_go_both_ways() {
        let mut both = 0;
        for corner in corners().iter().filter(|corner| corner.status == 0) {
            let request = &corner.request;
            let answer = request.answer();
            let number = usize::from(u16::from_be_bytes([answer[1], answer[2]]));
            let (back, length) = match request.operation() {
                Operation::MakePacks => (Operation::ReadPacks, number * PACK),
                Operation::ReadPacks => (Operation::MakePacks, number),
                Operation::CheckBytes => continue,
            };
            let payload = answer[3..3 + length].to_vec();
            let back = Request::new(back, request.payload().len(), payload).unwrap();
            assert_eq!(&back.answer()[3..], request.payload(), "{}", corner.shows);
            both += 1;
        }
        assert!(both > 1_000, "{both}");
    }
}
