//! Requests for the layouts tool: random ones, a fixed list of corners, and
//! every address and every time.

use second::blocks::{order_block, reply_block, seal, Reply, Status, BLOCK, MOST_DATA, RECIPE};
use second::hex;
use second::rng::Rng;
use second::units::{Flags, Kind, Method, Order, Recipe, Track, LAST_ADDRESS, MOST_TRACKS};

const LIMIT: u32 = LAST_ADDRESS as u32;
/// The limit of document 01, before Ask 3 of document 02.
const OLD_LIMIT: u32 = 449_849;
const KINDS: [Kind; 2] = [Kind::Audio, Kind::Data];
const METHODS: [Method; 2] = [Method::Tao, Method::Sao];
const RECIPES: [Recipe; 2] = [Recipe::Old, Recipe::New];
/// Flag bytes with Immed or erase, and flag bytes that no order has.
const FLAG_BYTES: [u8; 22] = [
    4, 5, 6, 7, 8, 9, 10, 11, 12, 13, 14, 15, 0x10, 0x11, 0x14, 0x18, 0x1C, 0x20, 0x40, 0x80, 0x88,
    0xFF,
];

/// A random request line.
pub fn random(rng: &mut Rng) -> String {
    match rng.below(16) {
        0 => format!("time {}", any_address(rng)),
        1 => random_address(rng),
        2..=3 => random_order_read(rng),
        4 => random_order_write(rng),
        5..=6 => random_reply_read(rng),
        7 => random_reply_write(rng),
        8 => random_page(rng),
        9..=10 => random_sheet(rng),
        11..=13 => random_sheet_read(rng),
        _ => random_command(rng),
    }
}

fn any_address(rng: &mut Rng) -> i64 {
    match rng.below(10) {
        0 => rng.pick(&[-152, -151, -150, -149, -1, 0, 1, 74, 75, 76]),
        1 => rng.pick(&[404_848, 404_849, 404_850, 405_000, 449_849, 449_850]),
        2 => rng.pick(&[-45_152, -45_151, -45_150, -45_149, -450_150, -450_000]),
        3 => rng.pick(&[
            i64::MIN,
            i64::MAX,
            1 << 32,
            -(1 << 32),
            (1 << 32) - 150,
            i64::MIN + 150,
        ]),
        4 => rng.next_u64() as i64,
        5 => rng.below(45_000) as i64 - 45_150,
        _ => rng.below(450_000) as i64 - 45_150,
    }
}

fn random_address(rng: &mut Rng) -> String {
    let limit = rng.pick(&[90, 100]);
    let minute = near(rng, limit);
    let second = near(rng, 60);
    let frame = near(rng, 75);
    format!("address {minute} {second} {frame}")
}

/// A byte, mostly below a limit, often just there.
fn near(rng: &mut Rng, limit: u8) -> u8 {
    let inside = rng.below(u64::from(limit)) as u8;
    let choices = [
        inside,
        inside,
        inside,
        inside,
        0,
        limit - 1,
        limit - 1,
        limit,
        255,
    ];
    rng.pick(&choices)
}

// ---- orders ----

/// An order of typed fields, mostly of 1 to 99 tracks.
fn any_order(rng: &mut Rng) -> Order {
    let method = rng.pick(&METHODS);
    let flags = Flags {
        keep: rng.chance(30),
        protect: rng.chance(50),
        immed: rng.chance(50),
        erase: rng.chance(50),
    };
    let kind = rng.pick(&KINDS);
    let count = any_count(rng);
    let mut tracks = vec![Track { kind, length: 0 }; count];
    for track in &mut tracks {
        track.length = any_length(rng);
    }
    if rng.chance(30) {
        tracks
            .iter_mut()
            .for_each(|track| track.kind = rng.pick(&KINDS));
    }
    // Recipe 1 with SAO is 3.
    let new_percent = if method == Method::Tao { 50 } else { 15 };
    Order {
        method,
        flags,
        tracks,
        recipe: any_recipe(rng, new_percent),
    }
}

fn any_recipe(rng: &mut Rng, new_percent: u64) -> Recipe {
    if rng.chance(new_percent) {
        Recipe::New
    } else {
        Recipe::Old
    }
}

fn any_count(rng: &mut Rng) -> usize {
    let some = rng.between(1, 99) as usize;
    rng.pick(&[1, 1, 2, 2, 3, 4, 5, some, 98, 99, 0, 100, 255])
}

fn any_length(rng: &mut Rng) -> u32 {
    match rng.below(40) {
        0 => rng.pick(&[0, 1, 299, 300, 301]),
        1 => rng.pick(&[u32::MAX, u32::MAX - 1, 1 << 31, LIMIT, LIMIT + 1, OLD_LIMIT]),
        2 => rng.next_u64() as u32,
        _ => rng.between(300, 5_000) as u32,
    }
}

/// An SAO order whose sheet can mostly be made, often near the limit.
fn sheet_order(rng: &mut Rng) -> Order {
    let mut order = any_order(rng);
    order.method = Method::Sao;
    order.recipe = any_recipe(rng, 4);
    order.flags.keep = rng.chance(3);
    let kind = rng.pick(&KINDS);
    if rng.chance(95) {
        order.tracks.iter_mut().for_each(|track| track.kind = kind);
    }
    if rng.chance(90) {
        order
            .tracks
            .iter_mut()
            .for_each(|track| track.length = track.length.clamp(300, 4_000));
    }
    if rng.chance(25) {
        reach_limit(rng, &mut order);
    }
    order
}

/// Sets a length so that the lead-out stands at its limit or next to it.
fn reach_limit(rng: &mut Rng, order: &mut Order) {
    if order.tracks.is_empty() {
        return;
    }
    let place = rng.below(order.tracks.len() as u64) as usize;
    let others = order.blocks_from(0).0 - u64::from(order.tracks[place].length);
    let limit = u64::from(rng.pick(&[LIMIT - 1, LIMIT, LIMIT, LIMIT + 1, LIMIT + 1, OLD_LIMIT]));
    if let Some(length) = limit.checked_sub(others) {
        order.tracks[place].length = length as u32;
    }
}

/// METHOD FLAGS N K1 L1 .., with at most 99 tracks listed, and recipe 1 behind
/// them; recipe 0 is left out.
fn order_words(order: &Order) -> String {
    match order.recipe {
        Recipe::Old => words_to_tracks(order),
        Recipe::New => full_words(order),
    }
}

/// The same, with recipe 0 too.
fn full_words(order: &Order) -> String {
    format!("{} {}", words_to_tracks(order), order.recipe.byte())
}

fn words_to_tracks(order: &Order) -> String {
    let (method, flags) = (order.method.byte(), order.flags.byte());
    let tracks = order.tracks.iter().take(MOST_TRACKS);
    let pairs: String = tracks
        .map(|t| format!(" {} {}", t.kind.byte(), t.length))
        .collect();
    format!("{method} {flags} {}{pairs}", order.tracks.len())
}

/// Recipe 0 is left out or named.
fn any_words(rng: &mut Rng, order: &Order) -> String {
    if rng.chance(30) {
        full_words(order)
    } else {
        order_words(order)
    }
}

/// The sealed block of an order, with recipe 1 beside SAO too.
fn loose_block(order: &Order) -> [u8; BLOCK] {
    let mut old = order.clone();
    old.recipe = Recipe::Old;
    let mut block = order_block(&old).unwrap_or([0; BLOCK]);
    block[RECIPE] = order.recipe.byte();
    seal(&mut block);
    block
}

/// A buffer's length around the one that is needed.
fn lent(rng: &mut Rng, needed: usize) -> usize {
    let less = rng.below(needed as u64 + 1) as usize;
    rng.pick(&[
        needed,
        needed,
        needed,
        needed,
        needed + 1,
        needed + 9,
        needed - 1,
        less,
        0,
    ])
}

fn random_order_write(rng: &mut Rng) -> String {
    let order = any_order(rng);
    let words = any_words(rng, &order);
    format!("order-write {} {words}", lent(rng, BLOCK))
}

fn random_page(rng: &mut Rng) -> String {
    let order = any_order(rng);
    let kind = rng.pick(&KINDS).byte();
    let words = any_words(rng, &order);
    format!("page {} {kind} {words}", lent(rng, 60))
}

fn random_sheet(rng: &mut Rng) -> String {
    let order = if rng.chance(80) {
        sheet_order(rng)
    } else {
        any_order(rng)
    };
    let needed = 8 * (order.tracks.len() + 3);
    let words = any_words(rng, &order);
    format!("sheet {} {words}", lent(rng, needed))
}

// ---- blocks read ----

fn random_order_read(rng: &mut Rng) -> String {
    let order = any_order(rng);
    let mut block = loose_block(&order);
    if rng.chance(10) {
        block[2] = rng.pick(&FLAG_BYTES);
        seal(&mut block);
    }
    if rng.chance(8) {
        let any = rng.byte();
        block[RECIPE] = rng.pick(&[0, 1, 1, 2, 3, 128, 255, any]);
        seal(&mut block);
    }
    let used = (4 + 5 * order.tracks.len()).min(BLOCK);
    format!(
        "order-read {}",
        hex::or_dash(&changed_block(rng, block, used))
    )
}

fn any_reply(rng: &mut Rng, most: usize) -> Reply {
    let some = rng.below(most as u64 + 1) as usize;
    let length = rng.pick(&[0, 1, 8, 14, 18, 34, 48, some, some, most - 1, most]);
    let status = rng.pick(&[Status::Good, Status::Failed]);
    Reply {
        status,
        data: rng.bytes(length),
    }
}

fn random_reply_read(rng: &mut Rng) -> String {
    let reply = any_reply(rng, MOST_DATA);
    let block = reply_block(&reply).unwrap_or([0; BLOCK]);
    let used = 4 + reply.data.len();
    format!(
        "reply-read {}",
        hex::or_dash(&changed_block(rng, block, used))
    )
}

fn random_reply_write(rng: &mut Rng) -> String {
    let most = rng.pick(&[MOST_DATA, MOST_DATA, MOST_DATA + 1, 600]);
    let reply = any_reply(rng, most);
    let data = hex::or_dash(&reply.data);
    format!(
        "reply-write {} {} {data}",
        lent(rng, BLOCK),
        reply.status.byte()
    )
}

/// A block as it is, or changed in a byte (mostly one of those used), with
/// or without a right check, or of another length.
fn changed_block(rng: &mut Rng, mut block: [u8; BLOCK], used: usize) -> Vec<u8> {
    let anywhere = rng.below(BLOCK as u64) as usize;
    let in_use = rng.below(used as u64) as usize;
    let head = rng.below(4) as usize;
    let beside = rng.pick(&[RECIPE - 1, RECIPE, RECIPE + 1]);
    let used = used.min(511);
    let place = rng.pick(&[anywhere, in_use, in_use, head, head, 509, used, beside]);
    let value = rng.byte();
    let value = rng.pick(&[
        value,
        value,
        0,
        1,
        2,
        3,
        4,
        8,
        15,
        16,
        255,
        block[place] ^ 1,
    ]);
    match rng.below(12) {
        0..=3 => block.to_vec(),
        4..=8 => {
            block[place] = value;
            seal(&mut block);
            block.to_vec()
        }
        9 => {
            block[place] = value;
            block.to_vec()
        }
        10 => block[..rng.pick(&[0, 1, 4, 509, 510, 511])].to_vec(),
        _ => {
            let mut longer = block.to_vec();
            longer.resize(BLOCK + rng.between(1, 3) as usize, 0);
            longer
        }
    }
}

// ---- sheets read ----

fn random_sheet_read(rng: &mut Rng) -> String {
    let order = sheet_order(rng);
    let mut bytes = loose_sheet(&order);
    for _ in 0..rng.pick(&[0, 0, 1, 1, 1, 2, 4]) {
        change_sheet(rng, &mut bytes);
    }
    format!("sheet-read {}", hex::or_dash(&bytes))
}

/// The sheet of an order, right or wrong: no number is judged.
fn loose_sheet(order: &Order) -> Vec<u8> {
    let kind = order.tracks.first().map_or(Kind::Data, |track| track.kind);
    let (control, lead, form) = match kind {
        Kind::Data => (0x41, 0x14, 0x10),
        Kind::Audio => (0x01, 0x01, 0x00),
    };
    let mut bytes = vec![
        control, 0, 0, lead, 0, 0, 0, 0, control, 1, 0, form, 0, 0, 0, 0,
    ];
    let mut frames = 150u64;
    for (index, track) in order.tracks.iter().enumerate() {
        bytes.extend([control, index as u8 + 1, 1, form, 0]);
        bytes.extend(loose_time(frames));
        frames += u64::from(track.length);
    }
    bytes.extend([control, 0xAA, 1, lead, 0]);
    bytes.extend(loose_time(frames));
    bytes
}

fn loose_time(frames: u64) -> [u8; 3] {
    let second = frames / 75;
    [
        (second / 60).min(255) as u8,
        (second % 60) as u8,
        (frames % 75) as u8,
    ]
}

fn change_sheet(rng: &mut Rng, bytes: &mut Vec<u8>) {
    let length = bytes.len();
    if length < 16 {
        return;
    }
    let place = rng.below(length as u64) as usize;
    let entry = 8 * rng.below(length as u64 / 8) as usize;
    match rng.below(13) {
        0..=1 => bytes[place] = rng.byte(),
        2 => bytes[place] ^= 1 << rng.below(8),
        3..=4 => bytes[entry + 7] = bytes[entry + 7].wrapping_add(1),
        5 => bytes[entry + 7] = bytes[entry + 7].wrapping_sub(1),
        6 => bytes[entry + 6] = rng.pick(&[0, 59, 60, 74]),
        7 => bytes[entry + 5] = rng.pick(&[0, 89, 90, 99, 100]),
        8 => bytes.truncate(rng.pick(&[length - 1, length - 8, entry, 0])),
        9 => {
            let more = rng.pick(&[1, 8]);
            bytes.extend(rng.bytes(more));
        }
        10 => {
            let repeated = bytes[entry..entry + 8].to_vec();
            bytes.splice(entry..entry, repeated);
        }
        11 => {
            bytes.drain(entry..entry + 8);
        }
        _ => {
            // All entries, or index 1 and lead-out, moved into the lead-in.
            let entries = bytes[rng.pick(&[0, 16])..].chunks_exact_mut(8);
            entries.for_each(|entry| entry[5] = entry[5].wrapping_add(90));
        }
    }
}

// ---- commands ----

fn random_command(rng: &mut Rng) -> String {
    if rng.chance(15) {
        let name = rng.pick(&["test-unit-ready", "request-sense"]);
        return format!("{name} {}", lent(rng, 6));
    }
    if rng.chance(10) {
        let lent = lent(rng, 12);
        return format!("blank {lent} {}", rng.below(2));
    }
    let lent = lent(rng, 10);
    match rng.below(10) {
        0 => format!("get-configuration {lent}"),
        1 => format!("read-disc-information {lent}"),
        2 => format!("read-track-information {lent}"),
        3 => format!("mode-select {lent}"),
        4 => format!("synchronize-cache {lent} {}", rng.below(2)),
        5..=6 => format!("send-cue-sheet {lent} {}", any_sheet_length(rng)),
        7..=8 => format!("write {lent} {} {}", any_address(rng), any_write_count(rng)),
        _ => {
            let function = rng.pick(&[0, 1, 1, 2, 2, 3, 255]);
            let track = rng.next_u64() as u16;
            let track = rng.pick(&[0, 1, 99, 255, 256, 65_535, track]);
            let immed = rng.below(2);
            format!("close-track-session {lent} {function} {track} {immed}")
        }
    }
}

fn any_sheet_length(rng: &mut Rng) -> u32 {
    let right = 8 * rng.between(4, 102) as u32;
    let any = rng.next_u64() as u32;
    let near = rng.below(900) as u32;
    rng.pick(&[
        right, right, right, near, 24, 31, 32, 33, 816, 817, 824, 65_568, any,
    ])
}

fn any_write_count(rng: &mut Rng) -> u32 {
    let right = rng.between(1, 16) as u32;
    rng.pick(&[
        right,
        right,
        right,
        right,
        0,
        1,
        16,
        17,
        256,
        65_537,
        u32::MAX,
    ])
}

// ---- every address and every time ----

/// Every address with a time, and the one ahead of and behind them, which are
/// refused; then every time from 00:00:00 to 99:59:74.
pub fn every_time() -> impl Iterator<Item = String> {
    let addresses = (-45_151..=404_850).map(|address| format!("time {address}"));
    let seconds = (0..100).flat_map(|minute| (0..60).map(move |second| (minute, second)));
    let times = seconds.flat_map(|(minute, second)| {
        (0..75).map(move |frame| format!("address {minute} {second} {frame}"))
    });
    addresses.chain(times)
}

// ---- the fixed list ----

/// All corner requests.
pub fn corners() -> Vec<String> {
    let mut list = Vec::new();
    time_corners(&mut list);
    order_corners(&mut list);
    reply_corners(&mut list);
    page_corners(&mut list);
    audio_corners(&mut list);
    recipe_corners(&mut list);
    sheet_corners(&mut list);
    sheet_read_corners(&mut list);
    command_corners(&mut list);
    closing_corners(&mut list);
    bad_corners(&mut list);
    list
}

fn time_corners(list: &mut Vec<String>) {
    let addresses = [
        i64::MIN,
        i64::MIN + 150,
        -(1 << 32),
        -450_151,
        -450_150,
        -45_152,
        -45_151,
        -45_150,
        -45_149,
        -45_076,
        -45_075,
        -40_651,
        -40_650,
        -4_651,
        -4_650,
        -226,
        -225,
        -152,
        -151,
        -150,
        -149,
        -76,
        -75,
        -1,
        0,
        1,
        74,
        75,
        4_349,
        4_350,
        4_351,
        400_349,
        400_350,
        404_774,
        404_775,
        404_848,
        404_849,
        404_850,
        404_999,
        405_000,
        449_849,
        449_850,
        449_999,
        450_000,
        (1 << 32) - 45_150,
        (1 << 32) - 151,
        (1 << 32) - 150,
        1 << 32,
        i64::MAX - 450_150,
        i64::MAX - 150,
        i64::MAX,
    ];
    list.extend(addresses.map(|address| format!("time {address}")));
    for minute in [0, 1, 88, 89, 90, 91, 98, 99, 100, 101, 255] {
        for second in [0, 1, 2, 59, 60, 61, 255] {
            for frame in [0, 1, 74, 75, 76, 255] {
                list.push(format!("address {minute} {second} {frame}"));
            }
        }
    }
}

fn simple_order(method: Method, flags: u8, count: usize, length: u32) -> Order {
    Order {
        method,
        flags: Flags {
            keep: flags & 1 != 0,
            protect: flags & 2 != 0,
            immed: flags & 4 != 0,
            erase: flags & 8 != 0,
        },
        tracks: vec![
            Track {
                kind: Kind::Data,
                length
            };
            count
        ],
        recipe: Recipe::default(),
    }
}

fn order_corners(list: &mut Vec<String>) {
    for method in METHODS {
        for flags in 0..16 {
            let order = simple_order(method, flags, 2, 300);
            list.push(format!("order-write 512 {}", order_words(&order)));
            list.push(format!("order-write 511 {}", order_words(&order)));
            let block = order_block(&order).unwrap_or([0; BLOCK]);
            list.push(format!("order-read {}", hex::plain(&block)));
        }
        flag_byte_corners(list, method);
    }
    for count in [0, 1, 2, 98, 99, 100, 101, 255] {
        for lent in [0, 1, 511, 512, 513] {
            let words = order_words(&simple_order(Method::Sao, 0, count, u32::MAX));
            list.push(format!("order-write {lent} {words}"));
        }
    }
    // Track counts 0 and 1 before empty rows: 3, and a track of no block.
    for count in [0, 1] {
        let mut block = [0; BLOCK];
        block[..4].copy_from_slice(&[1, 2, 0, count]);
        seal(&mut block);
        list.push(format!("order-read {}", hex::plain(&block)));
    }
    let order = Order {
        method: Method::Tao,
        flags: Flags {
            keep: true,
            protect: true,
            immed: true,
            erase: true,
        },
        tracks: [(Kind::Data, 300), (Kind::Audio, u32::MAX), (Kind::Data, 0)]
            .map(|(kind, length)| Track { kind, length })
            .to_vec(),
        recipe: Recipe::default(),
    };
    for order in [order, simple_order(Method::Sao, 0, 99, 0x0102_0304)] {
        let block = order_block(&order).unwrap_or([0; BLOCK]);
        block_read_corners(list, "order-read", block);
    }
}

/// Each of these flag bytes in an order block.
fn flag_byte_corners(list: &mut Vec<String>, method: Method) {
    let order = simple_order(method, 0, 1, 300);
    let mut block = order_block(&order).unwrap_or([0; BLOCK]);
    for flags in FLAG_BYTES {
        block[2] = flags;
        seal(&mut block);
        list.push(format!("order-read {}", hex::plain(&block)));
    }
}

fn reply_corners(list: &mut Vec<String>) {
    for length in [0, 1, 2, 505, 506, 507, 508, 1_000] {
        for lent in [0, 511, 512, 513] {
            let data = hex::or_dash(&vec![0xFF; length]);
            list.push(format!("reply-write {lent} 0 {data}"));
            list.push(format!("reply-write {lent} 1 {data}"));
        }
    }
    let busy = [0x70, 0, 2, 0, 0, 0, 0, 10, 0, 0, 0, 0, 4, 8];
    for reply in [
        Reply::failed(&busy),
        Reply::good(&[0xFF; MOST_DATA]),
        Reply::good(&[]),
    ] {
        let block = reply_block(&reply).unwrap_or([0; BLOCK]);
        block_read_corners(list, "reply-read", block);
    }
}

/// A block, each byte of it changed with and without a right check, and
/// other lengths.
fn block_read_corners(list: &mut Vec<String>, name: &str, block: [u8; BLOCK]) {
    let mut push = |bytes: &[u8]| list.push(format!("{name} {}", hex::or_dash(bytes)));
    push(&block);
    for length in [0, 1, 4, 509, 510, 511] {
        push(&block[..length]);
    }
    push(&[block.as_slice(), &[0]].concat());
    push(&[block, block].concat());
    for place in 0..BLOCK {
        let mut changed = block;
        changed[place] = changed[place].wrapping_add(1);
        push(&changed);
        seal(&mut changed);
        push(&changed);
    }
    for place in 0..5 {
        for value in 0..=255 {
            let mut changed = block;
            changed[place] = value;
            seal(&mut changed);
            push(&changed);
        }
    }
}

fn page_corners(list: &mut Vec<String>) {
    for kind in 0..2 {
        for method in METHODS {
            for flags in 0..16 {
                for count in [0, 1, 99, 100] {
                    let words = order_words(&simple_order(method, flags, count, 0));
                    for lent in [0, 59, 60, 61] {
                        list.push(format!("page {lent} {kind} {words}"));
                    }
                }
            }
        }
    }
    list.push("page 60 0 2 2 2 0 300 1 300".to_string());
}

/// Audio in TAO, which a job refuses as 24 (document 02, Ask 12): its order blocks
/// are read and written and its pages made as before, and it has no sheet.
fn audio_corners(list: &mut Vec<String>) {
    for order in tao_with_audio() {
        let words = order_words(&order);
        for lent in [0, 511, 512, 513] {
            list.push(format!("order-write {lent} {words}"));
        }
        let block = order_block(&order).unwrap_or([0; BLOCK]);
        list.push(format!("order-read {}", hex::plain(&block)));
        for lent in [0, 59, 60, 61] {
            list.push(format!("page {lent} 0 {words}"));
            list.push(format!("page {lent} 1 {words}"));
        }
        list.push(format!("sheet 816 {words}"));
    }
}

/// TAO orders with audio: all their tracks, or one at each of these places.
fn tao_with_audio() -> Vec<Order> {
    let mut orders = Vec::new();
    for flags in [0, 1, 2, 4, 8, 15] {
        for (count, places) in [
            (1, &[][..]),
            (2, &[0, 1]),
            (3, &[0, 1, 2]),
            (99, &[0, 49, 98]),
        ] {
            let data = simple_order(Method::Tao, flags, count, 300);
            let mut audio = data.clone();
            for track in &mut audio.tracks {
                track.kind = Kind::Audio;
            }
            orders.push(audio);
            for &place in places {
                let mut one = data.clone();
                one.tracks[place].kind = Kind::Audio;
                orders.push(one);
            }
        }
    }
    orders
}

/// The recipe (document 02, Ask 7) in blocks read and written, in pages and in
/// sheets. Recipe 1 with SAO is 3, ahead of 8 to 11.
fn recipe_corners(list: &mut Vec<String>) {
    for method in METHODS {
        for (flags, count, length) in [(0, 1, 300), (15, 2, 301), (5, 99, 300)] {
            recipe_byte_corners(list, &simple_order(method, flags, count, length));
        }
        for recipe in RECIPES {
            recipe_maker_corners(list, method, recipe);
        }
    }
    let mut order = simple_order(Method::Tao, 9, 2, 300);
    order.tracks[1].kind = Kind::Audio;
    order.recipe = Recipe::New;
    let block = order_block(&order).unwrap_or([0; BLOCK]);
    block_read_corners(list, "order-read", block);
    // What an SAO order has besides, judged behind 3.
    for words in [
        "2 1 1 1 300",
        "2 0 2 0 300 1 300",
        "2 0 1 1 299",
        "2 0 1 1 404850",
        "2 1 2 0 299 1 404850",
        "2 0 1 1 404849",
    ] {
        for recipe in 0..2 {
            for lent in [0, 31, 32, 40] {
                list.push(format!("sheet {lent} {words} {recipe}"));
            }
        }
    }
}

/// Every byte 499 in the block of an order, some without a right check; and every
/// byte around it.
fn recipe_byte_corners(list: &mut Vec<String>, order: &Order) {
    let mut push = |block: &[u8; BLOCK]| list.push(format!("order-read {}", hex::plain(block)));
    for value in 0..=255 {
        let mut block = loose_block(order);
        block[RECIPE] = value;
        if [1, 2, 255].contains(&value) {
            push(&block);
        }
        seal(&mut block);
        push(&block);
    }
    for recipe in [0, 1, 2] {
        for place in (490..RECIPE).chain(RECIPE + 1..510) {
            for value in [0, 1, 2, 255] {
                let mut block = loose_block(order);
                block[RECIPE] = recipe;
                block[place] = value;
                seal(&mut block);
                push(&block);
            }
        }
    }
}

/// Blocks, pages and sheets of a method and a recipe, which is named; those of
/// recipe 1 with every mix of flags.
fn recipe_maker_corners(list: &mut Vec<String>, method: Method, recipe: Recipe) {
    let every: Vec<u8> = (0..16).collect();
    let flag_bytes = match recipe {
        Recipe::Old => &[0, 3, 12],
        Recipe::New => every.as_slice(),
    };
    for &flags in flag_bytes {
        for count in [0, 1, 99, 100] {
            let mut order = simple_order(method, flags, count, 300);
            order.recipe = recipe;
            for kind in KINDS {
                order.tracks.iter_mut().for_each(|track| track.kind = kind);
                let words = full_words(&order);
                for lent in [0, 511, 512, 513] {
                    list.push(format!("order-write {lent} {words}"));
                }
                for lent in [0, 59, 60, 61] {
                    list.push(format!("page {lent} 0 {words}"));
                    list.push(format!("page {lent} 1 {words}"));
                }
                let needed = 8 * (count + 3);
                for lent in [0, needed - 1, needed, needed + 1] {
                    list.push(format!("sheet {lent} {words}"));
                }
            }
        }
    }
}

fn sheet_corners(list: &mut Vec<String>) {
    let lines = [
        "sheet 40 2 0 2 0 300 0 450",
        "sheet 40 2 2 2 1 300 1 450",
        "sheet 40 2 4 2 0 300 0 450",
        "sheet 40 2 6 2 1 300 1 450",
        "sheet 40 2 5 2 0 300 0 450",
        "sheet 40 2 8 2 0 300 0 450",
        "sheet 40 2 10 2 1 300 1 450",
        "sheet 40 2 12 2 0 300 0 450",
        "sheet 40 2 14 2 1 300 1 450",
        "sheet 40 2 9 2 0 300 0 450",
        "sheet 40 2 15 2 0 300 0 450",
        "sheet 39 2 8 2 0 300 0 450",
        "sheet 32 2 8 1 1 299",
        "sheet 32 2 8 1 1 404849",
        "sheet 32 2 8 1 1 404850",
        "sheet 32 2 8 1 1 449849",
        "sheet 40 1 8 2 0 300 0 450",
        "sheet 39 2 4 2 0 300 0 450",
        "sheet 40 1 4 2 0 300 0 450",
        "sheet 41 2 0 2 0 300 0 450",
        "sheet 39 2 0 2 0 300 0 450",
        "sheet 0 2 0 2 0 300 0 450",
        "sheet 32 2 0 1 1 299",
        "sheet 32 2 0 1 1 300",
        "sheet 32 2 0 1 1 404848",
        "sheet 32 2 0 1 1 404849",
        "sheet 31 2 0 1 1 404849",
        "sheet 32 2 0 1 0 404849",
        "sheet 32 2 0 1 1 404850",
        "sheet 31 2 0 1 1 404850",
        "sheet 32 2 0 1 0 404850",
        "sheet 32 2 0 1 1 449849",
        "sheet 32 2 0 1 1 449850",
        "sheet 32 2 0 1 1 4294967295",
        "sheet 40 2 0 2 1 404549 1 300",
        "sheet 40 2 0 2 1 404550 1 300",
        "sheet 40 2 0 2 1 300 1 404549",
        "sheet 40 2 0 2 1 300 1 404550",
        "sheet 40 2 0 2 1 449549 1 300",
        "sheet 40 2 0 2 1 4294967295 1 301",
        "sheet 40 2 0 2 1 2147483648 1 2147483948",
        "sheet 40 1 0 2 0 300 0 450",
        "sheet 40 1 1 2 0 300 1 299",
        "sheet 40 2 1 2 0 300 0 450",
        "sheet 40 2 0 2 0 300 1 450",
        "sheet 40 2 0 2 0 299 1 404850",
        "sheet 40 2 1 2 0 299 0 404850",
        "sheet 40 2 0 2 0 299 0 404850",
        "sheet 0 2 0 0",
        "sheet 0 2 1 0",
        "sheet 0 1 0 0",
    ];
    list.extend(lines.map(str::to_string));
    for count in [1, 2, 98, 99, 100, 255] {
        let words = order_words(&simple_order(Method::Sao, 0, count, 300));
        for lent in [815, 816, 817] {
            list.push(format!("sheet {lent} {words}"));
        }
    }
}

fn sheet_read_corners(list: &mut Vec<String>) {
    let mut push = |bytes: &[u8]| list.push(format!("sheet-read {}", hex::or_dash(bytes)));
    let order = |kind: Kind, lengths: &[u32]| {
        let mut order = simple_order(Method::Sao, 0, 0, 0);
        order.tracks = lengths
            .iter()
            .map(|&length| Track { kind, length })
            .collect();
        order
    };
    for kind in KINDS {
        let sheets: [&[u32]; 14] = [
            &[],
            &[0],
            &[299],
            &[300],
            &[300, 450],
            &[300, 299],
            &[404_849],
            &[404_850],
            &[404_549, 300],
            &[404_550, 300],
            // Up to 99:59:74 by the sum of minutes 0 to 89.
            &[449_849],
            &[449_850],
            &[449_549, 300],
            &[300; 100],
        ];
        for lengths in sheets {
            push(&loose_sheet(&order(kind, lengths)));
        }
        push(&loose_sheet(&order(kind, &[300; 99])));
        let small = loose_sheet(&order(kind, &[4_500]));
        for place in 0..small.len() {
            for value in 0..=255 {
                let mut changed = small.clone();
                changed[place] = value;
                push(&changed);
            }
        }
        for length in 0..small.len() {
            push(&small[..length]);
        }
        push(&[small.as_slice(), &[0]].concat());
        push(&[small.as_slice(), &[0; 8]].concat());
    }
    for times in lead_in_times() {
        for kind in KINDS {
            for lengths in [&[300][..], &[300, 450], &[404_849], &[404_549, 300]] {
                let sheet = loose_sheet(&order(kind, lengths));
                for entry in (0..sheet.len()).step_by(8) {
                    // In this entry alone, and in it and all behind it.
                    for last in [entry, sheet.len() - 8] {
                        let mut changed = sheet.clone();
                        for place in (entry..=last).step_by(8) {
                            changed[place + 5..place + 8].copy_from_slice(&times);
                        }
                        push(&changed);
                    }
                }
            }
        }
    }
    // All entries within the lead-in, where their lengths would be right.
    for first in [0, 16] {
        for minutes in [89, 90, 99] {
            let mut shifted = loose_sheet(&order(Kind::Audio, &[300, 450]));
            let entries = shifted[first..].chunks_exact_mut(8);
            entries.for_each(|entry| entry[5] += minutes);
            push(&shifted);
        }
    }
    let mut mixed = loose_sheet(&order(Kind::Data, &[300, 450]));
    mixed[24] = 0x01;
    mixed[27] = 0x00;
    push(&mixed);
}

/// Times around minute 90, which no sheet has from there on, and 89:59:74, the
/// last that one has.
fn lead_in_times() -> [[u8; 3]; 8] {
    [
        [89, 59, 73],
        [89, 59, 74],
        [90, 0, 0],
        [90, 0, 1],
        [90, 2, 0],
        [99, 59, 73],
        [99, 59, 74],
        [100, 0, 0],
    ]
}

fn command_corners(list: &mut Vec<String>) {
    for lent in [0, 1, 9, 10, 11, 20] {
        for name in [
            "get-configuration",
            "read-disc-information",
            "read-track-information",
            "mode-select",
        ] {
            list.push(format!("{name} {lent}"));
        }
        for length in [
            0,
            8,
            24,
            31,
            32,
            33,
            40,
            816,
            817,
            824,
            65_536 + 32,
            u32::MAX,
        ] {
            list.push(format!("send-cue-sheet {lent} {length}"));
        }
        for address in [
            i64::MIN,
            -45_151,
            -45_150,
            -45_149,
            -152,
            -151,
            -150,
            -149,
            -1,
            0,
            404_848,
            404_849,
            404_850,
            449_849,
            449_850,
            (1 << 32) - 151,
            (1 << 32) - 150,
            1 << 32,
            i64::MAX,
        ] {
            for count in [0, 1, 16, 17, 65_537, u32::MAX] {
                list.push(format!("write {lent} {address} {count}"));
            }
        }
    }
    list.extend((0..=1_000).map(|length| format!("send-cue-sheet 10 {length}")));
}

/// The commands that close or erase, without and with Immed, and the polls.
fn closing_corners(list: &mut Vec<String>) {
    for lent in [0, 1, 9, 10, 11, 20] {
        for immed in 0..2 {
            list.push(format!("synchronize-cache {lent} {immed}"));
            for function in [0, 1, 2, 3, 255] {
                for track in [0, 1, 255, 256, 65_535] {
                    list.push(format!(
                        "close-track-session {lent} {function} {track} {immed}"
                    ));
                }
            }
        }
    }
    for lent in [0, 1, 2, 6, 10, 11, 12, 13, 24] {
        list.push(format!("blank {lent} 0"));
        list.push(format!("blank {lent} 1"));
    }
    for lent in [0, 1, 5, 6, 7, 10, 18] {
        list.push(format!("test-unit-ready {lent}"));
        list.push(format!("request-sense {lent}"));
    }
}

fn bad_corners(list: &mut Vec<String>) {
    let lines = [
        "nonsense",
        "time",
        "time x",
        "write 10 0",
        "order-write 512 1 0 2 0 300",
        "order-read",
        "order-read 0",
        "sheet",
        "order-write 512 1 16 1 0 300",
        "order-write 512 1 24 1 0 300",
        "order-write 512 1 0 1 0 300 2",
        "order-write 512 1 0 1 0 300 255",
        "order-write 512 1 0 1 0 300 256",
        "order-write 512 1 0 1 0 300 1 1",
        "order-write 512 1 0 1 1",
        "page 60 0 1 0 1 0 300 2",
        "sheet 32 2 0 1 0 300 2",
        "page 60 0 1 16 1 0 300",
        "sheet 32 2 16 1 0 300",
        "blank 12",
        "blank 12 2",
        "blank 12 0 0",
        "synchronize-cache 10",
        "synchronize-cache 10 2",
        "close-track-session 10 1 255",
        "close-track-session 10 1 255 2",
        "test-unit-ready 6 0",
        "request-sense",
        "time 0",
    ];
    list.extend(lines.map(str::to_string));
}

#[cfg(test)]
mod tests {
    use super::*;
    use second::layouts::answer;
    use std::collections::BTreeSet;

    /// Random requests are understood, and both succeed and are refused.
    #[test]
    fn random_requests_are_understood() {
        let mut rng = Rng::new(11);
        let mut seen = BTreeSet::new();
        for _ in 0..4_000 {
            let request = random(&mut rng);
            let answer = answer(&request);
            assert_ne!(answer, "bad request", "{request}");
            let name = request.split(' ').next().unwrap_or("").to_string();
            let words: Vec<&str> = answer.split(' ').take(2).collect();
            let ending = if words[0] == "ok" {
                "ok".to_string()
            } else {
                words.join(" ")
            };
            seen.insert((name, ending));
        }
        let expected = [
            ("time", "ok"),
            ("time", "refused 15"),
            ("address", "ok"),
            ("address", "refused 15"),
            ("order-read", "ok"),
            ("order-read", "refused 1"),
            ("order-read", "refused 2"),
            ("order-read", "refused 3"),
            ("order-write", "ok"),
            ("order-write", "refused 3"),
            ("order-write", "refused 11"),
            ("reply-read", "ok"),
            ("reply-read", "refused 1"),
            ("reply-read", "refused 2"),
            ("reply-read", "refused 3"),
            ("reply-write", "ok"),
            ("reply-write", "refused 3"),
            ("reply-write", "refused 11"),
            ("page", "ok"),
            ("page", "refused 3"),
            ("page", "refused 8"),
            ("page", "refused 11"),
            ("sheet", "ok"),
            ("sheet", "refused 3"),
            ("sheet", "refused 8"),
            ("sheet", "refused 9"),
            ("sheet", "refused 10"),
            ("sheet", "refused 11"),
            ("sheet-read", "ok"),
            ("sheet-read", "refused 14"),
            ("write", "ok"),
            ("write", "refused 11"),
            ("write", "refused 15"),
            ("send-cue-sheet", "ok"),
            ("send-cue-sheet", "refused 15"),
            ("close-track-session", "ok"),
            ("close-track-session", "refused 15"),
            ("synchronize-cache", "ok"),
            ("synchronize-cache", "refused 11"),
            ("blank", "ok"),
            ("blank", "refused 11"),
            ("test-unit-ready", "ok"),
            ("test-unit-ready", "refused 11"),
            ("request-sense", "ok"),
            ("request-sense", "refused 11"),
        ];
        for (name, ending) in expected {
            assert!(
                seen.contains(&(name.to_string(), ending.to_string())),
                "{name} {ending}"
            );
        }
    }

    /// The ends are refused; every other request's answer, asked in turn,
    /// gives back what it was asked with.
    #[test]
    fn every_time_and_back() {
        let requests: Vec<String> = every_time().collect();
        assert_eq!(requests.len(), 450_002 + 450_000);
        assert_eq!(requests[0], "time -45151");
        assert_eq!(requests[450_001], "time 404850");
        assert_eq!(requests[450_002], "address 0 0 0");
        assert_eq!(requests[900_001], "address 99 59 74");
        for (place, request) in requests.iter().enumerate() {
            let answered = answer(request);
            if place == 0 || place == 450_001 {
                assert_eq!(answered, "refused 15", "{request}");
                continue;
            }
            let (name, asked) = request.split_once(' ').unwrap();
            let back = if name == "time" { "address" } else { "time" };
            let back = answered.replacen("ok", back, 1);
            assert_eq!(answer(&back), format!("ok {asked}"), "{request}");
        }
    }

    /// What is written of audio in TAO reads back, and it has pages.
    #[test]
    fn audio_in_tao_is_taken() {
        let list: BTreeSet<String> = corners().into_iter().collect();
        for order in tao_with_audio() {
            let words = order_words(&order);
            let asked = |request: String| {
                assert!(list.contains(&request), "{request}");
                answer(&request)
            };
            let written = asked(format!("order-write 512 {words}"));
            let read = asked(written.replacen("ok", "order-read", 1));
            assert_eq!(read, format!("ok {words} 0"));
            for kind in KINDS {
                let page = asked(format!("page 60 {} {words}", kind.byte()));
                assert!(page.starts_with("ok "), "{words}");
            }
        }
    }

    /// What the recipes' corner requests are answered, by document 02, Ask 7. The
    /// bytes made are those of recipe 0, byte 499 and the check apart.
    #[test]
    fn recipes_are_answered() {
        let mut list = Vec::new();
        recipe_corners(&mut list);
        let mut seen = BTreeSet::new();
        for request in &list {
            let words: Vec<&str> = request.split(' ').collect();
            let name = words[0].to_string();
            let answered = answer(request);
            if name == "order-read" {
                let expected = block_answer(&hex::bytes_or_dash(&words[1..]).unwrap());
                assert_eq!(answered, expected, "{request}");
                let ending = if answered.starts_with("ok") {
                    format!("ok {}", &answered[answered.len() - 1..])
                } else {
                    answered
                };
                seen.insert((name, ending));
                continue;
            }
            let rest = if name == "page" { 3 } else { 2 };
            let expected = maker_answer(&name, words[1].parse().unwrap(), &words[rest..]);
            assert!(
                answered.starts_with(&format!("{expected} ")),
                "{request}: {answered}"
            );
            if expected == "ok" {
                let plain = answer(&words[..words.len() - 1].join(" "));
                let [mut ours, plain] = [&answered, &plain]
                    .map(|made| made.split(' ').map(str::to_string).collect::<Vec<String>>());
                if name == "order-write" {
                    let recipe = words.last().unwrap();
                    assert_eq!(ours[1 + 499], format!("0{recipe}"), "{request}");
                    assert_eq!(plain[1 + 499], "00");
                    ours[1 + 499].clone_from(&plain[1 + 499]);
                    ours[1 + 510..1 + 512].clone_from_slice(&plain[1 + 510..1 + 512]);
                }
                assert_eq!(ours, plain, "{request}");
            }
            seen.insert((name, expected));
        }
        for (name, endings) in [
            (
                "order-read",
                &["ok 0", "ok 1", "refused 1", "refused 2", "refused 3"][..],
            ),
            ("order-write", &["ok", "refused 3", "refused 11"]),
            ("page", &["ok", "refused 3", "refused 8", "refused 11"]),
            (
                "sheet",
                &[
                    "ok",
                    "refused 3",
                    "refused 8",
                    "refused 9",
                    "refused 10",
                    "refused 11",
                ],
            ),
        ] {
            for ending in endings {
                let sort = (name.to_string(), ending.to_string());
                assert!(seen.contains(&sort), "{sort:?}");
            }
        }
    }

    /// The whole answer to reading a block of 512 bytes with rows of kind and
    /// length, or any other.
    fn block_answer(bytes: &[u8]) -> String {
        if bytes.len() != 512 {
            return "refused 1".to_string();
        }
        let sum: u32 = bytes[..510].iter().map(|&byte| u32::from(byte)).sum();
        if sum % 65_536 != 256 * u32::from(bytes[510]) + u32::from(bytes[511]) {
            return "refused 2".to_string();
        }
        let (method, flags, count, recipe) = (bytes[1], bytes[2], bytes[3], bytes[499]);
        let end = 4 + 5 * usize::from(count);
        let head = bytes[0] == 1 && [1, 2].contains(&method) && flags < 16;
        let fits = (1..=99).contains(&count) && (recipe == 0 || (recipe == 1 && method == 1));
        if !head || !fits {
            return "refused 3".to_string();
        }
        let mut rows = bytes[4..end].chunks(5);
        let padding = [&bytes[end..499], &bytes[500..510]].concat();
        if rows.any(|row| row[0] > 1) || padding.iter().any(|&byte| byte != 0) {
            return "refused 3".to_string();
        }
        let rows = bytes[4..end].chunks(5).map(|row| {
            let length = row[1..].iter().fold(0u64, |n, &b| 256 * n + u64::from(b));
            format!(" {} {length}", row[0])
        });
        let rows: String = rows.collect();
        format!("ok {method} {flags} {count}{rows} {recipe}")
    }

    /// How the answer of a maker begins, for an order of these words.
    fn maker_answer(name: &str, lent: u64, order: &[&str]) -> String {
        let numbers: Vec<u64> = order.iter().map(|word| word.parse().unwrap()).collect();
        let (sao, keep, count) = (numbers[0] == 2, numbers[1] % 2 == 1, numbers[2]);
        let new = numbers.last() == Some(&1);
        let listed = &numbers[3..numbers.len() - 1];
        let kinds: BTreeSet<u64> = listed.iter().step_by(2).copied().collect();
        let lengths: Vec<u64> = listed.iter().skip(1).step_by(2).copied().collect();
        let field = count == 0 || count > 99 || (sao && new);
        let needed = match name {
            "order-write" => 512,
            "page" => 60,
            _ => 8 * (count + 3),
        };
        let number = match name {
            _ if field => 3,
            "sheet" if !sao => 3,
            "page" if sao && keep => 8,
            "sheet" if keep || kinds.len() > 1 => 8,
            "sheet" if lengths.iter().any(|&length| length < 300) => 9,
            "sheet" if lengths.iter().sum::<u64>() > 404_849 => 10,
            _ if lent < needed => 11,
            _ => return "ok".to_string(),
        };
        format!("refused {number}")
    }

    #[test]
    fn only_the_bad_corners_are_bad() {
        let list = corners();
        let bad = list
            .iter()
            .filter(|request| answer(request) == "bad request")
            .count();
        assert_eq!(bad, 28);
    }
}
