//! Document 02, Ask 7, over random TAO orders and all-good replies: what is
//! printed under recipe 0, the 5Bh function 1 and its polls left out, is what is
//! printed under recipe 1, and the counts are 4n+3+W and 3n+3+W.

use second::blocks::{order_block, reply_block, Reply, BLOCK};
use second::commands::{
    CLOSE_TRACK_SESSION, GET_CONFIGURATION, READ_DISC_INFORMATION, READ_TRACK_INFORMATION,
    REQUEST_SENSE, SYNCHRONIZE_CACHE, TEST_UNIT_READY,
};
use second::job::{Answer, Job};
use second::print::print;
use second::rng::Rng;
use second::units::{Flags, Kind, Method, Order, Recipe, Track};
use second::wellformed::{
    disc_reply, profile_reply, progress_reply, sense_reply, track_reply, TrackFields,
};

/// A TAO order of data that fits, on a disc that suits it.
struct Plan {
    order: Order,
    /// The first 51h's status, 0 to 2.
    disc: u8,
    /// The replies to the 52h of each track.
    infos: Vec<Reply>,
    /// The rounds of the polling behind the A1h, of those behind each track's 35h
    /// and 5Bh function 1, and behind 5Bh function 2: what 03h reports, and whether
    /// the 00h ahead of it was ready. The last round ends it.
    erasing: Vec<(bool, u16)>,
    tracks: Vec<[Vec<(bool, u16)>; 2]>,
    session: Vec<(bool, u16)>,
}

impl Plan {
    fn new(rng: &mut Rng) -> Plan {
        let some = rng.between(3, 12);
        let count = rng.pick(&[1, 1, 2, 2, 3, some]);
        let tracks: Vec<Track> = (0..count)
            .map(|_| Track {
                kind: Kind::Data,
                length: rng.between(300, 700) as u32,
            })
            .collect();
        let flags = Flags::from_byte(rng.below(16) as u8).unwrap();
        let disc = if flags.erase {
            rng.pick(&[0, 1, 2])
        } else {
            rng.pick(&[0, 1])
        };
        let mut start = rng.below(100_000) as u32;
        let mut infos = Vec::new();
        for track in &tracks {
            infos.push(track_reply(TrackFields {
                next_writable: start,
                free: 300_000,
                damaged: false,
                address_valid: true,
            }));
            start += track.length + rng.pick(&[0, 2, 150, 152, 1_000]);
        }
        Plan {
            infos,
            disc,
            erasing: polling(rng),
            tracks: tracks
                .iter()
                .map(|_| [polling(rng), polling(rng)])
                .collect(),
            session: polling(rng),
            order: Order {
                method: Method::Tao,
                flags,
                tracks,
                recipe: Recipe::Old,
            },
        }
    }

    /// A job under a recipe: print's input and its lines.
    fn printed(&self, recipe: Recipe) -> (Vec<u8>, Vec<String>) {
        let mut order = self.order.clone();
        order.recipe = recipe;
        let mut bytes = order_block(&order).unwrap().to_vec();
        let (mut job, mut answer) = Job::take(&bytes);
        let (mut asked, mut synchronized, mut closed) = (0, 0, 0);
        let (mut erased, mut rounds) = (false, self.erasing.iter());
        let mut latest = (true, 0);
        while let Answer::Command(command) = answer {
            let code = command.bytes[0];
            let reply = match code {
                GET_CONFIGURATION => profile_reply(10),
                READ_DISC_INFORMATION => {
                    let status = if erased { 0 } else { self.disc };
                    erased = true;
                    disc_reply(status, true)
                }
                READ_TRACK_INFORMATION => {
                    asked += 1;
                    self.infos[asked - 1].clone()
                }
                SYNCHRONIZE_CACHE => {
                    synchronized += 1;
                    rounds = self.tracks[synchronized - 1][0].iter();
                    Reply::good(&[])
                }
                CLOSE_TRACK_SESSION if command.bytes[2] == 1 => {
                    closed += 1;
                    rounds = self.tracks[closed - 1][1].iter();
                    Reply::good(&[])
                }
                CLOSE_TRACK_SESSION => {
                    rounds = self.session.iter();
                    Reply::good(&[])
                }
                TEST_UNIT_READY => {
                    latest = *rounds.next().expect("a round");
                    if latest.0 {
                        Reply::good(&[])
                    } else {
                        sense_reply(0x70, 2, 4, 7)
                    }
                }
                REQUEST_SENSE => progress_reply(latest.1),
                _ => Reply::good(&[]),
            };
            bytes.extend(reply_block(&reply).unwrap());
            answer = job.give(&reply);
        }
        assert_eq!(answer, Answer::Done);
        assert_eq!(bytes.len() as u64 / BLOCK as u64, job.count() + 1);
        let mut output = Vec::new();
        print(bytes.as_slice(), &mut output).unwrap();
        let output = String::from_utf8(output).unwrap();
        (bytes, output.lines().map(str::to_string).collect())
    }

    /// Commands besides the recipe's: 3, each WRITE, those of an erasing, and the
    /// polls of an erasing, of each 35h and of 5Bh function 2.
    fn others(&self) -> usize {
        let lengths = self.order.tracks.iter().map(|track| track.length);
        let writes: usize = lengths.map(|length| length.div_ceil(16) as usize).sum();
        let erases = self.order.flags.erase && self.disc > 0;
        let mut polls = 2 * self.session.len();
        polls += self.tracks.iter().map(|[a, _]| 2 * a.len()).sum::<usize>();
        if erases {
            polls += 2 * self.erasing.len();
        }
        let polls = if self.order.flags.immed { polls } else { 0 };
        3 + writes + 2 * usize::from(erases) + polls
    }

    /// The polls of each 5Bh function 1.
    fn closing_polls(&self) -> usize {
        let polls = self.tracks.iter().map(|[_, b]| 2 * b.len()).sum();
        if self.order.flags.immed {
            polls
        } else {
            0
        }
    }
}

fn polling(rng: &mut Rng) -> Vec<(bool, u16)> {
    let mut rounds: Vec<(bool, u16)> = (0..rng.below(3))
        .map(|_| (rng.chance(50), rng.next_u64() as u16 | 1))
        .collect();
    rounds.push((true, 0));
    rounds
}

/// Recipe 0's lines without function 1 and the polls right behind it.
fn without_function_1(lines: &[String]) -> Vec<String> {
    let mut kept = Vec::new();
    let mut left_out = false;
    for line in lines {
        let words: Vec<&str> = line.split(' ').collect();
        let poll = words.len() == 6;
        left_out = matches!(words[..], ["5B", _, "01", ..]) || (left_out && poll);
        if !left_out {
            kept.push(line.clone());
        }
    }
    kept
}

#[test]
fn function_1_is_all_that_differs() {
    let mut rng = Rng::new(7);
    let mut seen = [0; 16];
    for _ in 0..600 {
        let plan = Plan::new(&mut rng);
        seen[usize::from(plan.order.flags.byte())] += 1;
        let (old_bytes, old) = plan.printed(Recipe::Old);
        let (new_bytes, new) = plan.printed(Recipe::New);
        assert_eq!((old_bytes[499], new_bytes[499]), (0, 1));
        assert!(!new.iter().any(|line| line.starts_with("5B 00 01")));
        assert!(!new.iter().any(|line| line.starts_with("5B 01 01")));
        let tracks = plan.order.tracks.len();
        let count = plan.others() + 4 * tracks + plan.closing_polls();
        assert_eq!(old.last().unwrap(), &format!("done {count}"));
        let count = plan.others() + 3 * tracks;
        assert_eq!(new.last().unwrap(), &format!("done {count}"));
        let kept = without_function_1(&old);
        assert_eq!(kept[..kept.len() - 1], new[..new.len() - 1]);
    }
    assert!(seen.iter().all(|&orders| orders > 10), "{seen:?}");
}

/// 99 tracks: 4 x 99 + 3 + 99 x 19 and 3 x 99 + 3 + 99 x 19.
#[test]
fn ninety_nine_tracks() {
    let mut rng = Rng::new(8);
    let mut plan = Plan::new(&mut rng);
    let track = |index: u32| {
        track_reply(TrackFields {
            next_writable: 452 * index,
            free: 300_000,
            damaged: false,
            address_valid: true,
        })
    };
    plan.order.flags = Flags::default();
    plan.disc = 0;
    plan.order.tracks = vec![
        Track {
            kind: Kind::Data,
            length: 300,
        };
        99
    ];
    plan.infos = (0..99).map(track).collect();
    plan.tracks = vec![[vec![], vec![]]; 99];
    let [old, new] = [Recipe::Old, Recipe::New].map(|recipe| plan.printed(recipe).1);
    assert_eq!(old.last().unwrap(), "done 2280");
    assert_eq!(new.last().unwrap(), "done 2181");
    let kept = without_function_1(&old);
    assert_eq!(kept[..2_181], new[..2_181]);
}
