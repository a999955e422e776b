//! Units that are kept apart, and the order of tracks.

use crate::refusal::{require, Refusal};
use std::ops::RangeInclusive;

/// The start of the pause, at time 00:00:00.
pub const PAUSE_START: i64 = -150;
/// Last address with a time and of a WRITE, and the limit of the lead-out.
pub const LAST_ADDRESS: i64 = 404_849;
/// The addresses that have a time, those of the lead-in too (document 02, Ask 3).
pub const TIMED: RangeInclusive<i64> = -45_150..=LAST_ADDRESS;
/// The addresses at which a WRITE may start.
pub const WRITABLE: RangeInclusive<i64> = PAUSE_START..=LAST_ADDRESS;
/// A track has at least this many blocks (document 000).
pub const SHORTEST_TRACK: u32 = 300;
/// An order holds at most this many tracks.
pub const MOST_TRACKS: usize = 99;
/// Blocks between the end of a TAO track and the start of the next one: two
/// run-out blocks and a pause of 150 (document 02, Ask 6).
pub const BETWEEN_TRACKS: u64 = 152;

/// A block address.
#[derive(Clone, Copy, PartialEq, Eq, PartialOrd, Ord, Debug)]
pub struct Address(pub i64);

/// A number of blocks.
#[derive(Clone, Copy, PartialEq, Eq, PartialOrd, Ord, Debug)]
pub struct BlockCount(pub u64);

/// A track number; 0 stands for the pause.
#[derive(Clone, Copy, PartialEq, Eq, PartialOrd, Ord, Debug)]
pub struct TrackNumber(pub u16);

impl Address {
    /// The address that comes `count` blocks later.
    pub fn after(self, count: BlockCount) -> Address {
        // Addresses stem from 32-bit fields and counts from at most 99
        // lengths of 32 bits and what lies between them, so this never leaves
        // 64 bits.
        Address(self.0 + count.0 as i64)
    }
}

#[derive(Clone, Copy, PartialEq, Eq, Debug)]
pub enum Kind {
    Audio,
    Data,
}

impl Kind {
    pub fn from_byte(byte: u8) -> Option<Kind> {
        match byte {
            0 => Some(Kind::Audio),
            1 => Some(Kind::Data),
            _ => None,
        }
    }

    pub fn byte(self) -> u8 {
        match self {
            Kind::Audio => 0,
            Kind::Data => 1,
        }
    }
}

#[derive(Clone, Copy, PartialEq, Eq, Debug)]
pub enum Method {
    /// Track at once.
    Tao,
    /// Session at once.
    Sao,
}

impl Method {
    pub fn from_byte(byte: u8) -> Option<Method> {
        match byte {
            1 => Some(Method::Tao),
            2 => Some(Method::Sao),
            _ => None,
        }
    }

    pub fn byte(self) -> u8 {
        match self {
            Method::Tao => 1,
            Method::Sao => 2,
        }
    }
}

/// Bit 0 keep appendable, bit 1 buffer underrun protection, bit 2 Immed, bit 3
/// erase.
#[derive(Clone, Copy, Default, PartialEq, Eq, Debug)]
pub struct Flags {
    pub keep: bool,
    pub protect: bool,
    /// 35h, 5Bh and A1h return at once, and polling follows (document 02, Ask 1).
    pub immed: bool,
    /// A used disc is erased before recording (document 02, Ask 2).
    pub erase: bool,
}

impl Flags {
    pub fn from_byte(byte: u8) -> Option<Flags> {
        if byte > 15 {
            return None;
        }
        Some(Flags {
            keep: byte & 1 != 0,
            protect: byte & 2 != 0,
            immed: byte & 4 != 0,
            erase: byte & 8 != 0,
        })
    }

    pub fn byte(self) -> u8 {
        let bits = [self.keep, self.protect, self.immed, self.erase];
        let values = bits.into_iter().zip([1, 2, 4, 8]);
        values.map(|(bit, value)| value * u8::from(bit)).sum()
    }
}

/// How a TAO track is closed (document 02, Ask 7).
#[derive(Clone, Copy, Default, PartialEq, Eq, Debug)]
pub enum Recipe {
    /// That up to December 2009: 35h, then 5Bh function 1.
    #[default]
    Old,
    /// That of the newer drives: 35h alone.
    New,
}

impl Recipe {
    pub fn from_byte(byte: u8) -> Option<Recipe> {
        match byte {
            0 => Some(Recipe::Old),
            1 => Some(Recipe::New),
            _ => None,
        }
    }

    pub fn byte(self) -> u8 {
        match self {
            Recipe::Old => 0,
            Recipe::New => 1,
        }
    }
}

#[derive(Clone, Copy, PartialEq, Eq, Debug)]
pub struct Track {
    pub kind: Kind,
    /// Length in blocks, any value.
    pub length: u32,
}

/// An order of tracks. Its count of tracks, or its recipe beside its method,
/// may be one that no order block has; `check_fields` tells.
#[derive(Clone, PartialEq, Eq, Debug)]
pub struct Order {
    pub method: Method,
    pub flags: Flags,
    pub tracks: Vec<Track>,
    pub recipe: Recipe,
}

impl Order {
    /// Number 3, of the fields that the types leave open.
    pub fn check_fields(&self) -> Result<(), Refusal> {
        self.check_count()?;
        self.check_recipe()
    }

    /// Number 3: recipe 1 goes with TAO alone (document 02, Ask 7).
    pub fn check_recipe(&self) -> Result<(), Refusal> {
        require(
            self.method == Method::Tao || self.recipe == Recipe::Old,
            Refusal::Field,
        )
    }

    /// Number 3: 1 to 99 tracks.
    pub fn check_count(&self) -> Result<(), Refusal> {
        require(
            (1..=MOST_TRACKS).contains(&self.tracks.len()),
            Refusal::Field,
        )
    }

    /// Number 24: TAO with an audio track (document 02, Ask 12).
    pub fn check_audio(&self) -> Result<(), Refusal> {
        let audio = self.tracks.iter().any(|t| t.kind == Kind::Audio);
        require(self.method == Method::Sao || !audio, Refusal::AudioInTao)
    }

    /// Number 8, its part about keep appendable.
    pub fn check_keep(&self) -> Result<(), Refusal> {
        require(
            self.method == Method::Tao || !self.flags.keep,
            Refusal::SessionAtOnce,
        )
    }

    /// Number 8: SAO with mixed kinds or with keep appendable.
    pub fn check_session(&self) -> Result<(), Refusal> {
        let mixed = self.tracks.windows(2).any(|w| w[0].kind != w[1].kind);
        require(self.method == Method::Tao || !mixed, Refusal::SessionAtOnce)?;
        self.check_keep()
    }

    /// Number 9: each track has at least 300 blocks.
    pub fn check_lengths(&self) -> Result<(), Refusal> {
        let short = self.tracks.iter().any(|t| t.length < SHORTEST_TRACK);
        require(!short, Refusal::ShortTrack)
    }

    /// The blocks of the track with index `first` and of all after it: the
    /// plain sum of their lengths.
    pub fn blocks_from(&self, first: usize) -> BlockCount {
        let lengths = self.tracks.iter().skip(first).map(|t| u64::from(t.length));
        BlockCount(lengths.sum())
    }

    /// S as number 10 judges it in a job (document 02, Ask 6): the blocks of
    /// the track with index `first` and of all after it, and in TAO 152 more
    /// for each of those after it. SAO is not charged.
    pub fn needed_from(&self, first: usize) -> BlockCount {
        let later = self.tracks.iter().skip(first).skip(1).count();
        let charge = match self.method {
            Method::Tao => BETWEEN_TRACKS * later as u64,
            Method::Sao => 0,
        };
        BlockCount(self.blocks_from(first).0 + charge)
    }
}

/// Number 10, the lead-out limit.
pub fn check_lead_out(lead_out: Address) -> Result<(), Refusal> {
    require(lead_out.0 <= LAST_ADDRESS, Refusal::Fit)
}

#[cfg(test)]
mod tests {
    use super::*;

    fn order(method: Method, lengths: &[u32]) -> Order {
        let tracks = lengths.iter().map(|&length| Track {
            kind: Kind::Data,
            length,
        });
        Order {
            method,
            flags: Flags::default(),
            tracks: tracks.collect(),
            recipe: Recipe::default(),
        }
    }

    /// Recipes 0 and 1 have a byte, and no other byte has a recipe.
    #[test]
    fn recipe_bytes() {
        assert_eq!(Recipe::from_byte(0), Some(Recipe::Old));
        assert_eq!(Recipe::from_byte(1), Some(Recipe::New));
        assert!((2..=255).all(|byte| Recipe::from_byte(byte).is_none()));
        assert_eq!([Recipe::Old, Recipe::New].map(Recipe::byte), [0, 1]);
        assert_eq!(Recipe::default(), Recipe::Old);
    }

    /// Recipe 1 with SAO is 3, as a count of tracks is that no block has.
    #[test]
    fn the_fields_of_an_order() {
        for (count, counts) in [(0, false), (1, true), (99, true), (100, false)] {
            for (method, recipe, goes) in [
                (Method::Tao, Recipe::Old, true),
                (Method::Tao, Recipe::New, true),
                (Method::Sao, Recipe::Old, true),
                (Method::Sao, Recipe::New, false),
            ] {
                let mut order = order(method, &vec![300; count]);
                order.recipe = recipe;
                let passes = |good: bool| if good { Ok(()) } else { Err(Refusal::Field) };
                assert_eq!(order.check_recipe(), passes(goes));
                assert_eq!(order.check_fields(), passes(counts && goes));
            }
        }
    }

    /// Audio at any place in TAO is 24, alone or among data tracks; SAO is
    /// untouched.
    #[test]
    fn audio_in_tao() {
        for count in [1, 2, 3, MOST_TRACKS] {
            let mut order = order(Method::Tao, &vec![300; count]);
            assert_eq!(order.check_audio(), Ok(()));
            for place in 0..count {
                order.tracks[place].kind = Kind::Audio;
                assert_eq!(order.check_audio(), Err(Refusal::AudioInTao));
                order.tracks[place].kind = Kind::Data;
            }
            order
                .tracks
                .iter_mut()
                .for_each(|track| track.kind = Kind::Audio);
            assert_eq!(order.check_audio(), Err(Refusal::AudioInTao));
            order.method = Method::Sao;
            assert_eq!(order.check_audio(), Ok(()));
        }
        assert_eq!(Refusal::AudioInTao.number(), 24);
    }

    /// With m tracks still to come S is charged 152 (m - 1).
    #[test]
    fn tao_is_charged() {
        let three = order(Method::Tao, &[300, 301, 302]);
        let needed = [0, 1, 2].map(|first| three.needed_from(first).0);
        assert_eq!(needed, [903 + 304, 603 + 152, 302]);
        let plain = [0, 1, 2].map(|first| three.blocks_from(first).0);
        assert_eq!(plain, [903, 603, 302]);
        assert_eq!(order(Method::Tao, &[300]).needed_from(0), BlockCount(300));
    }

    #[test]
    fn sao_is_not_charged() {
        let three = order(Method::Sao, &[300, 301, 302]);
        for first in 0..3 {
            assert_eq!(three.needed_from(first), three.blocks_from(first));
        }
    }

    /// Sums are exact, and nothing is charged where no track is to come.
    #[test]
    fn most_and_least() {
        let most = order(Method::Tao, &[u32::MAX; MOST_TRACKS]);
        let lengths = 99 * u64::from(u32::MAX);
        assert_eq!(most.needed_from(0), BlockCount(lengths + 14_896));
        assert_eq!(most.needed_from(98), BlockCount(u32::MAX.into()));
        assert_eq!(most.needed_from(99), BlockCount(0));
        assert_eq!(order(Method::Tao, &[]).needed_from(0), BlockCount(0));
    }
}
