//! The numbers a refusal bears (document 01, "Numbers a refusal bears", and
//! document 02's requests).

/// Key, ASC and ASCQ of a failed reply.
#[derive(Clone, Copy, PartialEq, Eq, Debug)]
pub struct Sense {
    pub key: u8,
    pub asc: u8,
    pub ascq: u8,
}

#[derive(Clone, Copy, PartialEq, Eq, Debug)]
pub enum Refusal {
    /// 1: a block is not 512 bytes long.
    BlockLength,
    /// 2: its check differs.
    Check,
    /// 3: a field has a value not listed.
    Field,
    /// 4: a good reply is too short or of another type.
    Reply,
    /// 5: the profile is neither 0009h nor 000Ah.
    Profile,
    /// 6: disc status unsuitable.
    DiscStatus,
    /// 7: track information unusable.
    TrackInformation,
    /// 8: SAO with mixed kinds or with keep appendable.
    SessionAtOnce,
    /// 9: a track has fewer than 300 blocks.
    ShortTrack,
    /// 10: it doesn't fit.
    Fit,
    /// 11: the lent buffer is too short for the whole answer.
    Buffer,
    /// 12: the drive failed and was not busy.
    Failed(Sense),
    /// 13: a reply is given to a job already ended.
    Ended,
    /// 14: bytes are no cue sheet.
    NoSheet,
    /// 15: a number given to a conversion or command maker is out of range.
    Range,
    /// 16: a used disc is to be erased and is not erasable.
    NotErasable,
    /// 17: a title not allowed or without its zero, or not 1 to 99 titles.
    Title,
    /// 18: packs that no titles give.
    NoPacks,
    /// 19: more than 255 packs in all.
    PackCount,
    /// 24: TAO with an audio track.
    AudioInTao,
}

impl Refusal {
    /// The number in document 01's table or in document 02.
    pub fn number(self) -> u8 {
        match self {
            Refusal::BlockLength => 1,
            Refusal::Check => 2,
            Refusal::Field => 3,
            Refusal::Reply => 4,
            Refusal::Profile => 5,
            Refusal::DiscStatus => 6,
            Refusal::TrackInformation => 7,
            Refusal::SessionAtOnce => 8,
            Refusal::ShortTrack => 9,
            Refusal::Fit => 10,
            Refusal::Buffer => 11,
            Refusal::Failed(_) => 12,
            Refusal::Ended => 13,
            Refusal::NoSheet => 14,
            Refusal::Range => 15,
            Refusal::NotErasable => 16,
            Refusal::Title => 17,
            Refusal::NoPacks => 18,
            Refusal::PackCount => 19,
            Refusal::AudioInTao => 24,
        }
    }
}

/// Passes when `wanted` holds, else refuses with `refusal`.
pub fn require(wanted: bool, refusal: Refusal) -> Result<(), Refusal> {
    if wanted {
        Ok(())
    } else {
        Err(refusal)
    }
}

/// Puts a whole answer at the start of a lent buffer; the buffer's tail is
/// kept. A buffer that is too short is refused (11) and left unchanged.
pub fn lend(answer: &[u8], buffer: &mut [u8]) -> Result<(), Refusal> {
    require(answer.len() <= buffer.len(), Refusal::Buffer)?;
    buffer[..answer.len()].copy_from_slice(answer);
    Ok(())
}

#[cfg(test)]
mod tests {
    use super::*;

    #[test]
    fn lend_keeps_the_tail() {
        let mut buffer = [0xA5; 4];
        assert_eq!(lend(&[1, 2, 3], &mut buffer), Ok(()));
        assert_eq!(buffer, [1, 2, 3, 0xA5]);
    }

    #[test]
    fn lend_refuses_a_short_buffer_and_leaves_it() {
        let mut buffer = [0xA5; 2];
        assert_eq!(lend(&[1, 2, 3], &mut buffer), Err(Refusal::Buffer));
        assert_eq!(buffer, [0xA5; 2]);
    }
}
