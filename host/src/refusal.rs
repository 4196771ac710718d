//! The ways in which the library says no.

use std::fmt;

/// Why a call was refused. The first check that fails decides, and a refused call changes nothing; the one exception is
/// [`Refusal::ZeroDigest`], which ends a session.
///
/// ```
/// use teplovist::{Image, Refusal};
///
/// let refusal = Image::new([0u8; 0x1FF]).open().unwrap_err();
/// assert_eq!(refusal, Refusal::Length);
/// assert_eq!(refusal.number(), 1);
/// assert_eq!(refusal.to_string(), "the image is not 0x200 to 0x4000000 bytes long");
/// ```
#[derive(Clone, Copy, Debug, PartialEq, Eq, Hash)]
pub enum Refusal {
    /// 1: the image is not 0x200 to 0x4000000 bytes long.
    Length,
    /// 2: the first eight header bytes are neither kind.
    Format,
    /// 3: a partition count other than 1 or 2, an active flag other than 0 or 1, or fields of a B that is not there.
    Selection,
    /// 4: a range, a size or a disjointness rule of the header.
    Geometry,
    /// 5: the active table's SHA-256 differs.
    TableHash,
    /// 6: a descriptor's opening bytes, piece sizes, selector, logarithms or level sizes.
    Descriptor,
    /// 7: a descriptor's places, disjointness or number of entries.
    Placement,
    /// 8: there is no such partition.
    NoPartition,
    /// 9: place plus length exceeds level 4's size, or there is no such block.
    OutOfRange,
    /// 10: a block that a read touches, or that a write covers only in part, is not verified. It is the lowest such
    /// block.
    Unverified { block: u64 },
    /// 13: the session is idle where begun is needed, or begun where idle is.
    SessionState,
    /// 14: the header or the inactive table is not as the session left it.
    Stale,
    /// 15: the container's kind does not fit the signer's type.
    SignerKind,
    /// 16: the first 16 bytes are not the signature.
    Signature,
    /// 17: a digest that the finished write, or the blank image, would hold is all zero.
    ZeroDigest,
    /// 18: an entry number that is not in use, an entry met twice, or a folder that is too deep.
    InvalidEntry,
    /// 19: another kind of container, or no SAVE header whose tables lie in level 4.
    NoSave,
    /// 20: a blank image of other than 1 to 4096 blocks.
    BlankSize,
    /// 21: no commit is remembered, the header is not the one after it, or the one before does not open.
    NothingToRevert,
    /// 22: a running digest was fed, or would be, more than 2^61 - 1 bytes.
    DigestTooLong,
}

/// An answer of the boundary has the refusal's number in its low bits, 0 if the call is accepted, and a value above
/// them.
const VALUE_SHIFT: u32 = 8;
const REFUSAL_MASK: u64 = 0xFF;

/// Takes an answer of the boundary apart: the value of a call that was accepted, or the refusal.
pub(crate) fn settled(answer: u64) -> Result<u64, Refusal> {
    let value = answer >> VALUE_SHIFT;
    Err(match answer & REFUSAL_MASK {
        0 => return Ok(value),
        1 => Refusal::Length,
        2 => Refusal::Format,
        3 => Refusal::Selection,
        4 => Refusal::Geometry,
        5 => Refusal::TableHash,
        6 => Refusal::Descriptor,
        7 => Refusal::Placement,
        8 => Refusal::NoPartition,
        9 => Refusal::OutOfRange,
        10 => Refusal::Unverified { block: value },
        13 => Refusal::SessionState,
        14 => Refusal::Stale,
        15 => Refusal::SignerKind,
        16 => Refusal::Signature,
        17 => Refusal::ZeroDigest,
        18 => Refusal::InvalidEntry,
        19 => Refusal::NoSave,
        20 => Refusal::BlankSize,
        21 => Refusal::NothingToRevert,
        22 => Refusal::DigestTooLong,
        other => unreachable!("the library answers with the papers' numbers alone, not {other}"),
    })
}

impl Refusal {
    /// The papers' number: 1 to 10 and 13 to 22.
    pub fn number(self) -> u8 {
        match self {
            Refusal::Length => 1,
            Refusal::Format => 2,
            Refusal::Selection => 3,
            Refusal::Geometry => 4,
            Refusal::TableHash => 5,
            Refusal::Descriptor => 6,
            Refusal::Placement => 7,
            Refusal::NoPartition => 8,
            Refusal::OutOfRange => 9,
            Refusal::Unverified { .. } => 10,
            Refusal::SessionState => 13,
            Refusal::Stale => 14,
            Refusal::SignerKind => 15,
            Refusal::Signature => 16,
            Refusal::ZeroDigest => 17,
            Refusal::InvalidEntry => 18,
            Refusal::NoSave => 19,
            Refusal::BlankSize => 20,
            Refusal::NothingToRevert => 21,
            Refusal::DigestTooLong => 22,
        }
    }
}

impl fmt::Display for Refusal {
    fn fmt(&self, to: &mut fmt::Formatter) -> fmt::Result {
        let words = match self {
            Refusal::Length => "the image is not 0x200 to 0x4000000 bytes long",
            Refusal::Format => "this is neither a DISA nor a DIFF image",
            Refusal::Selection => "the header's partition count or active flag is not valid",
            Refusal::Geometry => "the header's places or sizes are not valid",
            Refusal::TableHash => "the active table does not have the hash that the header names",
            Refusal::Descriptor => "a partition's descriptor is not valid",
            Refusal::Placement => "a partition's descriptor has places that do not fit",
            Refusal::NoPartition => "there is no such partition",
            Refusal::OutOfRange => "that lies past the end of level 4",
            Refusal::Unverified { block } => return write!(to, "block {block} of level 4 is not verified"),
            Refusal::SessionState => "the session is idle where a begun one is needed, or the other way round",
            Refusal::Stale => "the image was changed since the session began",
            Refusal::SignerKind => "this signer does not sign this kind of container",
            Refusal::Signature => "the image does not have this key's signature",
            Refusal::ZeroDigest => "a digest that would be stored is all zero",
            Refusal::InvalidEntry => "the save's tables have an entry that is not valid",
            Refusal::NoSave => "the image holds no save with folders and files",
            Refusal::BlankSize => "a blank image has 1 to 4096 blocks",
            Refusal::NothingToRevert => "there is no commit to step back from",
            Refusal::DigestTooLong => "the message is too long for a digest",
        };
        to.write_str(words)
    }
}

impl std::error::Error for Refusal {}

#[cfg(test)]
mod tests {
    use super::*;

    /// The numbers of include/teplovist.h: no call is refused with 11 or 12 any more.
    const NUMBERS: [u64; 20] = [1, 2, 3, 4, 5, 6, 7, 8, 9, 10, 13, 14, 15, 16, 17, 18, 19, 20, 21, 22];

    #[test]
    fn every_number_comes_back() {
        for number in NUMBERS {
            let refusal = settled(number).unwrap_err();
            assert_eq!(u64::from(refusal.number()), number);
        }
    }

    #[test]
    fn every_refusal_has_words_of_its_own() {
        let words: std::collections::BTreeSet<String> =
            NUMBERS.iter().map(|number| settled(*number).unwrap_err().to_string()).collect();
        assert_eq!(words.len(), NUMBERS.len());
    }

    #[test]
    fn values_stand_above_the_number() {
        assert_eq!(settled(0x1234 << 8), Ok(0x1234));
        assert_eq!(settled(7 << 8 | 10), Err(Refusal::Unverified { block: 7 }));
    }
}
