//! The ways to say no.

#[derive(Clone, Copy, Debug, PartialEq, Eq)]
pub enum Refusal {
    /// 1: the image is shorter or longer than allowed.
    Length,
    /// 2: the first eight header bytes are neither kind's.
    Kind,
    /// 3: partition count, active flag, or a field of B where there is no B.
    Selection,
    /// 4: a range, size or disjointness rule of the header.
    HeaderPlaces,
    /// 5: the active table's hash.
    TableHash,
    /// 6: a descriptor's opening bytes, piece sizes, selector, logarithms or level sizes.
    DescriptorForm,
    /// 7: a descriptor's places, disjointness or numbers of entries.
    DescriptorPlaces,
    /// 8: there is no such partition.
    NoSuchPartition,
    /// 9: past the end of level 4.
    PastTheEnd,
    /// 10: this block of level 4 is not verified.
    NotVerified(u64),
    /// 13: idle where begun is needed, or begun where idle is.
    WrongSession,
    /// 14: the header or the inactive table is not as the session left it.
    Outdated,
    /// 15: the signer's type does not fit the container's kind.
    WrongSigner,
    /// 16: the first 16 bytes are not the signature.
    WrongSignature,
    /// 17: a digest that the finished write or a blank image would hold is all zero. The one refusal after which bytes may have
    /// changed.
    ZeroDigest,
    /// 18: a number out of range, an entry met twice, or a folder too deep, on a walk or along a chain.
    BrokenTree,
    /// 19: no SAVE image, or one whose header or places do not hold.
    NotASave,
    /// 20: a blank image's number of blocks, or its length.
    BlankSize,
    /// 21: there is no commit to go back from.
    NoWayBack,
    /// 22: a running digest's message is or would become too long.
    MessageTooLong,
}

impl Refusal {
    pub fn number(self) -> u64 {
        match self {
            Refusal::Length => 1,
            Refusal::Kind => 2,
            Refusal::Selection => 3,
            Refusal::HeaderPlaces => 4,
            Refusal::TableHash => 5,
            Refusal::DescriptorForm => 6,
            Refusal::DescriptorPlaces => 7,
            Refusal::NoSuchPartition => 8,
            Refusal::PastTheEnd => 9,
            Refusal::NotVerified(_) => 10,
            Refusal::WrongSession => 13,
            Refusal::Outdated => 14,
            Refusal::WrongSigner => 15,
            Refusal::WrongSignature => 16,
            Refusal::ZeroDigest => 17,
            Refusal::BrokenTree => 18,
            Refusal::NotASave => 19,
            Refusal::BlankSize => 20,
            Refusal::NoWayBack => 21,
            Refusal::MessageTooLong => 22,
        }
    }

    /// The block number that 10 carries; all others carry 0.
    pub fn block(self) -> u64 {
        match self {
            Refusal::NotVerified(block) => block,
            _ => 0,
        }
    }
}

/// An answer as one number: the refusal's number (0: accepted) in the low eight bits, the value above them.
pub fn answer_code(answer: Result<u64, Refusal>) -> u64 {
    match answer {
        Ok(value) => value << 8,
        Err(refusal) => refusal.block() << 8 | refusal.number(),
    }
}
