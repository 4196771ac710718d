//! Runs of bytes, and little-endian numbers.

/// A run of bytes: where it starts and how many there are. Both are kept wide enough that no sum or double of
/// eight-byte fields wraps.
#[derive(Clone, Copy, Debug, PartialEq, Eq)]
pub struct Extent {
    pub offset: u128,
    pub size: u128,
}

impl Extent {
    pub fn new(offset: u64, size: u64) -> Extent {
        Extent { offset: offset.into(), size: size.into() }
    }

    pub fn end(self) -> u128 {
        self.offset + self.size
    }

    /// Does it lie wholly in something of this size?
    pub fn lies_in(self, size: u128) -> bool {
        self.end() <= size
    }

    /// Do the two have no byte in common? Touching is allowed.
    pub fn disjoint(self, other: Extent) -> bool {
        self.end() <= other.offset || other.end() <= self.offset
    }

    /// Twice the size: a pair of halves.
    pub fn pair(self) -> Extent {
        Extent { offset: self.offset, size: 2 * self.size }
    }

    /// The bytes of this run; it must lie in `whole`.
    pub fn of(self, whole: &[u8]) -> &[u8] {
        &whole[self.offset as usize..self.end() as usize]
    }
}

pub fn pairwise_disjoint(extents: &[Extent]) -> bool {
    extents.iter().enumerate().all(|(index, one)| extents[index + 1..].iter().all(|other| one.disjoint(*other)))
}

/// The little-endian number in `length` bytes at `place`.
pub fn number(bytes: &[u8], place: usize, length: usize) -> u64 {
    bytes[place..place + length].iter().rev().fold(0, |sum, byte| sum << 8 | u64::from(*byte))
}

/// Offset and size, eight bytes each, at `place`.
pub fn extent_at(bytes: &[u8], place: usize) -> Extent {
    Extent::new(number(bytes, place, 8), number(bytes, place + 8, 8))
}
