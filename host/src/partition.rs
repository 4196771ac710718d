//! The two partitions that an image may have.

use std::fmt;
use std::str::FromStr;

/// A partition of an image. Every image has A; only a DISA may have B.
///
/// ```
/// use teplovist::Partition;
///
/// assert_eq!("b".parse(), Ok(Partition::B));
/// assert_eq!(Partition::A.to_string(), "A");
/// assert!("C".parse::<Partition>().is_err());
/// ```
#[derive(Clone, Copy, Debug, PartialEq, Eq, PartialOrd, Ord, Hash)]
pub enum Partition {
    A,
    B,
}

impl Partition {
    /// Both, in their order.
    pub const ALL: [Partition; 2] = [Partition::A, Partition::B];

    /// As the boundary and the fault list have it: 0 for A, 1 for B.
    pub fn number(self) -> u64 {
        match self {
            Partition::A => 0,
            Partition::B => 1,
        }
    }
}

impl fmt::Display for Partition {
    fn fmt(&self, to: &mut fmt::Formatter) -> fmt::Result {
        to.pad(match self {
            Partition::A => "A",
            Partition::B => "B",
        })
    }
}

/// What was to be a partition's name is none.
#[derive(Clone, Copy, Debug, PartialEq, Eq)]
pub struct NotAPartition;

impl fmt::Display for NotAPartition {
    fn fmt(&self, to: &mut fmt::Formatter) -> fmt::Result {
        to.write_str("a partition is A or B")
    }
}

impl std::error::Error for NotAPartition {}

impl FromStr for Partition {
    type Err = NotAPartition;

    fn from_str(text: &str) -> Result<Partition, NotAPartition> {
        match text {
            "A" | "a" => Ok(Partition::A),
            "B" | "b" => Ok(Partition::B),
            _ => Err(NotAPartition),
        }
    }
}
