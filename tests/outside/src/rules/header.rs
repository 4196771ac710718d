//! The header at 0x100 and what it names: refusals 1 to 4.

use super::extent::{extent_at, number, pairwise_disjoint, Extent};
use super::refusal::Refusal;

pub const SHORTEST_IMAGE: usize = 0x200;
pub const LONGEST_IMAGE: usize = 0x4000000;
pub const LARGEST_TABLE: u128 = 0x2000;
/// Where the header lies in the image, and where what it covers ends.
pub const HEADER: usize = 0x100;
pub const HEADER_LENGTH: usize = 0x100;
pub const FRONT: u128 = 0x200;

pub const DISA_OPENING: &[u8; 8] = b"DISA\x00\x00\x04\x00";
pub const DIFF_OPENING: &[u8; 8] = b"DIFF\x00\x00\x03\x00";

/// Where a DISA has B's four fields, eight bytes each: its descriptor's offset and size, its own offset and size.
pub const B_FIELDS: [usize; 4] = [0x38, 0x40, 0x58, 0x60];

#[derive(Clone, Copy, Debug, PartialEq, Eq)]
pub enum Kind {
    Disa,
    Diff,
}

impl Kind {
    /// The flag's place in the header and its length.
    pub fn flag_place(self) -> (usize, usize) {
        match self {
            Kind::Disa => (0x68, 1),
            Kind::Diff => (0x30, 4),
        }
    }

    /// The place of the table's hash in the header.
    pub fn hash_place(self) -> usize {
        match self {
            Kind::Disa => 0x6C,
            Kind::Diff => 0x34,
        }
    }

    pub fn name(self) -> &'static str {
        match self {
            Kind::Disa => "DISA",
            Kind::Diff => "DIFF",
        }
    }
}

/// What the header says of one partition.
#[derive(Clone, Copy, Debug, PartialEq, Eq)]
pub struct PartitionPlace {
    /// The descriptor, counted from the table's start.
    pub descriptor: Extent,
    /// The partition, counted from the image's start.
    pub area: Extent,
}

#[derive(Clone, Debug, PartialEq, Eq)]
pub struct Header {
    pub kind: Kind,
    /// 0: the primary table is active; 1: the secondary.
    pub flag: u64,
    pub secondary: Extent,
    pub primary: Extent,
    /// One or two: A, then B.
    pub partitions: Vec<PartitionPlace>,
}

impl Header {
    pub fn active_table(&self) -> Extent {
        if self.flag == 0 {
            self.primary
        } else {
            self.secondary
        }
    }

    pub fn inactive_table(&self) -> Extent {
        if self.flag == 0 {
            self.secondary
        } else {
            self.primary
        }
    }
}

/// Judges the image's length and reads its kind: refusals 1 and 2.
pub fn read_kind(image: &[u8]) -> Result<Kind, Refusal> {
    if image.len() < SHORTEST_IMAGE || image.len() > LONGEST_IMAGE {
        return Err(Refusal::Length);
    }
    let opening = &image[HEADER..HEADER + 8];
    if opening == DISA_OPENING {
        Ok(Kind::Disa)
    } else if opening == DIFF_OPENING {
        Ok(Kind::Diff)
    } else {
        Err(Refusal::Kind)
    }
}

/// Reads the header's fields and judges count, flag and leftover fields of B: refusals 1 to 3.
pub fn read_header(image: &[u8]) -> Result<Header, Refusal> {
    let kind = read_kind(image)?;
    let bytes = &image[HEADER..HEADER + HEADER_LENGTH];
    let count = match kind {
        Kind::Disa => number(bytes, 0x08, 4),
        Kind::Diff => 1,
    };
    let (flag_place, flag_length) = kind.flag_place();
    let flag = number(bytes, flag_place, flag_length);
    let leftovers = kind == Kind::Disa && count == 1 && B_FIELDS.iter().any(|place| number(bytes, *place, 8) != 0);
    if !(1..=2).contains(&count) || flag > 1 || leftovers {
        return Err(Refusal::Selection);
    }
    Ok(match kind {
        Kind::Disa => disa_fields(bytes, count, flag),
        Kind::Diff => diff_fields(bytes, flag),
    })
}

fn disa_fields(bytes: &[u8], count: u64, flag: u64) -> Header {
    let table_size = number(bytes, 0x20, 8);
    let a = PartitionPlace { descriptor: extent_at(bytes, 0x28), area: extent_at(bytes, 0x48) };
    let b = PartitionPlace { descriptor: extent_at(bytes, 0x38), area: extent_at(bytes, 0x58) };
    Header {
        kind: Kind::Disa,
        flag,
        secondary: Extent::new(number(bytes, 0x10, 8), table_size),
        primary: Extent::new(number(bytes, 0x18, 8), table_size),
        partitions: if count == 1 { vec![a] } else { vec![a, b] },
    }
}

fn diff_fields(bytes: &[u8], flag: u64) -> Header {
    let table_size = number(bytes, 0x18, 8);
    let a = PartitionPlace { descriptor: Extent::new(0, table_size), area: extent_at(bytes, 0x20) };
    Header {
        kind: Kind::Diff,
        flag,
        secondary: Extent::new(number(bytes, 0x08, 8), table_size),
        primary: Extent::new(number(bytes, 0x10, 8), table_size),
        partitions: vec![a],
    }
}

/// The rules behind refusal 4.
pub fn header_places_hold(header: &Header, image_length: u128) -> bool {
    let table_size = header.primary.size;
    let areas: Vec<Extent> = header.partitions.iter().map(|place| place.area).collect();
    let descriptors: Vec<Extent> = header.partitions.iter().map(|place| place.descriptor).collect();
    let front = Extent { offset: 0, size: FRONT };
    let mut in_image = vec![front, header.secondary, header.primary];
    in_image.extend(&areas);

    (1..=LARGEST_TABLE).contains(&table_size)
        && areas.iter().chain(&descriptors).all(|extent| extent.size >= 1)
        && in_image.iter().all(|extent| extent.lies_in(image_length))
        && pairwise_disjoint(&in_image)
        && descriptors.iter().all(|extent| extent.lies_in(table_size))
        && pairwise_disjoint(&descriptors)
}
