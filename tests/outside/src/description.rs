//! What an accepted opening hands out at the library's boundary: a row of numbers. This file is the one place that says
//! which number stands where.

use crate::rules::header::{Header, Kind};
use crate::rules::opening::{Opened, Partition};

/// How many numbers there are; the ones not named below are 0.
pub const DESCRIPTION_LENGTH: usize = 80;
pub type Description = [u64; DESCRIPTION_LENGTH];

/// Where A's and B's numbers begin.
const PARTITION_STARTS: [usize; 2] = [8, 44];

type HeaderNumber = (&'static str, fn(&Header) -> u64);
type PartitionNumber = (&'static str, fn(&Partition) -> u64);

/// The numbers from index 0 on.
const HEADER_NUMBERS: [HeaderNumber; 7] = [
    ("kind", |header| if header.kind == Kind::Disa { 0 } else { 1 }),
    ("count", |header| header.partitions.len() as u64),
    ("flag", |header| header.flag),
    ("secondary offset", |header| header.secondary.offset as u64),
    ("secondary size", |header| header.secondary.size as u64),
    ("primary offset", |header| header.primary.offset as u64),
    ("primary size", |header| header.primary.size as u64),
];

/// The numbers of a partition, from its start on.
const PARTITION_NUMBERS: [PartitionNumber; 33] = [
    ("descriptor offset", |partition| partition.place.descriptor.offset as u64),
    ("descriptor size", |partition| partition.place.descriptor.size as u64),
    ("partition offset", |partition| partition.place.area.offset as u64),
    ("partition size", |partition| partition.place.area.size as u64),
    ("IVFC piece offset", |partition| partition.descriptor.ivfc.offset as u64),
    ("IVFC piece size", |partition| partition.descriptor.ivfc.size as u64),
    ("DPFS piece offset", |partition| partition.descriptor.dpfs.offset as u64),
    ("DPFS piece size", |partition| partition.descriptor.dpfs.size as u64),
    ("master hash offset", |partition| partition.descriptor.master.offset as u64),
    ("master hash size", |partition| partition.descriptor.master.size as u64),
    ("external", |partition| partition.descriptor.external.is_some().into()),
    ("selector", |partition| partition.descriptor.selector),
    ("external level 4 offset", |partition| partition.descriptor.external.unwrap_or(0)),
    ("IVFC level 1 offset", |partition| partition.descriptor.hash_level(1).extent.offset as u64),
    ("IVFC level 1 size", |partition| partition.descriptor.hash_level(1).extent.size as u64),
    ("IVFC level 1 logarithm", |partition| partition.descriptor.hash_level(1).log),
    ("IVFC level 2 offset", |partition| partition.descriptor.hash_level(2).extent.offset as u64),
    ("IVFC level 2 size", |partition| partition.descriptor.hash_level(2).extent.size as u64),
    ("IVFC level 2 logarithm", |partition| partition.descriptor.hash_level(2).log),
    ("IVFC level 3 offset", |partition| partition.descriptor.hash_level(3).extent.offset as u64),
    ("IVFC level 3 size", |partition| partition.descriptor.hash_level(3).extent.size as u64),
    ("IVFC level 3 logarithm", |partition| partition.descriptor.hash_level(3).log),
    ("IVFC level 4 offset, 0 if external", |partition| partition.descriptor.hash_level(4).extent.offset as u64),
    ("IVFC level 4 size", |partition| partition.descriptor.hash_level(4).extent.size as u64),
    ("IVFC level 4 logarithm", |partition| partition.descriptor.hash_level(4).log),
    ("DPFS level 1 offset", |partition| partition.descriptor.level1.offset as u64),
    ("DPFS level 1 size", |partition| partition.descriptor.level1.size as u64),
    ("DPFS level 2 offset", |partition| partition.descriptor.level2.extent.offset as u64),
    ("DPFS level 2 size", |partition| partition.descriptor.level2.extent.size as u64),
    ("DPFS level 2 logarithm", |partition| partition.descriptor.level2.log),
    ("DPFS level 3 offset", |partition| partition.descriptor.level3.extent.offset as u64),
    ("DPFS level 3 size", |partition| partition.descriptor.level3.extent.size as u64),
    ("DPFS level 3 logarithm", |partition| partition.descriptor.level3.log),
];

pub fn describe(opened: &Opened) -> Description {
    let mut description = [0; DESCRIPTION_LENGTH];
    for (index, (_, number)) in HEADER_NUMBERS.iter().enumerate() {
        description[index] = number(&opened.header);
    }
    for (partition, start) in opened.partitions.iter().zip(PARTITION_STARTS) {
        for (index, (_, number)) in PARTITION_NUMBERS.iter().enumerate() {
            description[start + index] = number(partition);
        }
    }
    description
}

/// The name of the number at an index, for messages.
pub fn name_at(index: usize) -> String {
    if let Some((name, _)) = HEADER_NUMBERS.get(index) {
        return name.to_string();
    }
    for (letter, start) in ["A", "B"].iter().zip(PARTITION_STARTS) {
        if let Some((name, _)) = index.checked_sub(start).and_then(|place| PARTITION_NUMBERS.get(place)) {
            return format!("{letter} {name}");
        }
    }
    format!("unused number {index}")
}
