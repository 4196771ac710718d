//! What opening an image tells of it: where everything lies, and which table is active.

use std::fmt;

use crate::boundary;
use crate::Partition;

/// The two kinds of containers.
#[derive(Clone, Copy, Debug, PartialEq, Eq, Hash)]
pub enum Kind {
    Disa,
    Diff,
}

impl Kind {
    /// As the boundary has it: 0 for DISA, 1 for DIFF.
    pub fn number(self) -> u64 {
        match self {
            Kind::Disa => 0,
            Kind::Diff => 1,
        }
    }
}

impl fmt::Display for Kind {
    fn fmt(&self, to: &mut fmt::Formatter) -> fmt::Result {
        to.pad(match self {
            Kind::Disa => "DISA",
            Kind::Diff => "DIFF",
        })
    }
}

/// The two copies of the partition table.
#[derive(Clone, Copy, Debug, PartialEq, Eq, Hash)]
pub enum Table {
    Primary,
    Secondary,
}

impl Table {
    /// The other of the two.
    pub fn other(self) -> Table {
        match self {
            Table::Primary => Table::Secondary,
            Table::Secondary => Table::Primary,
        }
    }
}

impl fmt::Display for Table {
    fn fmt(&self, to: &mut fmt::Formatter) -> fmt::Result {
        to.pad(match self {
            Table::Primary => "primary",
            Table::Secondary => "secondary",
        })
    }
}

/// A range of bytes.
#[derive(Clone, Copy, Debug, PartialEq, Eq, Hash)]
pub struct Extent {
    pub offset: u64,
    pub size: u64,
}

impl Extent {
    /// The place after the last byte.
    pub fn end(self) -> u64 {
        self.offset + self.size
    }

    /// The same range, counted from a place that lies `by` bytes earlier.
    pub fn shifted(self, by: u64) -> Extent {
        Extent { offset: self.offset + by, size: self.size }
    }
}

/// A level that is cut into blocks of 2^log bytes; the last block may be shorter.
#[derive(Clone, Copy, Debug, PartialEq, Eq, Hash)]
pub struct Level {
    pub offset: u64,
    pub size: u64,
    pub log: u32,
}

impl Level {
    /// The size of every block but the last, which may be shorter.
    pub fn block_size(self) -> u64 {
        1 << self.log
    }

    /// How many blocks there are.
    pub fn blocks(self) -> u64 {
        self.size.div_ceil(self.block_size())
    }

    /// The bytes of one of its blocks, from the level's start; the last block ends with the level.
    pub fn block(self, block: u64) -> Extent {
        let offset = block * self.block_size();
        Extent { offset, size: self.block_size().min(self.size - offset) }
    }

    /// All its bytes, without the blocks.
    pub fn extent(self) -> Extent {
        Extent { offset: self.offset, size: self.size }
    }
}

/// Where a partition and its parts lie.
#[derive(Clone, Copy, Debug, PartialEq, Eq)]
pub struct PartitionLayout {
    /// From the table's start.
    pub descriptor: Extent,
    /// From the image's start.
    pub partition: Extent,
    /// These three: from the descriptor's start.
    pub ivfc: Extent,
    pub dpfs: Extent,
    pub master_hash: Extent,
    /// Where level 4 lies if it is external, that is, not doubled: its offset from the partition's start.
    pub external: Option<u64>,
    /// The half of DPFS level 1 that is live.
    pub selector: u8,
    /// The IVFC levels 1 to 4: within DPFS level 3, but for an external level 4.
    pub levels: [Level; 4],
    /// The DPFS levels, from the partition's start: the first of the two halves, and the size of one. The other half
    /// follows.
    pub dpfs_level1: Extent,
    pub dpfs_level2: Level,
    pub dpfs_level3: Level,
}

impl PartitionLayout {
    /// The data that is read and written: IVFC level 4.
    pub fn level4(&self) -> Level {
        self.levels[3]
    }

    /// The bytes of an external level 4, from the image's start. They are written in place.
    pub fn external_extent(&self) -> Option<Extent> {
        self.external.map(|offset| Extent { offset, size: self.level4().size }.shifted(self.partition.offset))
    }
}

/// What opening tells of an image.
///
/// ```
/// use teplovist::{Image, Kind, Partition, Table};
///
/// let image = Image::blank(Kind::Disa, 2)?;
/// let description = image.open()?;
/// assert_eq!(description.kind, Kind::Disa);
/// assert_eq!(description.active_table, Table::Primary);
/// assert_eq!(description.partitions().count(), 1);
/// assert_eq!(description.a.level4().blocks(), 2);
/// assert!(description.partition(Partition::B).is_none());
/// # Ok::<(), teplovist::Refusal>(())
/// ```
#[derive(Clone, Copy, Debug, PartialEq, Eq)]
pub struct Description {
    pub kind: Kind,
    pub active_table: Table,
    /// Both tables: from the image's start.
    pub secondary: Extent,
    pub primary: Extent,
    pub a: PartitionLayout,
    pub b: Option<PartitionLayout>,
}

impl Description {
    /// A partition, if it is there.
    pub fn partition(&self, partition: Partition) -> Option<&PartitionLayout> {
        match partition {
            Partition::A => Some(&self.a),
            Partition::B => self.b.as_ref(),
        }
    }

    /// The partitions that are there, A first.
    pub fn partitions(&self) -> impl Iterator<Item = (Partition, &PartitionLayout)> {
        Partition::ALL.into_iter().filter_map(|partition| Some((partition, self.partition(partition)?)))
    }

    /// Where a table lies, from the image's start.
    pub fn table(&self, table: Table) -> Extent {
        match table {
            Table::Primary => self.primary,
            Table::Secondary => self.secondary,
        }
    }

    /// The table that is active.
    pub fn active_extent(&self) -> Extent {
        self.table(self.active_table)
    }

    /// The other table: free, a session stages its own there.
    pub fn inactive_extent(&self) -> Extent {
        self.table(self.active_table.other())
    }

    /// Reads the numbers of an accepted opening.
    pub(crate) fn from_numbers(numbers: &[u64; boundary::DESCRIPTION_LENGTH]) -> Description {
        Description {
            kind: if numbers[boundary::KIND] == 0 { Kind::Disa } else { Kind::Diff },
            active_table: if numbers[boundary::ACTIVE_TABLE] == 0 { Table::Primary } else { Table::Secondary },
            secondary: extent_at(numbers, boundary::SECONDARY_OFFSET),
            primary: extent_at(numbers, boundary::PRIMARY_OFFSET),
            a: layout(&numbers[boundary::A..boundary::B]),
            b: (numbers[boundary::PARTITIONS] == 2).then(|| layout(&numbers[boundary::B..])),
        }
    }
}

fn extent_at(numbers: &[u64], index: usize) -> Extent {
    Extent { offset: numbers[index], size: numbers[index + 1] }
}

fn level_at(numbers: &[u64], index: usize) -> Level {
    // A logarithm is at most 16.
    Level { offset: numbers[index], size: numbers[index + 1], log: numbers[index + 2] as u32 }
}

fn layout(numbers: &[u64]) -> PartitionLayout {
    PartitionLayout {
        descriptor: extent_at(numbers, boundary::DESCRIPTOR_OFFSET),
        partition: extent_at(numbers, boundary::PARTITION_OFFSET),
        ivfc: extent_at(numbers, boundary::IVFC_OFFSET),
        dpfs: extent_at(numbers, boundary::DPFS_OFFSET),
        master_hash: extent_at(numbers, boundary::MASTER_HASH_OFFSET),
        external: (numbers[boundary::EXTERNAL] != 0).then_some(numbers[boundary::EXTERNAL_OFFSET]),
        // A selector is 0 or 1.
        selector: numbers[boundary::SELECTOR] as u8,
        levels: [
            level_at(numbers, boundary::IVFC_LEVEL1_OFFSET),
            level_at(numbers, boundary::IVFC_LEVEL2_OFFSET),
            level_at(numbers, boundary::IVFC_LEVEL3_OFFSET),
            level_at(numbers, boundary::IVFC_LEVEL4_OFFSET),
        ],
        dpfs_level1: extent_at(numbers, boundary::DPFS_LEVEL1_OFFSET),
        dpfs_level2: level_at(numbers, boundary::DPFS_LEVEL2_OFFSET),
        dpfs_level3: level_at(numbers, boundary::DPFS_LEVEL3_OFFSET),
    }
}

#[cfg(test)]
mod tests {
    use super::*;

    /// Each number is its own index, but for those that choose.
    fn numbered(partitions: u64) -> [u64; boundary::DESCRIPTION_LENGTH] {
        let mut numbers = std::array::from_fn(|index| index as u64);
        numbers[boundary::PARTITIONS] = partitions;
        numbers
    }

    fn extent(offset: u64) -> Extent {
        Extent { offset, size: offset + 1 }
    }

    fn level(offset: u64) -> Level {
        Level { offset, size: offset + 1, log: offset as u32 + 2 }
    }

    /// A partition whose numbers begin at an index, as include/teplovist.h has them.
    fn layout_from(start: u64) -> PartitionLayout {
        PartitionLayout {
            descriptor: extent(start),
            partition: extent(start + 2),
            ivfc: extent(start + 4),
            dpfs: extent(start + 6),
            master_hash: extent(start + 8),
            external: Some(start + 12),
            selector: start as u8 + 11,
            levels: [13, 16, 19, 22].map(|index| level(start + index)),
            dpfs_level1: extent(start + 25),
            dpfs_level2: level(start + 27),
            dpfs_level3: level(start + 30),
        }
    }

    #[test]
    fn each_number_has_its_place() {
        let description = Description::from_numbers(&numbered(2));
        assert_eq!((description.secondary, description.primary), (extent(3), extent(5)));
        assert_eq!((description.a, description.b), (layout_from(8), Some(layout_from(44))));
        assert_eq!(Description::from_numbers(&numbered(1)).b, None);
    }

    #[test]
    fn the_header_chooses() {
        let mut numbers = numbered(1);
        for (kind, table) in [(Kind::Disa, Table::Primary), (Kind::Diff, Table::Secondary)] {
            numbers[boundary::KIND] = kind.number();
            numbers[boundary::ACTIVE_TABLE] = (table == Table::Secondary).into();
            numbers[boundary::A + boundary::EXTERNAL] = 0;
            let description = Description::from_numbers(&numbers);
            assert_eq!((description.kind, description.active_table), (kind, table));
            assert_eq!(
                (description.active_extent(), description.inactive_extent()),
                match table {
                    Table::Primary => (extent(5), extent(3)),
                    Table::Secondary => (extent(3), extent(5)),
                }
            );
            assert_eq!(description.a.external_extent(), None);
        }
    }

    /// The paper's example P7: two blocks, and the second has one byte.
    #[test]
    fn a_last_block_may_be_short() {
        let level = Level { offset: 0, size: 0x1001, log: 12 };
        assert_eq!(level.blocks(), 2);
        assert_eq!(level.block(1), Extent { offset: 0x1000, size: 1 });
    }
}
