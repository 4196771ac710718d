//! Blocks in groups, so that a picture of 16,384 blocks is as readable as one of 4.

use super::geometry::Copies;

/// A level's blocks in cells of equal size; the last cell may have fewer.
#[derive(Clone, Copy, Debug, PartialEq, Eq)]
pub struct Grouping {
    pub blocks: u64,
    /// A power of two, so that a cell's first block is a round number.
    pub per_cell: u64,
}

impl Grouping {
    /// As few blocks in a cell as `most` cells allow.
    pub fn new(blocks: u64, most: u64) -> Grouping {
        let mut per_cell = 1;
        while blocks.div_ceil(per_cell) > most {
            per_cell *= 2;
        }
        Grouping { blocks, per_cell }
    }

    pub fn cells(&self) -> u64 {
        self.blocks.div_ceil(self.per_cell)
    }

    pub fn cell_of(&self, block: u64) -> u64 {
        block / self.per_cell
    }

    /// First and last block of a cell.
    pub fn range(&self, cell: u64) -> (u64, u64) {
        let first = cell * self.per_cell;
        (first, (first + self.per_cell).min(self.blocks) - 1)
    }

    pub fn size(&self, cell: u64) -> u64 {
        let (first, last) = self.range(cell);
        last - first + 1
    }

    /// How many of the numbered blocks are in each cell.
    pub fn count(&self, numbers: impl IntoIterator<Item = u64>) -> Vec<u64> {
        let mut counts = vec![0; self.cells() as usize];
        for number in numbers {
            counts[self.cell_of(number) as usize] += 1;
        }
        counts
    }
}

/// One copy of a pair, cell by cell.
#[derive(Clone, Debug, PartialEq, Eq)]
pub struct CopyCells {
    /// How many blocks have their live copy here; the others' copies here are free.
    pub live: Vec<u64>,
    /// How many blocks have a free copy here that the inactive table names.
    pub named: Vec<u64>,
}

impl CopyCells {
    pub fn of(copies: &Copies, grouping: Grouping, copy: u8) -> CopyCells {
        let blocks = || (0..).zip(&copies.live);
        let live = blocks().filter(|(_, live)| **live == copy).map(|(block, _)| block);
        let inactive = copies.inactive.as_deref().unwrap_or(&copies.live);
        let named = blocks().zip(inactive).filter(|((_, live), inactive)| **live != copy && **inactive == copy);
        CopyCells { live: grouping.count(live), named: grouping.count(named.map(|((block, _), _)| block)) }
    }
}

#[cfg(test)]
mod tests {
    use super::*;

    #[test]
    fn few_blocks_have_a_cell_each() {
        let grouping = Grouping::new(4, 256);
        assert_eq!((grouping.per_cell, grouping.cells()), (1, 4));
        assert_eq!(grouping.range(3), (3, 3));
    }

    #[test]
    fn many_blocks_share_cells_and_the_last_cell_may_be_short() {
        let grouping = Grouping::new(16_384, 256);
        assert_eq!((grouping.per_cell, grouping.cells()), (64, 256));
        let grouping = Grouping::new(257, 256);
        assert_eq!((grouping.per_cell, grouping.cells()), (2, 129));
        assert_eq!(grouping.range(128), (256, 256));
        assert_eq!(grouping.size(128), 1);
    }

    #[test]
    fn each_block_is_counted_in_its_cell() {
        assert_eq!(Grouping::new(9, 3).count([0, 3, 4, 8, 8]), [2, 1, 2]);
    }

    #[test]
    fn a_copy_is_live_or_free_and_free_ones_may_be_named_by_the_inactive_table() {
        let copies = Copies { live: vec![0, 0, 1, 1], inactive: Some(vec![0, 1, 0, 1]) };
        let grouping = Grouping::new(4, 2);
        assert_eq!(CopyCells::of(&copies, grouping, 0), CopyCells { live: vec![2, 0], named: vec![0, 1] });
        assert_eq!(CopyCells::of(&copies, grouping, 1), CopyCells { live: vec![0, 2], named: vec![1, 0] });
        let alone = Copies { inactive: None, ..copies };
        assert_eq!(CopyCells::of(&alone, grouping, 0).named, [0, 0]);
    }
}
