//! Which half is live: bits, live copies, and the bytes of DPFS level 3 as one view sees them.

use std::cell::RefCell;
use std::collections::HashMap;

use super::descriptor::SELECTOR;
use super::opening::{Opened, Partition};

/// The byte and the mask of bit `n` in a half: bit 31 - n mod 32 of the 32-bit little-endian word n / 32.
pub fn bit_place(n: u128) -> (u128, u8) {
    let bit = 31 - n % 32;
    (4 * (n / 32) + bit / 8, 1 << (bit % 8))
}

/// One partition as one of the two tables shows it.
pub struct View<'a> {
    pub image: &'a [u8],
    pub partition: &'a Partition,
    /// The half of DPFS level 1 that this table names.
    pub selector: u128,
    /// The master hash that this table holds.
    pub master: &'a [u8],
    /// Which blocks are verified, by level and number, as far as that was asked: while the view is there, nothing changes.
    pub(super) judged: RefCell<HashMap<(usize, u128), bool>>,
}

impl<'a> View<'a> {
    /// What is read under the active table.
    pub fn committed(image: &'a [u8], opened: &Opened, partition: &'a Partition) -> View<'a> {
        View::under(image, opened.header.active_table().offset, partition)
    }

    /// What would be read if the inactive table were active. That table must be the active one with selectors
    /// flipped and any master hashes.
    pub fn staged(image: &'a [u8], opened: &Opened, partition: &'a Partition) -> View<'a> {
        View::under(image, opened.header.inactive_table().offset, partition)
    }

    fn under(image: &'a [u8], table: u128, partition: &'a Partition) -> View<'a> {
        let descriptor = &image[(table + partition.place.descriptor.offset) as usize..];
        let selector = descriptor[SELECTOR].into();
        View {
            image,
            partition,
            selector,
            master: partition.descriptor.master.of(descriptor),
            judged: RefCell::default(),
        }
    }

    /// The image's position of a place in the partition.
    fn in_partition(&self, place: u128) -> u128 {
        self.partition.place.area.offset + place
    }

    /// The position of the live half of level 1.
    pub fn level1_half(&self) -> u128 {
        let half = self.partition.descriptor.level1;
        self.in_partition(half.offset + self.selector * half.size)
    }

    /// The live copy of level 2's block: bit `block` of the live half of level 1.
    pub fn level2_copy(&self, block: u128) -> u128 {
        let (byte, mask) = bit_place(block);
        (self.image[(self.level1_half() + byte) as usize] & mask != 0).into()
    }

    /// The position of level 2's byte `place` in the live copy of its block.
    pub fn level2_position(&self, place: u128) -> u128 {
        let level = self.partition.descriptor.level2;
        let copy = self.level2_copy(place / level.block_size());
        self.in_partition(level.extent.offset + copy * level.extent.size + place)
    }

    /// The live copy of level 3's block: bit `block` of live level 2.
    pub fn level3_copy(&self, block: u128) -> u128 {
        let (byte, mask) = bit_place(block);
        (self.image[self.level2_position(byte) as usize] & mask != 0).into()
    }

    /// The position of level 3's byte `place` in the live copy of its block.
    pub fn level3_position(&self, place: u128) -> u128 {
        let level = self.partition.descriptor.level3;
        let copy = self.level3_copy(place / level.block_size());
        self.in_partition(level.extent.offset + copy * level.extent.size + place)
    }

    /// The live bytes of level 3 from `from` to `to`, one block after the other.
    pub fn level3_bytes(&self, from: u128, to: u128) -> Vec<u8> {
        let block_size = self.partition.descriptor.level3.block_size();
        let mut bytes = Vec::new();
        let mut place = from;
        while place < to {
            let stop = to.min((place / block_size + 1) * block_size);
            let start = self.level3_position(place) as usize;
            bytes.extend_from_slice(&self.image[start..start + (stop - place) as usize]);
            place = stop;
        }
        bytes
    }

    /// Bytes of an external level 4, at `offset` in the partition.
    pub fn external_bytes(&self, offset: u64, from: u128, to: u128) -> Vec<u8> {
        let start = self.in_partition(offset.into());
        self.image[(start + from) as usize..(start + to) as usize].to_vec()
    }
}

#[cfg(test)]
mod tests {
    use super::bit_place;

    #[test]
    fn p1_to_p4_places_of_bits() {
        assert_eq!(bit_place(0), (3, 0x80));
        assert_eq!(bit_place(31), (0, 0x01));
        assert_eq!(bit_place(32), (7, 0x80));
        assert_eq!(bit_place(0x1234), (0x245, 0x08));
    }

    #[test]
    fn p5_level_2_and_level_1_bits() {
        let level3_block = 0x1234567 >> 12;
        assert_eq!(level3_block, 0x1234);
        let (byte, _) = bit_place(level3_block);
        assert_eq!(byte >> 7, 4);
    }
}
