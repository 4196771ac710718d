//! Blocks of the hash tree, their entries, and which blocks are verified. Level 0 is the master hash.

use super::block_hash::{block_hash, is_zero};
use super::descriptor::ENTRY;
use super::dpfs::View;
use super::extent::Extent;

impl View<'_> {
    /// Bytes of IVFC level 1 to 4, from `from` to `to` within the level.
    pub fn level_bytes(&self, level: usize, from: u128, to: u128) -> Vec<u8> {
        let descriptor = &self.partition.descriptor;
        let start = descriptor.hash_level(level).extent.offset;
        match descriptor.external {
            Some(offset) if level == 4 => self.external_bytes(offset, from, to),
            _ => self.level3_bytes(start + from, start + to),
        }
    }

    /// All of level 4.
    pub fn data(&self) -> Vec<u8> {
        self.level_bytes(4, 0, self.data_size())
    }

    pub fn data_size(&self) -> u128 {
        self.partition.descriptor.hash_level(4).extent.size
    }

    /// Block `block` of a level: its bytes, followed by zeros up to the block size.
    pub fn padded_block(&self, level: usize, block: u128) -> Vec<u8> {
        let shape = self.partition.descriptor.hash_level(level);
        let own = shape.block_extent(block);
        let mut bytes = self.level_bytes(level, own.offset, own.end());
        bytes.resize(shape.block_size() as usize, 0);
        bytes
    }

    /// The entry for block `block` of level 1 to 4: the hash that the level above holds for it.
    pub fn entry(&self, level: usize, block: u128) -> Vec<u8> {
        let place = Extent { offset: ENTRY * block, size: ENTRY };
        if level == 1 {
            place.of(self.master).to_vec()
        } else {
            self.level_bytes(level - 1, place.offset, place.end())
        }
    }

    /// The block of level 1 to 3 that holds the entry for block `block` of the next level.
    pub fn holder(&self, level: usize, block: u128) -> u128 {
        ENTRY * block / self.partition.descriptor.hash_level(level).block_size()
    }

    /// An entry of zeros matches no block.
    fn entry_matches(&self, level: usize, block: u128) -> bool {
        let entry = self.entry(level, block);
        !is_zero(&entry) && block_hash(&self.padded_block(level, block)) == *entry
    }

    /// A block is verified when its entry matches and the block holding that entry is verified too.
    pub fn verified(&self, level: usize, block: u128) -> bool {
        if let Some(verified) = self.judged.borrow().get(&(level, block)) {
            return *verified;
        }
        let verified =
            self.entry_matches(level, block) && (level == 1 || self.verified(level - 1, self.holder(level - 1, block)));
        self.judged.borrow_mut().insert((level, block), verified);
        verified
    }

    /// Which blocks of a level are verified, all at once: each block is hashed one time only.
    pub fn verified_blocks(&self, level: usize) -> Vec<bool> {
        let above = if level == 1 { Vec::new() } else { self.verified_blocks(level - 1) };
        let blocks = self.partition.descriptor.hash_level(level).blocks();
        (0..blocks)
            .map(|block| {
                let holder_verified = level == 1 || above[self.holder(level - 1, block) as usize];
                holder_verified && self.entry_matches(level, block)
            })
            .collect()
    }
}
