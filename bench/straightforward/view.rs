//! The bytes of a partition as one of the two tables shows them, their digests, and the stores into the staged view.

use std::ops::Range;

use super::opening::{Header, Level, Partition};
use crate::plain_sha256::Sha256;
use crate::rules::descriptor::ENTRY;
use crate::rules::dpfs::bit_place;

/// The two halves of DPFS level 2 or 3: the first one's position in the image, the size of one, its blocks' logarithm.
struct Pair {
    start: usize,
    size: usize,
    log: u64,
}

impl Pair {
    /// The block's place in a half, and its length.
    fn block(&self, block: usize) -> (usize, usize) {
        let from = block << self.log;
        (from, self.size.min(from + (1 << self.log)) - from)
    }

    /// Copies a block of one half to the other.
    fn copy_over(&self, image: &mut [u8], block: usize, copy: usize) {
        let (from, length) = self.block(block);
        let source = self.start + copy * self.size + from;
        let target = self.start + (1 - copy) * self.size + from;
        image.copy_within(source..source + length, target);
    }
}

/// One of the IVFC levels; level 0 is the master hash. Places count from the start of DPFS level 3, or from the image's
/// start if the level lies outside.
#[derive(Clone, Copy)]
struct HashLevel {
    start: usize,
    size: usize,
    log: u64,
    outside: bool,
}

/// The byte and the mask of bit `n` in a half.
fn bit(n: usize) -> (usize, u8) {
    let (byte, mask) = bit_place(n as u128);
    (byte as usize, mask)
}

pub struct View {
    sha256: Sha256,
    /// The position of the live half of DPFS level 1.
    bits: usize,
    level2: Pair,
    level3: Pair,
    hash_levels: [HashLevel; 5],
}

impl View {
    pub fn committed(header: &Header, partition: &Partition, sha256: Sha256) -> View {
        View::under(header.active.offset, partition, partition.selector, sha256)
    }

    pub fn staged(header: &Header, partition: &Partition, sha256: Sha256) -> View {
        View::under(header.inactive.offset, partition, 1 - partition.selector, sha256)
    }

    fn under(table: u64, partition: &Partition, selector: u64, sha256: Sha256) -> View {
        let area = partition.area.offset;
        let [level1, level2, level3] = partition.levels;
        let pair = |level: Level| Pair {
            start: (area + level.extent.offset) as usize,
            size: level.extent.size as usize,
            log: level.log,
        };
        let inside = partition.hash_levels.map(|level| HashLevel {
            start: level.extent.offset as usize,
            size: level.extent.size as usize,
            log: level.log,
            outside: false,
        });
        let master = HashLevel {
            start: (table + partition.descriptor.offset + partition.master.offset) as usize,
            size: partition.master.size as usize,
            log: 5,
            outside: true,
        };
        let data = match partition.external {
            Some(offset) => HashLevel { start: (area + offset) as usize, outside: true, ..inside[3] },
            None => inside[3],
        };
        View {
            sha256,
            bits: (area + level1.extent.offset + selector * level1.extent.size) as usize,
            level2: pair(level2),
            level3: pair(level3),
            hash_levels: [master, inside[0], inside[1], inside[2], data],
        }
    }

    pub fn data_size(&self) -> u64 {
        self.hash_levels[4].size as u64
    }

    /// The blocks of level 4 that have a byte in a range.
    pub fn touched(&self, range: &Range<usize>) -> Range<usize> {
        if range.is_empty() {
            return 0..0;
        }
        let log = self.hash_levels[4].log;
        range.start >> log..((range.end - 1) >> log) + 1
    }

    /// Where the bytes of a block of a level are, within the level.
    pub fn block(&self, level: usize, block: usize) -> Range<usize> {
        let HashLevel { size, log, .. } = self.hash_levels[level];
        let from = block << log;
        from..size.min(from + (1 << log))
    }

    pub fn blocks(&self, level: usize) -> usize {
        let HashLevel { size, log, .. } = self.hash_levels[level];
        size.div_ceil(1 << log)
    }

    /// The block of a level that holds the entry of a block of the next level.
    pub fn holder(&self, level: usize, block: usize) -> usize {
        (block * ENTRY as usize) >> self.hash_levels[level].log
    }

    /// The copy of DPFS level 2's block that the live half of level 1 names.
    fn level2_copy(&self, image: &[u8], block: usize) -> usize {
        let (byte, mask) = bit(block);
        (image[self.bits + byte] & mask != 0).into()
    }

    /// The position of a byte of live DPFS level 2.
    fn level2_position(&self, image: &[u8], byte: usize) -> usize {
        self.level2.start + self.level2_copy(image, byte >> self.level2.log) * self.level2.size + byte
    }

    fn level3_copy(&self, image: &[u8], block: usize) -> usize {
        let (byte, mask) = bit(block);
        (image[self.level2_position(image, byte)] & mask != 0).into()
    }

    /// The positions of the first bytes of a range of a level, as many as lie together.
    fn run(&self, image: &[u8], level: usize, range: Range<usize>) -> Range<usize> {
        let HashLevel { start, outside, .. } = self.hash_levels[level];
        let (from, to) = (start + range.start, start + range.end);
        if outside {
            return from..to;
        }
        let block = from >> self.level3.log;
        let stop = to.min((block + 1) << self.level3.log);
        let first = self.level3.start + self.level3_copy(image, block) * self.level3.size;
        first + from..first + stop
    }

    /// The bytes of a range of a level, run by run.
    fn runs<'a>(&'a self, image: &'a [u8], level: usize, range: Range<usize>) -> impl Iterator<Item = &'a [u8]> + 'a {
        let mut place = range.start;
        std::iter::from_fn(move || {
            let left = place..range.end;
            (!left.is_empty()).then(|| {
                let run = &image[self.run(image, level, left)];
                place += run.len();
                run
            })
        })
    }

    /// Copies bytes of a level from a place on.
    pub fn copy(&self, image: &[u8], level: usize, place: usize, buffer: &mut [u8]) {
        let mut rest = buffer;
        for run in self.runs(image, level, place..place + rest.len()) {
            let (now, later) = rest.split_at_mut(run.len());
            now.copy_from_slice(run);
            rest = later;
        }
    }

    /// The digest of a block: in place if it lies in one piece, else gathered in the scratch with the zeros behind it.
    pub fn digest(&self, image: &[u8], level: usize, block: usize, scratch: &mut Vec<u8>) -> [u8; 32] {
        let range = self.block(level, block);
        let size = 1 << self.hash_levels[level].log;
        let run = self.run(image, level, range.clone());
        if run.len() == size {
            return (self.sha256)(&image[run]);
        }
        scratch.clear();
        self.runs(image, level, range).for_each(|run| scratch.extend_from_slice(run));
        scratch.resize(size, 0);
        (self.sha256)(scratch)
    }

    pub fn entry(&self, image: &[u8], level: usize, block: usize) -> [u8; ENTRY as usize] {
        let mut entry = [0; ENTRY as usize];
        self.copy(image, level - 1, block * ENTRY as usize, &mut entry);
        entry
    }

    /// Does a block's entry match? One of zeros matches no block.
    pub fn matches(&self, image: &[u8], level: usize, block: usize, scratch: &mut Vec<u8>) -> bool {
        let entry = self.entry(image, level, block);
        entry != [0; ENTRY as usize] && self.digest(image, level, block, scratch) == entry
    }

    /// Is a block verified? The chain above it is judged anew for each block, from the block up.
    pub fn verified(&self, image: &[u8], level: usize, block: usize, scratch: &mut Vec<u8>) -> bool {
        let mut block = block;
        (1..=level).rev().all(|level| {
            let matches = self.matches(image, level, block, scratch);
            block = self.holder(level - 1, block);
            matches
        })
    }
}

/// Both views of a begun session: stores go to the staged one, off the live copies.
pub struct Staging {
    pub live: View,
    pub staged: View,
}

impl Staging {
    /// Stores bytes into a level from a place on, run by run.
    pub fn put(&self, image: &mut [u8], level: usize, place: usize, bytes: &[u8]) {
        let HashLevel { start, outside, .. } = self.staged.hash_levels[level];
        let mut place = place;
        let mut rest = bytes;
        while !rest.is_empty() {
            if !outside {
                self.move_level3_block(image, (start + place) >> self.staged.level3.log);
            }
            let run = self.staged.run(image, level, place..place + rest.len());
            let (now, later) = rest.split_at(run.len());
            image[run].copy_from_slice(now);
            place += now.len();
            rest = later;
        }
    }

    /// Moves the staged copy of a block, and of the level 2 block with its bit, off the live one; once only.
    fn move_level3_block(&self, image: &mut [u8], block: usize) {
        let (byte, mask) = bit(block);
        self.move_level2_block(image, byte >> self.live.level2.log);
        let live = self.live.level3_copy(image, block);
        if self.staged.level3_copy(image, block) == live {
            self.live.level3.copy_over(image, block, live);
            image[self.staged.level2_position(image, byte)] ^= mask;
        }
    }

    fn move_level2_block(&self, image: &mut [u8], block: usize) {
        let (byte, mask) = bit(block);
        let live = self.live.level2_copy(image, block);
        if self.staged.level2_copy(image, block) == live {
            self.live.level2.copy_over(image, block, live);
            image[self.staged.bits + byte] ^= mask;
        }
    }
}
