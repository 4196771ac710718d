//! What begin and write store, and when the inactive table counts as staged.

use std::ops::Range;

use super::block_hash::{block_hash, is_zero};
use super::calls::{blocks_of, touched_blocks};
use super::descriptor::{ENTRY, SELECTOR};
use super::dpfs::{bit_place, View};
use super::extent::Extent;
use super::opening::{Opened, Partition};
use super::refusal::Refusal;

/// Begin's stores.
pub fn prepare(image: &mut [u8], opened: &Opened) {
    let mut table = opened.header.active_table().of(image).to_vec();
    for partition in &opened.partitions {
        let half = partition.descriptor.level1;
        let live = View::committed(image, opened, partition).level1_half() as usize;
        let first = (partition.place.area.offset + half.offset) as usize;
        let size = half.size as usize;
        let other = if live == first { first + size } else { first };
        image.copy_within(live..live + size, other);
        table[partition.place.descriptor.offset as usize + SELECTOR] ^= 1;
    }
    let inactive = opened.header.inactive_table().offset as usize;
    image[inactive..inactive + table.len()].copy_from_slice(&table);
}

/// Is the inactive table the active one with selectors flipped and any master hashes?
pub fn inactive_table_is_staged(image: &[u8], opened: &Opened) -> bool {
    let mut expected = opened.header.active_table().of(image).to_vec();
    let inactive = opened.header.inactive_table().of(image);
    for partition in &opened.partitions {
        let descriptor = partition.place.descriptor.offset as usize;
        expected[descriptor + SELECTOR] ^= 1;
        let master = partition.descriptor.master;
        let start = descriptor + master.offset as usize;
        let end = start + master.size as usize;
        expected[start..end].copy_from_slice(&inactive[start..end]);
    }
    expected == inactive
}

/// Write's stores: hash blocks above touched blocks are emptied if they are not verified; then come the bytes, in place
/// if level 4 is external, then the entries of the touched blocks in levels 3, 2, 1 and the staged master hash. Refusal 17 if one of those is all zero.
pub fn write(
    image: &mut [u8],
    opened: &Opened,
    partition: &Partition,
    range: Extent,
    data: &[u8],
) -> Result<(), Refusal> {
    for (level, block) in unverified_above(&View::staged(image, opened, partition), range) {
        let own = partition.descriptor.hash_level(level).block_extent(block);
        let start = partition.descriptor.hash_level(level).extent.offset;
        put(image, opened, partition, start + own.offset, &vec![0; own.size as usize]);
    }
    match partition.written_in_place(range) {
        Some(place) => image[place.offset as usize..place.end() as usize].copy_from_slice(data),
        None => {
            let start = partition.descriptor.hash_level(4).extent.offset;
            put(image, opened, partition, start + range.offset, data);
        }
    }
    let mut touched = touched_blocks(partition, range);
    for level in [4, 3, 2, 1] {
        for block in touched.clone() {
            let digest = block_hash(&View::staged(image, opened, partition).padded_block(level, block));
            if is_zero(&digest) {
                return Err(Refusal::ZeroDigest);
            }
            put_entry(image, opened, partition, level - 1, ENTRY * block, &digest);
        }
        if level > 1 {
            touched = holders(partition, level - 1, touched);
        }
    }
    Ok(())
}

/// The hash blocks above a range of level 4 that are not verified, by level and number.
fn unverified_above(view: &View, range: Extent) -> Vec<(usize, u128)> {
    let mut unverified = Vec::new();
    let mut touched = touched_blocks(view.partition, range);
    for level in [3, 2, 1] {
        touched = holders(view.partition, level, touched);
        unverified.extend(touched.clone().filter(|block| !view.verified(level, *block)).map(|block| (level, block)));
    }
    unverified
}

/// The blocks of level 1 to 3 that hold the entries of these blocks of the next level.
fn holders(partition: &Partition, level: usize, blocks: Range<u128>) -> Range<u128> {
    let entries = Extent { offset: ENTRY * blocks.start, size: ENTRY * (blocks.end - blocks.start) };
    blocks_of(partition.descriptor.hash_level(level).block_size(), entries)
}

/// Stores an entry into level 1 to 3, or into the staged master hash for level 0.
fn put_entry(image: &mut [u8], opened: &Opened, partition: &Partition, level: usize, place: u128, digest: &[u8]) {
    let descriptor = &partition.descriptor;
    if level > 0 {
        put(image, opened, partition, descriptor.hash_level(level).extent.offset + place, digest);
        return;
    }
    let table = opened.header.inactive_table().offset;
    let start = (table + partition.place.descriptor.offset + descriptor.master.offset + place) as usize;
    image[start..start + digest.len()].copy_from_slice(digest);
}

/// Stores bytes at a place of DPFS level 3 in the staged view, having moved each block they reach off its live copy.
fn put(image: &mut [u8], opened: &Opened, partition: &Partition, place: u128, data: &[u8]) {
    let range = Extent { offset: place, size: data.len() as u128 };
    for block in blocks_of(partition.descriptor.level3.block_size(), range) {
        move_level3_block(image, opened, partition, block);
    }
    for (index, byte) in data.iter().enumerate() {
        let position = View::staged(image, opened, partition).level3_position(place + index as u128);
        image[position as usize] = *byte;
    }
}

/// Moves the staged copy of a level 3 block off the live one, and the level 2 block with its bit too. A copy that
/// differs from the live one already is left alone.
fn move_level3_block(image: &mut [u8], opened: &Opened, partition: &Partition, block: u128) {
    let (byte, mask) = bit_place(block);
    move_level2_block(image, opened, partition, byte / partition.descriptor.level2.block_size());
    let live = View::committed(image, opened, partition).level3_copy(block);
    let staged = View::staged(image, opened, partition);
    if staged.level3_copy(block) != live {
        return;
    }
    let bit_position = staged.level2_position(byte) as usize;
    copy_block(
        image,
        partition,
        partition.descriptor.level3.extent,
        partition.descriptor.level3.block_size(),
        block,
        live,
    );
    image[bit_position] ^= mask;
}

fn move_level2_block(image: &mut [u8], opened: &Opened, partition: &Partition, block: u128) {
    let live = View::committed(image, opened, partition).level2_copy(block);
    let staged = View::staged(image, opened, partition);
    if staged.level2_copy(block) != live {
        return;
    }
    let (byte, mask) = bit_place(block);
    let bit_position = (staged.level1_half() + byte) as usize;
    copy_block(
        image,
        partition,
        partition.descriptor.level2.extent,
        partition.descriptor.level2.block_size(),
        block,
        live,
    );
    image[bit_position] ^= mask;
}

/// Copies a whole block of one half to the same place in the other.
fn copy_block(image: &mut [u8], partition: &Partition, half: Extent, block_size: u128, block: u128, from: u128) {
    let start = block * block_size;
    let length = half.size.min(start + block_size) - start;
    let position = |copy: u128| (partition.place.area.offset + half.offset + copy * half.size + start) as usize;
    let source = position(from);
    image.copy_within(source..source + length as usize, position(1 - from));
}
