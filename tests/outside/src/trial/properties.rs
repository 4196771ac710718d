//! Facts that must hold between the image before and after an accepted call, said without the code that makes them so.

use std::ops::Range;

use super::call::Call;
use super::signatures::expected_signature;
use crate::generate::contents::put;
use crate::generate::signing::SigningKey;
use crate::rules::block_hash::block_hash;
use crate::rules::calls::{blocks_of, touched_blocks};
use crate::rules::descriptor::{ENTRY, SELECTOR};
use crate::rules::dpfs::{bit_place, View};
use crate::rules::extent::Extent;
use crate::rules::header::HEADER;
use crate::rules::opening::{Opened, Partition};
use crate::rules::protected::free_bytes;
use crate::rules::session::HeaderBytes;
use crate::rules::sha256::sha256;
use crate::rules::signing::SIGNATURE_LENGTH;

/// Says what is wrong if a condition fails.
pub fn require(condition: bool, complaint: impl FnOnce() -> String) -> Result<(), String> {
    if condition {
        Ok(())
    } else {
        Err(complaint())
    }
}

/// Begin changes the inactive table and the other halves of level 1, to exactly what the paper says, and nothing else.
pub fn check_begin(before: &[u8], after: &[u8], opened: &Opened) -> Result<(), String> {
    let active = opened.header.active_table();
    let inactive = opened.header.inactive_table();
    let mut named = vec![inactive];
    for (offset, (old, new)) in active.of(before).iter().zip(inactive.of(after)).enumerate() {
        let selector =
            opened.partitions.iter().any(|partition| partition.place.descriptor.offset as usize + SELECTOR == offset);
        let right = if selector { 1 - old } else { *old };
        require(*new == right, || format!("begin: byte {offset:#x} of the staged table is {new:#x}"))?;
    }
    for partition in &opened.partitions {
        let half = partition.descriptor.level1;
        let first = Extent { offset: partition.place.area.offset + half.offset, size: half.size };
        let second = Extent { offset: first.end(), size: half.size };
        let (live, other) = if partition.descriptor.selector == 0 { (first, second) } else { (second, first) };
        require(live.of(before) == other.of(after), || "begin: the halves of level 1 differ".into())?;
        named.push(other);
    }
    for (position, (old, new)) in before.iter().zip(after).enumerate() {
        let place = Extent { offset: position as u128, size: 1 };
        let may_change = || named.iter().any(|extent| !extent.disjoint(place));
        require(old == new || may_change(), || format!("begin: changed the byte at {position:#x}"))?;
    }
    Ok(())
}

/// Commit changes the flag and the table's hash, and nothing else.
pub fn check_commit(before: &[u8], after: &[u8], opened: &Opened) -> Result<(), String> {
    check_committed(before, after, opened, 0..0)
}

/// A signed commit changes the first 16 bytes too, to the signature of the new header.
pub fn check_signed_commit(
    before: &[u8],
    after: &[u8],
    opened: &Opened,
    signing_key: &SigningKey,
) -> Result<(), String> {
    let signature = expected_signature(after, signing_key);
    require(after[..SIGNATURE_LENGTH] == signature, || "commit: the signature".into())?;
    check_committed(before, after, opened, 0..SIGNATURE_LENGTH)
}

/// A revert leaves the former header and changes nothing else.
pub fn check_revert(before: &[u8], after: &[u8], former: &HeaderBytes) -> Result<(), String> {
    let mut expected = before.to_vec();
    put(&mut expected, HEADER, former);
    require(after == expected, || "revert: the image is wrong".into())
}

/// A signed one leaves the signature of the former header too.
pub fn check_signed_revert(
    before: &[u8],
    after: &[u8],
    former: &HeaderBytes,
    signing_key: &SigningKey,
) -> Result<(), String> {
    let mut signed = before.to_vec();
    put(&mut signed, 0, &expected_signature(after, signing_key));
    check_revert(&signed, after, former)
}

/// Flag and hash are the new ones; besides them only bytes in `signature` may change.
fn check_committed(before: &[u8], after: &[u8], opened: &Opened, signature: Range<usize>) -> Result<(), String> {
    let kind = opened.header.kind;
    let flag = HEADER + kind.flag_place().0;
    let hash = HEADER + kind.hash_place()..HEADER + kind.hash_place() + 32;
    require(u64::from(after[flag]) == 1 - opened.header.flag, || "commit: the flag".into())?;
    require(after[hash.clone()] == sha256(opened.header.inactive_table().of(before)), || "commit: the hash".into())?;
    for (position, (old, new)) in before.iter().zip(after).enumerate() {
        let may_change = position == flag || hash.contains(&position) || signature.contains(&position);
        require(old == new || may_change, || format!("commit: changed the byte at {position:#x}"))?;
    }
    Ok(())
}

/// The bytes that a call other than commit may change: free ones, and those that a write changes in place.
pub fn writable_bytes(image: &[u8], opened: &Opened, call: &Call) -> Vec<bool> {
    let mut writable = free_bytes(image, opened);
    writable[call.written_in_place(opened)].fill(true);
    writable
}

/// What the staged view holds once a write has finished, worked out on whole levels without any copies.
pub struct Finished {
    /// IVFC levels 1 to 4.
    levels: [Vec<u8>; 4],
    master: Vec<u8>,
    /// The hash blocks that were emptied, by level and number.
    pub rebuilt: Vec<(usize, u128)>,
    /// The level of a block whose digest is all zero, if there is one: the lowest in the tree.
    pub zero_digest: Option<usize>,
}

/// Finishes a write on the staged view as it was: what was not verified is emptied, the data is laid over, and entries
/// are brought up to date from level 3 up to the master hash.
pub fn finish_write(staged: &View, range: Extent, data: &[u8]) -> Finished {
    let shapes = staged.partition.descriptor.hash_levels;
    let mut levels = [1, 2, 3, 4].map(|level| staged.level_bytes(level, 0, shapes[level - 1].extent.size));
    let mut master = staged.master.to_vec();
    let touched = touched_on_each_level(staged.partition, range);
    let mut rebuilt = Vec::new();
    for level in [1, 2, 3] {
        let verified = staged.verified_blocks(level);
        for block in touched[level].clone().filter(|block| !verified[*block as usize]) {
            let own = shapes[level - 1].block_extent(block);
            levels[level - 1][own.offset as usize..own.end() as usize].fill(0);
            rebuilt.push((level, block));
        }
    }
    levels[3][range.offset as usize..range.end() as usize].copy_from_slice(data);
    let mut zero_digest = None;
    for level in [4, 3, 2, 1] {
        for block in touched[level].clone() {
            let own = shapes[level - 1].block_extent(block);
            let mut bytes = own.of(&levels[level - 1]).to_vec();
            bytes.resize(1 << shapes[level - 1].log, 0);
            let digest = block_hash(&bytes);
            let above = if level == 1 { &mut master } else { &mut levels[level - 2] };
            put(above, (ENTRY * block) as usize, &digest);
            if digest == [0; 32] {
                zero_digest = zero_digest.or(Some(level));
            }
        }
    }
    Finished { levels, master, rebuilt, zero_digest }
}

/// The blocks of levels 1 to 4 that a range of level 4 touches or that are above one; in front, the entries of the
/// master hash.
pub fn touched_on_each_level(partition: &Partition, range: Extent) -> [Range<u128>; 5] {
    let mut touched = [const { 0..0 }; 5];
    touched[4] = touched_blocks(partition, range);
    for level in [3, 2, 1] {
        let below = &touched[level + 1];
        let entries = Extent { offset: ENTRY * below.start, size: ENTRY * (below.end - below.start) };
        touched[level] = blocks_of(partition.descriptor.hash_level(level).block_size(), entries);
    }
    touched[0] = touched[1].clone();
    touched
}

/// Write leaves the staged view as it must be once it has finished, and moves exactly the copies that it must. Blocks of
/// level 4 that were not verified are so now if they were written, and only then.
/// Answers whether one of the blocks that it reaches had moved before.
pub fn check_write(
    before: &[u8],
    after: &[u8],
    opened: &Opened,
    partition: &Partition,
    range: Extent,
    finished: &Finished,
) -> Result<bool, String> {
    let old = View::staged(before, opened, partition);
    let new = View::staged(after, opened, partition);
    check_staged_bytes(&old, &new, finished)?;
    check_staged_table(before, after, opened, partition, finished)?;
    let touched = touched_blocks(partition, range);
    for (block, (old, new)) in (0..).zip(old.verified_blocks(4).into_iter().zip(new.verified_blocks(4))) {
        require(new == (old || touched.contains(&block)), || format!("write: block {block} is verified: {new}"))?;
    }
    check_moves(&old, &new, &View::committed(before, opened, partition), &stored_ranges(partition, range, finished))
}

/// The levels are as the finished write has them, and what lies between them is as before.
fn check_staged_bytes(old: &View, new: &View, finished: &Finished) -> Result<(), String> {
    let descriptor = &old.partition.descriptor;
    let size = descriptor.level3.extent.size;
    let mut expected = old.level3_bytes(0, size);
    let inside = if descriptor.external.is_some() { 3 } else { 4 };
    for (shape, bytes) in descriptor.hash_levels[..inside].iter().zip(&finished.levels) {
        put(&mut expected, shape.extent.offset as usize, bytes);
    }
    require(new.data() == finished.levels[3], || "write: level 4 is wrong".into())?;
    let bytes = new.level3_bytes(0, size);
    let place = (0..bytes.len()).find(|place| bytes[*place] != expected[*place]);
    require(place.is_none(), || format!("write: staged level 3 is wrong at {:#x}", place.unwrap_or(0)))
}

/// The level 3 blocks that were stored to, and the level 2 blocks with their bits, are off the live copies; no other has
/// moved. Answers whether one of those stored to had moved before.
fn check_moves(old: &View, new: &View, live: &View, stored: &[Extent]) -> Result<bool, String> {
    let descriptor = &old.partition.descriptor;
    let mut moved_before = false;
    let mut level2_reached = vec![false; descriptor.level2.blocks() as usize];
    for block in 0..descriptor.level3.blocks() {
        let extent = descriptor.level3.block_extent(block);
        let reached = stored.iter().any(|stored| !stored.disjoint(extent));
        let apart = old.level3_copy(block) != live.level3_copy(block);
        let apart_now = new.level3_copy(block) != live.level3_copy(block);
        require(apart_now == (apart || reached), || format!("write: level 3 block {block} is on the wrong copy"))?;
        if reached {
            moved_before |= apart;
            level2_reached[(bit_place(block).0 / descriptor.level2.block_size()) as usize] = true;
        }
    }
    for (block, reached) in level2_reached.into_iter().enumerate() {
        let block = block as u128;
        let apart = old.level2_copy(block) != live.level2_copy(block);
        let apart_now = new.level2_copy(block) != live.level2_copy(block);
        require(apart_now == (apart || reached), || format!("write: level 2 block {block} is on the wrong copy"))?;
    }
    Ok(moved_before)
}

/// Of the staged table a write changes the master hash alone, to what the finished write has.
fn check_staged_table(
    before: &[u8],
    after: &[u8],
    opened: &Opened,
    partition: &Partition,
    finished: &Finished,
) -> Result<(), String> {
    let table = opened.header.inactive_table();
    let mut expected = table.of(before).to_vec();
    put(
        &mut expected,
        (partition.place.descriptor.offset + partition.descriptor.master.offset) as usize,
        &finished.master,
    );
    let place = table.of(after).iter().zip(&expected).position(|(new, right)| new != right);
    require(place.is_none(), || format!("write: the staged table is wrong at {:#x}", place.unwrap_or(0)))
}

/// Where a write stores in DPFS level 3: its bytes, the entries of the touched blocks in levels 3, 2 and 1, and all
/// entries of the blocks that it rebuilds.
fn stored_ranges(partition: &Partition, range: Extent, finished: &Finished) -> Vec<Extent> {
    if range.size == 0 {
        return Vec::new();
    }
    let shapes = partition.descriptor.hash_levels;
    let touched = touched_on_each_level(partition, range);
    let mut stored = match partition.descriptor.external {
        Some(_) => Vec::new(),
        None => vec![Extent { offset: shapes[3].extent.offset + range.offset, size: range.size }],
    };
    for level in [1, 2, 3] {
        let below = &touched[level + 1];
        let offset = shapes[level - 1].extent.offset + ENTRY * below.start;
        stored.push(Extent { offset, size: ENTRY * (below.end - below.start) });
    }
    stored.extend(finished.rebuilt.iter().map(|(level, block)| rebuilt_extent(partition, *level, *block)));
    stored
}

/// Where a hash block lies in DPFS level 3.
pub fn rebuilt_extent(partition: &Partition, level: usize, block: u128) -> Extent {
    let shape = partition.descriptor.hash_level(level);
    let own = shape.block_extent(block);
    Extent { offset: shape.extent.offset + own.offset, size: own.size }
}
