//! Fills a chosen shape with bytes: noise everywhere, the fields over it, and level 4 with its hashes.

use super::random::Random;
use super::shape::Wanted;
use super::Sample;
use crate::model::Version;
use crate::rules::block_hash::block_hash;
use crate::rules::compression::Digest;
use crate::rules::descriptor::{
    Descriptor, Level, DIFI_OPENING, DPFS_LEVELS, DPFS_OPENING, ENTRY, IVFC_LEVELS, IVFC_OPENING, SELECTOR,
};
use crate::rules::extent::Extent;
use crate::rules::header::{Header, Kind, PartitionPlace, DIFF_OPENING, DISA_OPENING, HEADER};
use crate::rules::opening::{Opened, Partition};
use crate::rules::sha256::sha256;

pub fn build(random: &mut Random, wanted: &Wanted, opened: Opened, length: usize) -> Sample {
    let mut image = random.bytes(length);
    if !wanted.tight {
        even_out_bits(random, &mut image, &opened);
    }
    let mut table = random.bytes(opened.header.primary.size as usize);
    let mut versions = Vec::new();
    let mut hash_verified = Vec::new();
    for partition in &opened.partitions {
        let filled = fill_partition(random, wanted, &mut image, partition);
        put_descriptor(random, wanted, &mut table, partition, &filled.master);
        versions.push(filled.version);
        hash_verified.push(filled.hash_verified);
    }
    let active = opened.header.active_table().offset as usize;
    image[active..active + table.len()].copy_from_slice(&table);
    if random.chance(30) {
        put_staged_table(random, &mut image, &opened, table);
    }
    put_header(&mut image[HEADER..], &opened.header);
    put_table_hash(&mut image, &opened);
    Sample { image, opened, versions, hash_verified }
}

pub fn put(bytes: &mut [u8], place: usize, data: &[u8]) {
    bytes[place..place + data.len()].copy_from_slice(data);
}

fn put_extent(bytes: &mut [u8], place: usize, offset: u128, size: u128) {
    put(bytes, place, &(offset as u64).to_le_bytes());
    put(bytes, place + 8, &(size as u64).to_le_bytes());
}

/// Behind the logarithm stands what was there, unless leftovers are not wanted. Left to chance, it is nothing or
/// another logarithm now and then.
fn put_level(random: &mut Random, wanted: &Wanted, bytes: &mut [u8], place: usize, level: Level) {
    put_extent(bytes, place, level.extent.offset, level.extent.size);
    put(bytes, place + 16, &(level.log as u32).to_le_bytes());
    let padding = match wanted.leftovers {
        Some(true) => return,
        Some(false) => 0,
        None => match random.below(4) {
            0 => 0,
            1 => random.between(5, 16) as u32,
            _ => return,
        },
    };
    put(bytes, place + 20, &padding.to_le_bytes());
}

/// Now and then all bits of level 1 and level 2 are equal instead of noise.
fn even_out_bits(random: &mut Random, image: &mut [u8], opened: &Opened) {
    for partition in &opened.partitions {
        for half in [partition.descriptor.level1, partition.descriptor.level2.extent] {
            if random.chance(20) {
                let start = (partition.place.area.offset + half.offset) as usize;
                image[start..start + 2 * half.size as usize].fill(random.pick(&[0, 0xFF]));
            }
        }
    }
}

/// Writes the fields of a descriptor; padding keeps its noise, and so do fields that are not read.
fn put_descriptor(random: &mut Random, wanted: &Wanted, table: &mut [u8], partition: &Partition, master: &[u8]) {
    let descriptor = &partition.descriptor;
    let bytes = &mut table[partition.place.descriptor.offset as usize..];
    put(bytes, 0, DIFI_OPENING);
    for (place, piece) in [(0x08, descriptor.ivfc), (0x18, descriptor.dpfs), (0x28, descriptor.master)] {
        put_extent(bytes, place, piece.offset, piece.size);
    }
    bytes[SELECTOR] = descriptor.selector as u8;
    match descriptor.external {
        Some(offset) => {
            bytes[0x38] = random.pick(&[1, 2, 0x80, 0xFF]);
            put(bytes, 0x3C, &offset.to_le_bytes());
        }
        None => bytes[0x38] = 0,
    }

    let ivfc = &mut bytes[descriptor.ivfc.offset as usize..];
    put(ivfc, 0, IVFC_OPENING);
    put(ivfc, 8, &(descriptor.master.size as u64).to_le_bytes());
    for (place, level) in IVFC_LEVELS.into_iter().zip(descriptor.hash_levels) {
        put_level(random, wanted, ivfc, place, level);
    }
    if descriptor.external.is_some() {
        let unread = random.bytes(8);
        put(ivfc, IVFC_LEVELS[3], &unread);
    }

    let dpfs = &mut bytes[descriptor.dpfs.offset as usize..];
    put(dpfs, 0, DPFS_OPENING);
    put_extent(dpfs, DPFS_LEVELS[0], descriptor.level1.offset, descriptor.level1.size);
    put_level(random, wanted, dpfs, DPFS_LEVELS[1], descriptor.level2);
    put_level(random, wanted, dpfs, DPFS_LEVELS[2], descriptor.level3);
    put(bytes, descriptor.master.offset as usize, master);
}

/// Makes the inactive table one that a session would accept, with any master hashes.
fn put_staged_table(random: &mut Random, image: &mut [u8], opened: &Opened, mut table: Vec<u8>) {
    for partition in &opened.partitions {
        let start = partition.place.descriptor.offset as usize;
        table[start + SELECTOR] ^= 1;
        if random.chance(50) {
            let hash = random.bytes(partition.descriptor.master.size as usize);
            put(&mut table, start + partition.descriptor.master.offset as usize, &hash);
        }
    }
    put(image, opened.header.inactive_table().offset as usize, &table);
}

/// Writes the fields of a header, but for the table's hash; where a DISA has no B, its fields are zero.
pub fn put_header(bytes: &mut [u8], header: &Header) {
    let table_size = header.primary.size as u64;
    let a = header.partitions[0];
    match header.kind {
        Kind::Disa => {
            put(bytes, 0, DISA_OPENING);
            put(bytes, 0x08, &(header.partitions.len() as u32).to_le_bytes());
            put_extent(bytes, 0x10, header.secondary.offset, header.primary.offset);
            put(bytes, 0x20, &table_size.to_le_bytes());
            put_extent(bytes, 0x28, a.descriptor.offset, a.descriptor.size);
            put_extent(bytes, 0x48, a.area.offset, a.area.size);
            let nothing = Extent { offset: 0, size: 0 };
            let no_b = PartitionPlace { descriptor: nothing, area: nothing };
            let b = header.partitions.get(1).copied().unwrap_or(no_b);
            put_extent(bytes, 0x38, b.descriptor.offset, b.descriptor.size);
            put_extent(bytes, 0x58, b.area.offset, b.area.size);
            bytes[0x68] = header.flag as u8;
        }
        Kind::Diff => {
            put(bytes, 0, DIFF_OPENING);
            put_extent(bytes, 0x08, header.secondary.offset, header.primary.offset);
            put(bytes, 0x18, &table_size.to_le_bytes());
            put_extent(bytes, 0x20, a.area.offset, a.area.size);
            put(bytes, 0x30, &(header.flag as u32).to_le_bytes());
        }
    }
}

/// Brings the header's hash of the active table up to date.
pub fn put_table_hash(image: &mut [u8], opened: &Opened) {
    let digest = sha256(opened.header.active_table().of(image));
    put(image, HEADER + opened.header.kind.hash_place(), &digest);
}

/// What is known of a partition once it is filled.
struct Filled {
    version: Version,
    /// Which blocks of levels 1 to 3 are verified.
    hash_verified: [Vec<bool>; 3],
    master: Vec<u8>,
}

/// Fills a partition's level 4 and hash levels and lays them into the live copies.
fn fill_partition(random: &mut Random, wanted: &Wanted, image: &mut [u8], partition: &Partition) -> Filled {
    let descriptor = &partition.descriptor;
    let [_, _, _, data_level] = descriptor.hash_levels;
    let data = match &wanted.contents {
        Some(contents) => contents.clone(),
        None => choose_data(random, data_level.extent.size as usize),
    };
    let faults = Faults::choose(random, wanted);
    let Hashed { levels, matches, master } = hash_upwards(random, descriptor, &faults, data.clone());
    let [one, two, three, four] = matches;
    let two = verified_below(descriptor, 1, &one, &two);
    let three = verified_below(descriptor, 2, &two, &three);
    let verified = verified_below(descriptor, 3, &three, &four);
    lay_levels(random, image, partition, &levels);
    Filled { version: Version { bytes: data, verified }, hash_verified: [one, two, three], master }
}

/// The levels of a partition once they are hashed.
struct Hashed {
    /// The bytes of level 4 first, those of level 1 last.
    levels: Vec<Vec<u8>>,
    /// For each block of levels 1 to 4 whether its entry matches.
    matches: [Vec<bool>; 4],
    master: Vec<u8>,
}

/// Hashes from level 4 upwards, into entries of which some are wrong; spare entries are noise or zeros.
fn hash_upwards(random: &mut Random, descriptor: &Descriptor, faults: &Faults, data: Vec<u8>) -> Hashed {
    let mut levels = vec![data];
    let mut matches = [(); 4].map(|()| Vec::new());
    for level in (1..=4).rev() {
        let bytes = levels.last().expect("level 4 is there");
        let (entries, good) =
            hash_blocks(random, bytes, descriptor.hash_level(level).log, faults.percent[level - 1], faults.entry);
        matches[level - 1] = good;
        let size = if level == 1 { descriptor.master.size } else { descriptor.hash_level(level - 1).extent.size };
        let mut above = random.bytes(size as usize);
        if faults.blank {
            above.fill(0);
        }
        put(&mut above, 0, &entries);
        levels.push(above);
    }
    let master = levels.pop().expect("the master hash is there");
    Hashed { levels, matches, master }
}

/// A block is verified if its entry matches and the block of the level above that has the entry is verified.
fn verified_below(descriptor: &Descriptor, above_level: usize, above: &[bool], matches: &[bool]) -> Vec<bool> {
    let entries_per_block = (1usize << descriptor.hash_level(above_level).log) / ENTRY as usize;
    matches.iter().enumerate().map(|(block, good)| *good && above[block / entries_per_block]).collect()
}

/// Lays the levels, level 4 first, into a DPFS level 3 that is noise elsewhere, and that into the live copies; an external level 4
/// goes to its own place.
fn lay_levels(random: &mut Random, image: &mut [u8], partition: &Partition, levels: &[Vec<u8>]) {
    let descriptor = &partition.descriptor;
    let mut level3 = random.bytes(descriptor.level3.extent.size as usize);
    let area = partition.place.area.offset as usize;
    for (index, bytes) in levels.iter().enumerate() {
        let level = 4 - index;
        match descriptor.external {
            Some(offset) if level == 4 => put(image, area + offset as usize, bytes),
            _ => put(&mut level3, descriptor.hash_level(level).extent.offset as usize, bytes),
        }
    }
    scatter(image, partition, &level3);
}

/// Mostly noise, now and then zeros.
fn choose_data(random: &mut Random, size: usize) -> Vec<u8> {
    let data = random.bytes(size);
    if random.chance(15) {
        vec![0; size]
    } else {
        data
    }
}

/// How entries go wrong.
struct Faults {
    /// In how many of a hundred cases a block of level 1 to 4 gets an entry that does not match.
    percent: [u64; 4],
    entry: WrongEntry,
    /// Spare entries are zeros instead of noise.
    blank: bool,
}

#[derive(Clone, Copy)]
enum WrongEntry {
    /// Noise, or nearly right.
    Damaged,
    /// Zeros: the block was never written.
    Zero,
    /// The hash of a block of zeros: the right one of a hash block, once that is emptied.
    OfZeros,
    Any,
}

impl Faults {
    fn choose(random: &mut Random, wanted: &Wanted) -> Faults {
        if wanted.all_verified {
            return Faults { percent: [0; 4], entry: WrongEntry::Any, blank: false };
        }
        if wanted.fresh.unwrap_or_else(|| random.chance(40)) {
            return Faults::fresh(random);
        }
        let percent = match random.below(10) {
            0..=3 => [0, 0, 0, 0],
            4..=6 => [0, 0, 0, 30],
            7 => [0, 0, 30, 30],
            8 => [0, 30, 0, 30],
            _ => [10, 10, 10, 50],
        };
        Faults { percent, entry: WrongEntry::Damaged, blank: false }
    }

    /// Whole levels that were never written, and levels that were written in part.
    fn fresh(random: &mut Random) -> Faults {
        let percent = random.pick(&[
            [100, 100, 100, 100],
            [100, 0, 0, 0],
            [0, 100, 0, 0],
            [0, 0, 100, 0],
            [0, 0, 100, 100],
            [0, 0, 0, 60],
            [0, 50, 50, 50],
            [50, 50, 50, 50],
            [30, 10, 30, 80],
        ]);
        let entry = random.pick(&[WrongEntry::Zero, WrongEntry::Zero, WrongEntry::OfZeros, WrongEntry::Any]);
        Faults { percent, entry, blank: random.chance(50) }
    }
}

/// An entry for each block of a level, some of them wrong, and which ones match. One of zeros matches nothing.
fn hash_blocks(random: &mut Random, bytes: &[u8], log: u64, percent: u64, wrong: WrongEntry) -> (Vec<u8>, Vec<bool>) {
    let mut entries = Vec::new();
    let mut good = Vec::new();
    for block in bytes.chunks(1 << log) {
        let mut padded = block.to_vec();
        padded.resize(1 << log, 0);
        let digest = block_hash(&padded);
        let entry = if random.chance(percent) { wrong_entry(random, wrong, block, log, digest) } else { digest };
        entries.extend_from_slice(&entry);
        good.push(entry == digest && entry != [0; 32]);
    }
    (entries, good)
}

fn wrong_entry(random: &mut Random, wrong: WrongEntry, block: &[u8], log: u64, digest: Digest) -> Digest {
    match wrong {
        WrongEntry::Zero => [0; 32],
        WrongEntry::OfZeros => block_hash(&vec![0; 1 << log]),
        WrongEntry::Damaged => damaged_entry(random, block, digest),
        WrongEntry::Any => {
            let wrong = random.pick(&[WrongEntry::Zero, WrongEntry::OfZeros, WrongEntry::Damaged]);
            wrong_entry(random, wrong, block, log, digest)
        }
    }
}

/// Noise, the right hash with one bit changed, or the hash of the block without the zeros behind it.
fn damaged_entry(random: &mut Random, block: &[u8], digest: Digest) -> Digest {
    match random.below(3) {
        0 => random.bytes(32).try_into().expect("32 bytes"),
        1 => {
            let mut entry = digest;
            entry[random.below(32) as usize] ^= 1 << random.below(8);
            entry
        }
        _ => block_hash(block),
    }
}

/// Bit `n` of a half that starts at `start`, as the document prints it: 32-bit words, the highest bit first.
fn bit(image: &[u8], start: usize, n: usize) -> usize {
    let word = u32::from_le_bytes(image[start + n / 32 * 4..][..4].try_into().expect("four bytes"));
    (word >> (31 - n % 32) & 1) as usize
}

/// Lays level 3's bytes into the copies that the image's bits name live.
fn scatter(image: &mut [u8], partition: &Partition, level3: &[u8]) {
    let descriptor = &partition.descriptor;
    let area = partition.place.area.offset as usize;
    let start = |offset: u128, size: u128, copy: usize| area + offset as usize + copy * size as usize;
    let half = start(descriptor.level1.offset, descriptor.level1.size, descriptor.selector as usize);
    for (block, bytes) in level3.chunks(1 << descriptor.level3.log).enumerate() {
        let level2_block = block / 8 / (1 << descriptor.level2.log);
        let level2 = descriptor.level2.extent;
        let copy = bit(image, start(level2.offset, level2.size, bit(image, half, level2_block)), block);
        let level3 = descriptor.level3.extent;
        put(image, start(level3.offset, level3.size, copy) + (block << descriptor.level3.log), bytes);
    }
}
