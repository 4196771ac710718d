//! A partition's descriptor: its pieces, its levels, and refusals 6 and 7.

use super::extent::{extent_at, number, pairwise_disjoint, Extent};
use super::refusal::Refusal;

pub const DIFI_SIZE: u128 = 0x44;
pub const IVFC_SIZE: u128 = 0x78;
pub const DPFS_SIZE: u128 = 0x50;
/// The length of one hash: an entry.
pub const ENTRY: u128 = 32;
/// The master hash has 1 to so many entries.
pub const MOST_MASTER_ENTRIES: u128 = 64;
/// The usual master hash: one entry.
pub const MASTER_SIZE: u128 = ENTRY;

pub const DIFI_OPENING: &[u8; 8] = b"DIFI\x00\x00\x01\x00";
pub const IVFC_OPENING: &[u8; 8] = b"IVFC\x00\x00\x02\x00";
pub const DPFS_OPENING: &[u8; 8] = b"DPFS\x00\x00\x01\x00";

/// The selector's place in a descriptor.
pub const SELECTOR: usize = 0x39;
/// Where IVFC's levels 1 to 4 and DPFS's levels 1 to 3 are written in their pieces.
pub const IVFC_LEVELS: [usize; 4] = [0x10, 0x28, 0x40, 0x58];
pub const DPFS_LEVELS: [usize; 3] = [0x08, 0x20, 0x38];

/// One level of either tree: where it lies and the logarithm of its block size.
#[derive(Clone, Copy, Debug, PartialEq, Eq)]
pub struct Level {
    pub extent: Extent,
    pub log: u64,
}

impl Level {
    /// The logarithm has four bytes; the four behind it are padding.
    fn at(bytes: &[u8], place: usize) -> Level {
        Level { extent: extent_at(bytes, place), log: number(bytes, place + 16, 4) }
    }

    pub fn block_size(self) -> u128 {
        1 << self.log
    }

    /// The number of blocks: the size divided by the block size, rounded up.
    pub fn blocks(self) -> u128 {
        self.extent.size.div_ceil(self.block_size())
    }

    /// Where a block lies in the level; the last one may be short.
    pub fn block_extent(self, block: u128) -> Extent {
        let offset = block * self.block_size();
        Extent { offset, size: self.extent.size.min(offset + self.block_size()) - offset }
    }
}

/// Everything that is read from one descriptor.
#[derive(Clone, Debug, PartialEq, Eq)]
pub struct Descriptor {
    /// The three pieces besides DIFI, counted from the descriptor's start.
    pub ivfc: Extent,
    pub dpfs: Extent,
    pub master: Extent,
    pub selector: u64,
    /// The external level 4's offset in the partition; none if level 4 is internal.
    pub external: Option<u64>,
    /// IVFC levels 1 to 4, counted from the start of DPFS level 3. Level 4's offset is 0 here if it is external.
    pub hash_levels: [Level; 4],
    /// One half of DPFS level 1, counted from the partition's start. It has no logarithm.
    pub level1: Extent,
    /// One half of DPFS levels 2 and 3.
    pub level2: Level,
    pub level3: Level,
}

impl Descriptor {
    /// IVFC level 1 to 4.
    pub fn hash_level(&self, level: usize) -> Level {
        self.hash_levels[level - 1]
    }
}

/// Reads and judges a descriptor of a partition of the given size: refusal 6, then 7.
pub fn read_descriptor(bytes: &[u8], partition_size: u128) -> Result<Descriptor, Refusal> {
    let size = bytes.len() as u128;
    if size < DIFI_SIZE {
        // DIFI itself is not wholly inside, so nothing is read.
        return Err(Refusal::DescriptorPlaces);
    }
    let ivfc = extent_at(bytes, 0x08);
    let dpfs = extent_at(bytes, 0x18);
    let master = extent_at(bytes, 0x28);
    let selector = number(bytes, SELECTOR, 1);
    let pieces_fit = ivfc.size == IVFC_SIZE && dpfs.size == DPFS_SIZE && master_size_holds(master.size);
    if &bytes[..8] != DIFI_OPENING || !pieces_fit || selector > 1 {
        return Err(Refusal::DescriptorForm);
    }
    // A piece that is not wholly inside is not read, so its contents are not judged.
    let ivfc_holds = !ivfc.lies_in(size) || ivfc_form_holds(ivfc.of(bytes), master.size);
    let dpfs_holds = !dpfs.lies_in(size) || dpfs_form_holds(dpfs.of(bytes));
    if !ivfc_holds || !dpfs_holds {
        return Err(Refusal::DescriptorForm);
    }
    let pieces = [Extent { offset: 0, size: DIFI_SIZE }, ivfc, dpfs, master];
    if !pieces.iter().all(|piece| piece.lies_in(size)) || !pairwise_disjoint(&pieces) {
        return Err(Refusal::DescriptorPlaces);
    }
    let external = (bytes[0x38] != 0).then(|| number(bytes, 0x3C, 8));
    let mut hash_levels = IVFC_LEVELS.map(|place| Level::at(ivfc.of(bytes), place));
    if external.is_some() {
        hash_levels[3].extent.offset = 0;
    }
    let [level1, level2, level3] = DPFS_LEVELS.map(|place| Level::at(dpfs.of(bytes), place));
    let descriptor =
        Descriptor { ivfc, dpfs, master, selector, external, hash_levels, level1: level1.extent, level2, level3 };
    if levels_fit(&descriptor, partition_size) {
        Ok(descriptor)
    } else {
        Err(Refusal::DescriptorPlaces)
    }
}

/// Whole entries, from one to the most.
fn master_size_holds(size: u128) -> bool {
    size.is_multiple_of(ENTRY) && (1..=MOST_MASTER_ENTRIES).contains(&(size / ENTRY))
}

/// IVFC's part in refusal 6.
fn ivfc_form_holds(ivfc: &[u8], master_size: u128) -> bool {
    let levels = IVFC_LEVELS.map(|place| Level::at(ivfc, place));
    &ivfc[..8] == IVFC_OPENING
        && u128::from(number(ivfc, 0x08, 8)) == master_size
        && levels.iter().all(|level| level.extent.size >= 1 && (5..=16).contains(&level.log))
        && levels[..3].iter().all(|level| level.extent.size % ENTRY == 0)
}

/// DPFS's part in refusal 6. Level 1's logarithm is not read.
fn dpfs_form_holds(dpfs: &[u8]) -> bool {
    let [level1, level2, level3] = DPFS_LEVELS.map(|place| Level::at(dpfs, place));
    &dpfs[..8] == DPFS_OPENING
        && [level1, level2, level3].iter().all(|level| level.extent.size >= 1)
        && level1.extent.size % 4 == 0
        && level2.extent.size % 4 == 0
        && (2..=16).contains(&level2.log)
        && (5..=16).contains(&level3.log)
}

/// The rules behind refusal 7 that speak of the partition and of the levels.
fn levels_fit(descriptor: &Descriptor, partition_size: u128) -> bool {
    let [_, _, _, data] = descriptor.hash_levels;
    let mut in_partition =
        vec![descriptor.level1.pair(), descriptor.level2.extent.pair(), descriptor.level3.extent.pair()];
    let mut in_level3: Vec<Extent> = descriptor.hash_levels[..3].iter().map(|level| level.extent).collect();
    match descriptor.external {
        Some(offset) => in_partition.push(Extent { offset: offset.into(), size: data.extent.size }),
        None => in_level3.push(data.extent),
    }
    // Entries of the master hash and of IVFC levels 1 to 3, each for the blocks of the next level.
    let mut entries = vec![descriptor.master.size / ENTRY];
    entries.extend(descriptor.hash_levels[..3].iter().map(|level| level.extent.size / ENTRY));

    in_partition.iter().all(|extent| extent.lies_in(partition_size))
        && pairwise_disjoint(&in_partition)
        && in_level3.iter().all(|extent| extent.lies_in(descriptor.level3.extent.size))
        && pairwise_disjoint(&in_level3)
        && 8 * descriptor.level1.size >= descriptor.level2.blocks()
        && 8 * descriptor.level2.extent.size >= descriptor.level3.blocks()
        && entries.iter().zip(&descriptor.hash_levels).all(|(entries, level)| *entries >= level.blocks())
}
