//! Chooses where everything lies in a valid image: sizes, logarithms, orders and gaps.

use super::random::Random;
use crate::rules::descriptor::{Descriptor, Level, DIFI_SIZE, DPFS_SIZE, ENTRY, IVFC_SIZE, MOST_MASTER_ENTRIES};
use crate::rules::extent::Extent;
use crate::rules::header::{Header, Kind, PartitionPlace, FRONT, LARGEST_TABLE};
use crate::rules::opening::{Opened, Partition};

/// Properties asked of an image; whatever is `None` is left to chance.
#[derive(Clone, Debug, Default)]
pub struct Wanted {
    pub kind: Option<Kind>,
    pub count: Option<u64>,
    pub flag: Option<u64>,
    pub external: Option<bool>,
    /// Level 4's size and logarithm.
    pub data: Option<(u64, u64)>,
    /// The table's size, if its descriptors leave room.
    pub table_size: Option<u64>,
    /// How many entries the master hash has.
    pub master_entries: Option<u64>,
    /// Leftovers in the padding behind each logarithm.
    pub leftovers: Option<bool>,
    /// Each level 4's bytes; `data` must have their number.
    pub contents: Option<Vec<u8>>,
    /// Up to so many spare entries and spare words of bits.
    pub spare: Option<u64>,
    /// As small as can be: no gaps, no spare entries, everything in the printed order.
    pub tight: bool,
    /// Every block is verified.
    pub all_verified: bool,
    /// As a console leaves it: ground that was never written, or only in part.
    pub fresh: Option<bool>,
    /// No bit to spare: DPFS level 2 has a block for each bit of a half of level 1, and level 3 one for each bit of a half of
    /// level 2; both have room for one block more. Level 4 must be small enough for the level 3 that comes of it.
    pub full_bits: bool,
}

/// Everything that opening will say of the image, and the image's length.
pub fn choose(random: &mut Random, wanted: &Wanted) -> (Opened, usize) {
    let kind = wanted.kind.unwrap_or_else(|| random.pick(&[Kind::Disa, Kind::Disa, Kind::Diff]));
    let count = match kind {
        Kind::Disa => wanted.count.unwrap_or_else(|| random.between(1, 2)),
        Kind::Diff => 1,
    };
    let mut gaps = Gaps::choose(random, wanted);
    let drafts: Vec<Draft> = (0..count).map(|_| draft_partition(random, &mut gaps, wanted)).collect();

    // Descriptors in the table; a DIFF's is the whole table.
    let (mut descriptors, end) =
        gaps.lay_out(random, 0, &drafts.iter().map(|draft| draft.descriptor_size).collect::<Vec<_>>());
    let least = if wanted.tight { 0 } else { choose_table_size(random) };
    let table_size = end.max(wanted.table_size.map_or(least, u128::from));
    if kind == Kind::Diff {
        descriptors = vec![Extent { offset: 0, size: table_size }];
    }

    let mut sizes = vec![table_size, table_size];
    sizes.extend(drafts.iter().map(|draft| draft.area_size));
    let (in_image, length) = gaps.lay_out(random, FRONT, &sizes);

    let partitions: Vec<Partition> = drafts
        .into_iter()
        .zip(descriptors.into_iter().zip(&in_image[2..]))
        .map(|(draft, (descriptor, area))| Partition {
            place: PartitionPlace { descriptor, area: *area },
            descriptor: draft.descriptor,
        })
        .collect();
    let header = Header {
        kind,
        flag: wanted.flag.unwrap_or_else(|| random.below(2)),
        secondary: in_image[0],
        primary: in_image[1],
        partitions: partitions.iter().map(|partition| partition.place).collect(),
    };
    (Opened { header, partitions }, length as usize)
}

/// The least size of a table: mostly what its descriptors need, now and then a large one or the largest.
fn choose_table_size(random: &mut Random) -> u128 {
    match random.below(100) {
        0..=1 => LARGEST_TABLE,
        2..=4 => random.between(0x1000, LARGEST_TABLE as u64).into(),
        _ => 0,
    }
}

/// A tight image's blocks of DPFS level 3: so large that few bits do.
const TIGHT_LEVEL3_LOG: u64 = 12;

/// How an image spends space between things.
struct Gaps {
    tight: bool,
    percent: u64,
    largest: u64,
}

impl Gaps {
    fn choose(random: &mut Random, wanted: &Wanted) -> Gaps {
        Gaps { tight: wanted.tight, percent: random.pick(&[0, 30, 60, 100]), largest: random.pick(&[1, 7, 40]) }
    }

    fn next(&mut self, random: &mut Random) -> u128 {
        if !self.tight && random.chance(self.percent) {
            random.between(1, self.largest).into()
        } else {
            0
        }
    }

    /// Places things of the given sizes from `start` on, in any order and with gaps before, between and after them.
    fn lay_out(&mut self, random: &mut Random, start: u128, sizes: &[u128]) -> (Vec<Extent>, u128) {
        let mut order: Vec<usize> = (0..sizes.len()).collect();
        if !self.tight {
            random.shuffle(&mut order);
        }
        let mut extents = vec![Extent { offset: 0, size: 0 }; sizes.len()];
        let mut place = start;
        for index in order {
            place += self.next(random);
            extents[index] = Extent { offset: place, size: sizes[index] };
            place += sizes[index];
        }
        (extents, place + self.next(random))
    }
}

/// A partition whose descriptor and area have no place yet.
struct Draft {
    descriptor: Descriptor,
    descriptor_size: u128,
    area_size: u128,
}

fn draft_partition(random: &mut Random, gaps: &mut Gaps, wanted: &Wanted) -> Draft {
    let external = wanted.external.unwrap_or_else(|| random.chance(30));
    let master_entries = match wanted.master_entries {
        Some(entries) => entries.into(),
        None if wanted.tight => 1,
        None => choose_master_entries(random),
    };
    let mut hash_levels = choose_hash_levels(random, wanted, master_entries);
    let inside = if external { 3 } else { 4 };
    let bits = place_inside_level3(random, gaps, wanted, &mut hash_levels[..inside]);
    let external_size = external.then_some(hash_levels[3].extent.size);
    let (pairs, area_size) = lay_out_area(random, gaps, wanted, &bits, external_size);
    let half = |index: usize, size: u128| Extent { offset: pairs[index].offset, size };
    // The pieces behind DIFI in the descriptor.
    let (pieces, descriptor_size) = gaps.lay_out(random, DIFI_SIZE, &[IVFC_SIZE, DPFS_SIZE, ENTRY * master_entries]);
    Draft {
        descriptor: Descriptor {
            ivfc: pieces[0],
            dpfs: pieces[1],
            master: pieces[2],
            selector: if wanted.tight { 0 } else { random.below(2) },
            external: external.then(|| pairs[3].offset as u64),
            hash_levels,
            level1: half(0, bits.level1),
            level2: Level { extent: half(1, bits.level2.0), log: bits.level2.1 },
            level3: Level { extent: half(2, bits.level3.0), log: bits.level3.1 },
        },
        descriptor_size,
        area_size,
    }
}

/// Places the IVFC levels that are inside DPFS level 3, and chooses DPFS levels around them.
fn place_inside_level3(random: &mut Random, gaps: &mut Gaps, wanted: &Wanted, inside: &mut [Level]) -> BitLevels {
    let sizes: Vec<u128> = inside.iter().map(|level| level.extent.size).collect();
    let (extents, level3_size) = gaps.lay_out(random, 0, &sizes);
    inside.iter_mut().zip(extents).for_each(|(level, extent)| level.extent = extent);
    if !wanted.full_bits {
        return spacious_bits(random, wanted, level3_size);
    }
    let bits = full_bits(random);
    let rest = bits.level3.0.checked_sub(level3_size).expect("level 4 is small enough");
    inside.iter_mut().for_each(|level| level.extent.offset += rest);
    bits
}

/// Lays out the three pairs and an external level 4 in the partition: their places, and the partition's size.
fn lay_out_area(
    random: &mut Random,
    gaps: &mut Gaps,
    wanted: &Wanted,
    bits: &BitLevels,
    external_size: Option<u128>,
) -> (Vec<Extent>, u128) {
    // Where no bit is to spare there is room for one block more, so that one too many is refused for its bit and not for its place.
    let room = |log: u64| if wanted.full_bits { 1 << log } else { 0 };
    let pair = |(size, log): (u128, u64)| 2 * (size + room(log));
    let mut sizes = vec![2 * bits.level1, pair(bits.level2), pair(bits.level3)];
    sizes.extend(external_size);
    gaps.lay_out(random, 0, &sizes)
}

/// The sizes of DPFS levels 1 to 3, and the logarithms of the last two.
struct BitLevels {
    level1: u128,
    level2: (u128, u64),
    level3: (u128, u64),
}

/// Levels around a level 3 of that size, with spare bits now and then.
fn spacious_bits(random: &mut Random, wanted: &Wanted, level3_size: u128) -> BitLevels {
    let level3_log = if wanted.tight { TIGHT_LEVEL3_LOG } else { choose_log(random, wanted, 5) };
    let level2_size = bits_for(random, wanted, level3_size.div_ceil(1 << level3_log));
    let level2_log = choose_log(random, wanted, 2);
    let level1_size = bits_for(random, wanted, level2_size.div_ceil(1 << level2_log));
    BitLevels { level1: level1_size, level2: (level2_size, level2_log), level3: (level3_size, level3_log) }
}

/// Small levels of which every bit names a block.
fn full_bits(random: &mut Random) -> BitLevels {
    let level1 = 4;
    let level2_log = random.between(2, 3);
    let level2 = size_of_blocks(random, 8 * level1, level2_log, 4);
    let level3_log = 5;
    let level3 = size_of_blocks(random, 8 * level2, level3_log, 1);
    BitLevels { level1, level2: (level2, level2_log), level3: (level3, level3_log) }
}

/// The size, a multiple of `unit`, of a level with exactly so many blocks; the last one may be short.
fn size_of_blocks(random: &mut Random, blocks: u128, log: u64, unit: u64) -> u128 {
    (blocks - 1) * (1 << log) + u128::from(unit * random.between(1, (1 << log) / unit))
}

/// Half of the time one entry, else up to the most.
fn choose_master_entries(random: &mut Random) -> u128 {
    let most = MOST_MASTER_ENTRIES as u64;
    match random.below(20) {
        0..=9 => 1,
        10..=14 => random.between(2, 8).into(),
        15..=17 => random.between(2, most).into(),
        18 => (most - 1).into(),
        _ => most.into(),
    }
}

/// Sizes and logarithms of IVFC levels 1 to 4, from level 4 upwards. The offsets come later.
fn choose_hash_levels(random: &mut Random, wanted: &Wanted, master_entries: u128) -> [Level; 4] {
    let unplaced = |size: u128, log: u64| Level { extent: Extent { offset: 0, size }, log };
    // With few entries in a block the levels stay long, so that level 1 has several blocks above data.
    let slender = master_entries > 1 && random.chance(60);
    let hash_log = |random: &mut Random| if slender { 5 } else { choose_log(random, wanted, 5) };
    let (data_size, data_log) =
        wanted.data.unwrap_or_else(|| (choose_data_size(random), choose_log(random, wanted, 5)));
    let level4 = unplaced(data_size.into(), data_log);
    let level3 = unplaced(entries_for(random, wanted, level4.blocks()), hash_log(random));
    // Level 1's blocks have at most 2^16 bytes and an entry each, so level 2 must not have too many blocks.
    let level2_size = entries_for(random, wanted, level3.blocks());
    let mut level2 = unplaced(level2_size, hash_log(random));
    while level2.blocks() * ENTRY > master_entries << 16 {
        level2.log += 1;
    }
    let mut level1_log = hash_log(random);
    while level2.blocks() * ENTRY > master_entries << level1_log {
        level1_log += 1;
    }
    let level1_size = entries_for(random, wanted, level2.blocks()).min(master_entries << level1_log);
    [unplaced(level1_size, level1_log), level2, level3, level4]
}

/// Mostly a handful of blocks; now and then a lot.
fn choose_data_size(random: &mut Random) -> u64 {
    match random.below(100) {
        0..=9 => random.between(1, 40),
        10..=64 => random.between(1, 400),
        65..=97 => random.between(300, 5000),
        _ => random.between(4000, 70000),
    }
}

/// A logarithm from `lowest` to 16, mostly a small one.
fn choose_log(random: &mut Random, wanted: &Wanted, lowest: u64) -> u64 {
    if wanted.tight {
        5
    } else if random.chance(85) {
        random.between(lowest, 8)
    } else {
        random.between(lowest, 16)
    }
}

/// The size of a level that holds so many entries, with spare ones now and then.
fn entries_for(random: &mut Random, wanted: &Wanted, entries: u128) -> u128 {
    ENTRY * (entries + spare(random, wanted))
}

/// The size of a half that has so many bits: whole words, with spare ones now and then.
fn bits_for(random: &mut Random, wanted: &Wanted, bits: u128) -> u128 {
    4 * (bits.div_ceil(32) + spare(random, wanted))
}

fn spare(random: &mut Random, wanted: &Wanted) -> u128 {
    let most = wanted.spare.unwrap_or(if random.chance(2) { 100 } else { 5 });
    if wanted.tight || random.chance(60) {
        0
    } else {
        random.between(1, most).into()
    }
}
