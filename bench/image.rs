//! The images: a DIFF, and a DISA with one partition, with everything live in the first copies, made in memory.

use crate::plain_sha256::FORMS;
use crate::rules::descriptor::{
    DIFI_OPENING, DIFI_SIZE, DPFS_LEVELS, DPFS_OPENING, DPFS_SIZE, ENTRY, IVFC_LEVELS, IVFC_OPENING, IVFC_SIZE,
    MASTER_SIZE,
};
use crate::rules::header::{Kind, DIFF_OPENING, DISA_OPENING, HEADER};

/// A block of level 4.
pub const BLOCK: usize = 1 << USUAL.ivfc[3];

/// The logarithms of IVFC levels 1 to 4 and of DPFS levels 2 and 3.
pub struct Logs {
    ivfc: [usize; 4],
    dpfs: [usize; 2],
}

pub const USUAL: Logs = Logs { ivfc: [9, 9, 12, 12], dpfs: [7, 12] };
/// The smallest blocks, but for the two levels that must lead up to a master hash of one entry.
pub const SMALLEST: Logs = Logs { ivfc: [16, 16, 5, 5], dpfs: [2, 5] };

/// Where the tables and the partition lie in the image, and the pieces in a table.
const SECONDARY: usize = 0x200;
const PRIMARY: usize = 0x400;
const PARTITION: usize = 0x1000;
const IVFC: usize = DIFI_SIZE as usize;
const DPFS: usize = IVFC + IVFC_SIZE as usize;
const MASTER: usize = DPFS + DPFS_SIZE as usize;
pub const TABLE_SIZE: usize = MASTER + MASTER_SIZE as usize;

/// A level's offset and size.
type Place = (usize, usize);

/// Where everything lies in an image of so many blocks of level 4.
struct Layout<'a> {
    logs: &'a Logs,
    /// IVFC levels 1 to 4 in DPFS level 3.
    hash_levels: [Place; 4],
    /// One half of DPFS levels 1 to 3 in the partition.
    levels: [Place; 3],
}

impl Layout<'_> {
    fn of(logs: &Logs, blocks: usize) -> Layout<'_> {
        let [level2_log, level3_log] = logs.dpfs;
        let entries = |size: usize, log: usize| size.div_ceil(1 << log) * ENTRY as usize;
        let size4 = blocks << logs.ivfc[3];
        let size3 = entries(size4, logs.ivfc[3]);
        let size2 = entries(size3, logs.ivfc[2]);
        let size1 = entries(size2, logs.ivfc[1]);
        let place4 = (size1 + size2 + size3).next_multiple_of(1 << logs.ivfc[3]);
        let half3 = place4 + size4;
        let half2 = half3.div_ceil(8 << level3_log).next_multiple_of(1 << level2_log);
        let half1 = half2.div_ceil(8 << level2_log).next_multiple_of(4);
        let start3 = (2 * half1 + 2 * half2).next_multiple_of(1 << level3_log);
        Layout {
            logs,
            hash_levels: [(0, size1), (size1, size2), (size1 + size2, size3), (place4, size4)],
            levels: [(0, half1), (2 * half1, half2), (start3, half3)],
        }
    }

    fn image_length(&self) -> usize {
        let (start, half) = self.levels[2];
        PARTITION + start + 2 * half
    }
}

/// How many blocks of level 4 the largest image has that is no longer than this.
pub fn blocks_within(logs: &Logs, length: usize) -> usize {
    (1..).take_while(|blocks| Layout::of(logs, *blocks).image_length() <= length).last().expect("one block fits")
}

/// Bytes that look random and are the same in every run.
pub fn filled(length: usize, seed: u64) -> Vec<u8> {
    let mut state = seed;
    let mut next = || {
        state = state.wrapping_mul(6364136223846793005).wrapping_add(1442695040888963407);
        (state >> 56) as u8
    };
    (0..length).map(|_| next()).collect()
}

/// A DIFF whose level 4 holds the data: whole blocks, all of them verified.
pub fn image_of(logs: &Logs, data: &[u8]) -> Vec<u8> {
    image_as(Kind::Diff, logs, data)
}

/// The same as a DISA of one partition.
pub fn save_of(data: &[u8]) -> Vec<u8> {
    image_as(Kind::Disa, &USUAL, data)
}

fn image_as(kind: Kind, logs: &Logs, data: &[u8]) -> Vec<u8> {
    let layout = Layout::of(logs, data.len() >> logs.ivfc[3]);
    let mut image = vec![0; layout.image_length()];
    let level3 = entries(data, logs.ivfc[3]);
    let level2 = entries(&level3, logs.ivfc[2]);
    let level1 = entries(&level2, logs.ivfc[1]);
    let inner = PARTITION + layout.levels[2].0;
    for ((offset, _), bytes) in layout.hash_levels.iter().zip([&level1[..], &level2, &level3, data]) {
        put(&mut image, inner + offset, bytes);
    }
    put_table(&mut image, &layout);
    put(&mut image, PRIMARY + MASTER, &entries(&level1, logs.ivfc[0]));
    put_header(&mut image, kind);
    image
}

/// The same with a byte changed in every hash block, so that none of them is verified.
pub fn fresh_of(logs: &Logs, data: &[u8]) -> Vec<u8> {
    let mut image = image_of(logs, data);
    let layout = Layout::of(logs, data.len() >> logs.ivfc[3]);
    for (level, log) in layout.hash_levels[..3].iter().zip(logs.ivfc) {
        let start = PARTITION + layout.levels[2].0 + level.0;
        image[start..start + level.1].chunks_mut(1 << log).for_each(|block| block[0] ^= 1);
    }
    image
}

/// The same with a byte changed in every second hash block of level 3.
pub fn damaged_of(logs: &Logs, data: &[u8]) -> Vec<u8> {
    let mut image = image_of(logs, data);
    let layout = Layout::of(logs, data.len() >> logs.ivfc[3]);
    let (offset, size) = layout.hash_levels[2];
    let start = PARTITION + layout.levels[2].0 + offset;
    for block in image[start..start + size].chunks_mut(2 << logs.ivfc[2]) {
        block[0] ^= 1;
    }
    image
}

/// The entries of a level's blocks, the last of which is followed by zeros.
fn entries(level: &[u8], log: usize) -> Vec<u8> {
    let padded = |block: &[u8]| {
        let mut bytes = block.to_vec();
        bytes.resize(1 << log, 0);
        FORMS[0](&bytes)
    };
    level.chunks(1 << log).flat_map(padded).collect()
}

pub fn put(image: &mut [u8], at: usize, bytes: &[u8]) {
    image[at..at + bytes.len()].copy_from_slice(bytes);
}

fn put_numbers(image: &mut [u8], at: usize, numbers: &[usize]) {
    for (index, number) in numbers.iter().enumerate() {
        put(image, at + 8 * index, &(*number as u64).to_le_bytes());
    }
}

/// The primary table but for its master hash.
fn put_table(image: &mut [u8], layout: &Layout) {
    put(image, PRIMARY, DIFI_OPENING);
    let pieces = [IVFC, IVFC_SIZE as usize, DPFS, DPFS_SIZE as usize, MASTER, MASTER_SIZE as usize];
    put_numbers(image, PRIMARY + 0x08, &pieces);
    put(image, PRIMARY + IVFC, IVFC_OPENING);
    put_numbers(image, PRIMARY + IVFC + 0x08, &[MASTER_SIZE as usize]);
    for ((at, (offset, size)), log) in IVFC_LEVELS.iter().zip(layout.hash_levels).zip(layout.logs.ivfc) {
        put_numbers(image, PRIMARY + IVFC + at, &[offset, size, log]);
    }
    put(image, PRIMARY + DPFS, DPFS_OPENING);
    let [level2_log, level3_log] = layout.logs.dpfs;
    for ((at, (offset, size)), log) in DPFS_LEVELS.iter().zip(layout.levels).zip([0, level2_log, level3_log]) {
        put_numbers(image, PRIMARY + DPFS + at, &[offset, size, log]);
    }
}

/// The header, once the primary table is there: that one is active.
fn put_header(image: &mut [u8], kind: Kind) {
    let partition_size = image.len() - PARTITION;
    match kind {
        Kind::Diff => {
            put(image, HEADER, DIFF_OPENING);
            put_numbers(image, HEADER + 0x08, &[SECONDARY, PRIMARY, TABLE_SIZE, PARTITION, partition_size]);
        }
        Kind::Disa => {
            put(image, HEADER, DISA_OPENING);
            put_numbers(image, HEADER + 0x08, &[1, SECONDARY, PRIMARY, TABLE_SIZE, 0, TABLE_SIZE]);
            put_numbers(image, HEADER + 0x48, &[PARTITION, partition_size]);
        }
    }
    let hash = FORMS[0](&image[PRIMARY..PRIMARY + TABLE_SIZE]);
    put(image, HEADER + kind.hash_place(), &hash);
}
