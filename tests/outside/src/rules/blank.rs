//! Blank images: one partition with internal level 4, all zero, and every block verified.

use super::compression::Digest;
use super::descriptor::{
    DIFI_OPENING, DPFS_LEVELS, DPFS_OPENING, DPFS_SIZE, ENTRY, IVFC_LEVELS, IVFC_OPENING, IVFC_SIZE, MASTER_SIZE,
};
use super::extent::Extent;
use super::header::{Kind, DIFF_OPENING, DISA_OPENING, HEADER};
use super::refusal::Refusal;
use super::sha256::sha256;

/// Level 4 has one to so many blocks.
pub const MOST_BLOCKS: u64 = 4096;

/// In the image: the two tables, of which the primary is active, and the partition.
const SECONDARY: u128 = 0x200;
const PRIMARY: u128 = 0x330;
const TABLE_SIZE: u128 = 0x12C;
const PARTITION: u128 = 0x1000;

/// In a table: the pieces behind DIFI.
const IVFC: u128 = 0x44;
const DPFS: u128 = 0xBC;
const MASTER: u128 = 0x10C;

/// The field of IVFC that opening does not judge.
const IVFC_LAST_FIELD: usize = 0x70;

const IVFC_LOGS: [u32; 4] = [9, 9, 12, 12];
/// DPFS level 1's is not read, and 0.
const DPFS_LOGS: [u32; 3] = [0, 7, 12];

/// Where level 4 and DPFS level 3 may start.
const PAGE: u128 = 0x1000;

/// Where the levels of an image for some number of blocks lie.
struct Layout {
    /// IVFC levels 1 to 4, in DPFS level 3.
    ivfc: [Extent; 4],
    /// One half each of DPFS levels 1 to 3, in the partition.
    dpfs: [Extent; 3],
}

impl Layout {
    /// None if the number is out of range.
    fn of(blocks: u64) -> Option<Layout> {
        if !(1..=MOST_BLOCKS).contains(&blocks) {
            return None;
        }
        let data = PAGE * u128::from(blocks);
        let h3 = ENTRY * u128::from(blocks);
        let h2 = ENTRY * h3.div_ceil(0x1000);
        let h1 = ENTRY * h2.div_ceil(0x200);
        let data_place = (h1 + h2 + h3).next_multiple_of(PAGE);

        let level3 = data_place + data;
        let level2 = level3.div_ceil(1 << DPFS_LOGS[2]).div_ceil(8).next_multiple_of(0x80);
        let level1 = level2.div_ceil(1 << DPFS_LOGS[1]).div_ceil(8).next_multiple_of(4);
        let level3_place = (2 * level1 + 2 * level2).next_multiple_of(PAGE);
        let extents = |(offset, size)| Extent { offset, size };
        Some(Layout {
            ivfc: [(0, h1), (h1, h2), (h1 + h2, h3), (data_place, data)].map(extents),
            dpfs: [(0, level1), (2 * level1, level2), (level3_place, level3)].map(extents),
        })
    }

    /// The partition ends with level 3's pair.
    fn partition_size(&self) -> u128 {
        self.dpfs[2].pair().end()
    }

    /// The image ends with the partition.
    fn image_length(&self) -> u128 {
        PARTITION + self.partition_size()
    }
}

/// How long an image for so many blocks is; none if the number is out of range.
pub fn blank_length(blocks: u64) -> Option<u64> {
    Layout::of(blocks).map(|layout| layout.image_length() as u64)
}

/// Makes the lent image the blank one for so many blocks: 20, then 17, which leaves it all zero.
pub fn make_blank(image: &mut [u8], kind: Kind, blocks: u64) -> Result<(), Refusal> {
    make_blank_with(image, kind, blocks, sha256)
}

/// The same with any hash function. No message is known of which SHA-256 gives zeros, so only another shows 17.
fn make_blank_with(image: &mut [u8], kind: Kind, blocks: u64, hash: impl Fn(&[u8]) -> Digest) -> Result<(), Refusal> {
    let layout = Layout::of(blocks).ok_or(Refusal::BlankSize)?;
    if layout.image_length() != image.len() as u128 {
        return Err(Refusal::BlankSize);
    }
    image.fill(0);
    let made = fill(image, kind, blocks, &layout, |message| match hash(message) {
        digest if digest == [0; 32] => Err(Refusal::ZeroDigest),
        digest => Ok(digest),
    });
    if made.is_err() {
        image.fill(0);
    }
    made
}

/// Puts into zeros all that is not zero: the hash levels, the active table, the header.
fn fill(
    image: &mut [u8],
    kind: Kind,
    blocks: u64,
    layout: &Layout,
    hash: impl Fn(&[u8]) -> Result<Digest, Refusal>,
) -> Result<(), Refusal> {
    // Each level has an entry for each block of the next; those of level 4 are all alike.
    let level3 = hash(&[0; PAGE as usize])?.repeat(blocks as usize);
    let level2 = entries(&level3, IVFC_LOGS[2], &hash)?;
    let level1 = entries(&level2, IVFC_LOGS[1], &hash)?;
    let master = entries(&level1, IVFC_LOGS[0], &hash)?;
    // All bits are zero, so the first copies are live.
    let first_copies = PARTITION + layout.dpfs[2].offset;
    for (level, place) in [level1, level2, level3].iter().zip(layout.ivfc) {
        put(image, first_copies + place.offset, level);
    }
    let table = table(layout, &master);
    put(image, PRIMARY, &table);
    put_header(&mut image[HEADER..], kind, layout, &hash(&table)?);
    Ok(())
}

/// An entry for each block of a level; the last one is padded with zeros.
fn entries(level: &[u8], log: u32, hash: &impl Fn(&[u8]) -> Result<Digest, Refusal>) -> Result<Vec<u8>, Refusal> {
    let mut entries = Vec::new();
    for block in level.chunks(1 << log) {
        let mut padded = block.to_vec();
        padded.resize(1 << log, 0);
        entries.extend_from_slice(&hash(&padded)?);
    }
    Ok(entries)
}

/// The active table: one descriptor, its selector 0.
fn table(layout: &Layout, master: &[u8]) -> Vec<u8> {
    let mut table = vec![0; TABLE_SIZE as usize];
    put(&mut table, 0, DIFI_OPENING);
    for (place, offset, size) in [(0x08, IVFC, IVFC_SIZE), (0x18, DPFS, DPFS_SIZE), (0x28, MASTER, MASTER_SIZE)] {
        put_numbers(&mut table, place, &[offset, size]);
    }

    let ivfc = &mut table[IVFC as usize..];
    put(ivfc, 0, IVFC_OPENING);
    put_numbers(ivfc, 0x08, &[MASTER_SIZE]);
    for ((place, extent), log) in IVFC_LEVELS.into_iter().zip(layout.ivfc).zip(IVFC_LOGS) {
        put_numbers(ivfc, place, &[extent.offset, extent.size, log.into()]);
    }
    put_numbers(ivfc, IVFC_LAST_FIELD, &[IVFC_SIZE]);

    let dpfs = &mut table[DPFS as usize..];
    put(dpfs, 0, DPFS_OPENING);
    for ((place, extent), log) in DPFS_LEVELS.into_iter().zip(layout.dpfs).zip(DPFS_LOGS) {
        put_numbers(dpfs, place, &[extent.offset, extent.size, log.into()]);
    }
    put(&mut table, MASTER, master);
    table
}

/// The flag stays 0: the primary table is active.
fn put_header(header: &mut [u8], kind: Kind, layout: &Layout, table_hash: &Digest) {
    let partition = [PARTITION, layout.partition_size()];
    match kind {
        Kind::Disa => {
            put(header, 0, DISA_OPENING);
            put_numbers(header, 0x08, &[1]);
            put_numbers(header, 0x10, &[SECONDARY, PRIMARY, TABLE_SIZE]);
            put_numbers(header, 0x28, &[0, TABLE_SIZE]);
            put_numbers(header, 0x48, &partition);
        }
        Kind::Diff => {
            put(header, 0, DIFF_OPENING);
            put_numbers(header, 0x08, &[SECONDARY, PRIMARY, TABLE_SIZE]);
            put_numbers(header, 0x20, &partition);
        }
    }
    put(header, kind.hash_place() as u128, table_hash);
}

fn put(bytes: &mut [u8], place: u128, data: &[u8]) {
    let place = place as usize;
    bytes[place..place + data.len()].copy_from_slice(data);
}

/// Numbers of eight bytes, one after the other. A number of four bytes with zeros behind it is one too.
fn put_numbers(bytes: &mut [u8], place: usize, numbers: &[u128]) {
    for (field, number) in bytes[place..].chunks_exact_mut(8).zip(numbers) {
        field.copy_from_slice(&(*number as u64).to_le_bytes());
    }
}

#[cfg(test)]
mod tests {
    use super::*;
    use std::cell::RefCell;

    fn noise(blocks: u64) -> Vec<u8> {
        vec![0xA5; blank_length(blocks).expect("in range") as usize]
    }

    /// Whatever message has zeros for its digest: 17, and the image is all zero. With 2049 blocks each hash level but the
    /// first has several blocks.
    #[test]
    fn a_digest_of_zeros() {
        for kind in [Kind::Disa, Kind::Diff] {
            let messages = RefCell::new(Vec::new());
            let noted = |message: &[u8]| {
                messages.borrow_mut().push(message.to_vec());
                sha256(message)
            };
            let mut good = noise(2049);
            assert_eq!(make_blank_with(&mut good, kind, 2049, noted), Ok(()));
            let messages = messages.into_inner();
            // The zero block, 17 blocks of level 3, two of level 2, one of level 1, and the table.
            assert_eq!(messages.len(), 1 + 17 + 2 + 1 + 1);
            for chosen in &messages {
                let hash = |message: &[u8]| if message == chosen { [0; 32] } else { sha256(message) };
                let mut image = noise(2049);
                assert_eq!(make_blank_with(&mut image, kind, 2049, hash), Err(Refusal::ZeroDigest));
                assert!(image.iter().all(|byte| *byte == 0));
            }
            // Digests of messages that are not hashed are of no account.
            let hash = |message: &[u8]| if messages.iter().any(|m| m == message) { sha256(message) } else { [0; 32] };
            let mut image = noise(2049);
            assert_eq!(make_blank_with(&mut image, kind, 2049, hash), Ok(()));
            assert!(image == good);
        }
    }

    /// A digest that is zero but for one bit is none of all zero.
    #[test]
    fn a_digest_of_nearly_zeros() {
        for place in [0, 15, 31] {
            let hash = |_: &[u8]| std::array::from_fn(|index| u8::from(index == place));
            assert_eq!(make_blank_with(&mut noise(1), Kind::Disa, 1, hash), Ok(()));
        }
    }

    /// 20 is judged first, and leaves the image as it was.
    #[test]
    fn the_size_before_the_digests() {
        let zeros = |_: &[u8]| [0; 32];
        for (blocks, length) in [(0, 0x6000), (4097, 0x6000), (2, 0x6000), (1, 0x6001), (1, 0x5FFF)] {
            let mut image = vec![0xA5; length];
            assert_eq!(make_blank_with(&mut image, Kind::Diff, blocks, zeros), Err(Refusal::BlankSize));
            assert!(image.iter().all(|byte| *byte == 0xA5));
        }
    }
}
