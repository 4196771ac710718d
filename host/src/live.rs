//! Which copies of an image's pairs are live, and which bytes are free.
//!
//! Each DPFS level is there twice. The selector names the live half of level 1; its bit n names the live copy of level
//! 2's block n; and bit n of live level 2 names the live copy of level 3's block n. All else of a pair is free: a
//! session stages its changes there.

use crate::{Description, Extent, Image, Level, PartitionLayout, Refusal};

/// The live copies of one partition of an image.
///
/// ```
/// use teplovist::{Image, Kind, Live, Partition, Refusal, Session};
///
/// /// The live copy of the DPFS block in which level 4 starts.
/// fn live_copy(image: &Image<Vec<u8>>) -> Result<u8, Refusal> {
///     let layout = image.open()?.a;
///     let block = layout.level4().offset / layout.dpfs_level3.block_size();
///     Ok(Live::new(image.bytes(), &layout).level3(block))
/// }
///
/// let mut image = Image::blank(Kind::Disa, 1)?;
/// let before = live_copy(&image)?;
/// let mut session = Session::new();
/// image.begin(&mut session)?;
/// image.write(&mut session, Partition::A, 0, b"staged in the other copy")?;
/// assert_eq!(live_copy(&image)?, before);
/// image.commit(&mut session)?;
/// assert_eq!(live_copy(&image)?, 1 - before);
/// # Ok::<(), Refusal>(())
/// ```
#[derive(Clone, Copy, Debug)]
pub struct Live<'a> {
    /// The partition's bytes.
    bytes: &'a [u8],
    layout: &'a PartitionLayout,
}

impl<'a> Live<'a> {
    /// `layout` is what opening these bytes told of the partition.
    pub fn new(image: &'a [u8], layout: &'a PartitionLayout) -> Live<'a> {
        let Extent { offset, size } = layout.partition;
        Live { bytes: &image[offset as usize..(offset + size) as usize], layout }
    }

    /// The live half of level 1: 0 or 1.
    pub fn level1(&self) -> u8 {
        self.layout.selector
    }

    /// The live copy of a block of level 2: 0 or 1.
    pub fn level2(&self, block: u64) -> u8 {
        let half = self.layout.dpfs_level1;
        bit(self.bytes, half.offset + u64::from(self.level1()) * half.size, block)
    }

    /// The live copy of a block of level 3: 0 or 1. Its bit lies in the live copy of a level 2 block.
    pub fn level3(&self, block: u64) -> u8 {
        let level = self.layout.dpfs_level2;
        let copy = self.level2(block / 8 / level.block_size());
        bit(self.bytes, level.offset + u64::from(copy) * level.size, block)
    }

    /// The copies that are free, from the image's start: the other half of level 1, and the other copy of each block of
    /// levels 2 and 3.
    pub fn free(&self) -> impl Iterator<Item = Extent> + '_ {
        let layout = self.layout;
        let (level1, level2, level3) = (layout.dpfs_level1, layout.dpfs_level2, layout.dpfs_level3);
        let half = level1.shifted(u64::from(1 - self.level1()) * level1.size);
        let second = (0..level2.blocks()).map(move |block| copy_of(level2, block, 1 - self.level2(block)));
        let third = (0..level3.blocks()).map(move |block| copy_of(level3, block, 1 - self.level3(block)));
        std::iter::once(half).chain(second).chain(third).map(|extent| extent.shifted(layout.partition.offset))
    }
}

/// One of the two copies of a block, from the partition's start.
fn copy_of(level: Level, block: u64, copy: u8) -> Extent {
    level.block(block).shifted(level.offset + u64::from(copy) * level.size)
}

/// Bit n of a half that starts at a place: bit 31 - n mod 32 of its little-endian 32-bit word n / 32.
fn bit(bytes: &[u8], start: u64, n: u64) -> u8 {
    let word = (n / 32) * 4;
    let place = (start + word + 3 - n % 32 / 8) as usize;
    bytes[place] >> (7 - n % 8) & 1
}

/// Every range of an image that is free: nothing committed rests on its bytes, whatever they are. These are the
/// inactive table and the copies of each partition that are not live.
///
/// ```
/// use teplovist::{free_ranges, Image, Kind};
///
/// let mut bytes = Image::blank(Kind::Disa, 1)?.into_inner();
/// let before = Image::new(&bytes).open()?;
/// for range in free_ranges(&Image::new(&bytes))? {
///     bytes[range.offset as usize..range.end() as usize].fill(0xAA);
/// }
/// let image = Image::new(bytes);
/// assert_eq!(image.open()?, before);
/// assert!(image.faults()?.is_empty());
/// # Ok::<(), teplovist::Refusal>(())
/// ```
pub fn free_ranges<B: AsRef<[u8]>>(image: &Image<B>) -> Result<Vec<Extent>, Refusal> {
    let description: Description = image.open()?;
    let mut free = vec![description.inactive_extent()];
    for (_, layout) in description.partitions() {
        free.extend(Live::new(image.bytes(), layout).free());
    }
    Ok(free)
}

#[cfg(test)]
mod tests {
    use super::*;

    /// The paper's examples P1 to P4: the byte and the mask of a bit.
    #[test]
    fn bits_count_from_the_top_of_little_endian_words() {
        for (n, byte, mask) in [(0, 3, 0x80), (31, 0, 0x01), (32, 7, 0x80), (0x1234, 0x245, 0x08)] {
            let mut half = [0; 0x300];
            half[byte] = mask;
            assert_eq!(bit(&half, 0, n), 1);
            assert_eq!(bit(&[&[0; 5][..], &half].concat(), 5, n), 1);
            half[byte] = !mask;
            assert_eq!(bit(&half, 0, n), 0);
        }
    }
}
