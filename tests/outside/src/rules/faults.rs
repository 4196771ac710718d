//! The fault list: every block of levels 1 to 4 that is not verified in the committed view.

use super::dpfs::View;
use super::opening::open;
use super::refusal::Refusal;

/// One block that is not verified. Partition A is 0, B is 1; levels count from 1, blocks from 0.
#[derive(Clone, Copy, Debug, PartialEq, Eq, PartialOrd, Ord)]
#[repr(C)]
pub struct FaultRecord {
    pub partition: u64,
    pub level: u64,
    pub block: u64,
}

/// All faults: by partition, then by level, then by block. Hash blocks above no block are blocks too.
pub fn faults(image: &[u8]) -> Result<Vec<FaultRecord>, Refusal> {
    let opened = open(image)?;
    let mut list = Vec::new();
    for (number, partition) in opened.partitions.iter().enumerate() {
        let view = View::committed(image, &opened, partition);
        for level in 1..=4 {
            let blocks = (0..).zip(view.verified_blocks(level));
            let bad = blocks.filter(|(_, verified)| !verified);
            list.extend(bad.map(|(block, _)| FaultRecord { partition: number as u64, level: level as u64, block }));
        }
    }
    Ok(list)
}

/// Fills a row with the first faults, and leaves what is behind the last one; answers how many there are in all.
pub fn fill_row(image: &[u8], row: &mut [FaultRecord]) -> Result<u64, Refusal> {
    let list = faults(image)?;
    let fitting = list.len().min(row.len());
    row[..fitting].copy_from_slice(&list[..fitting]);
    Ok(list.len() as u64)
}
