//! Rows of blocks that a library may hash side by side: eight whole blocks of level 4, each at least as long as a block
//! of SHA-256, in one piece of the image. A run tells how often calls met one.

use super::call::Call;
use crate::rules::dpfs::View;
use crate::rules::extent::Extent;
use crate::rules::opening::Opened;

const ROW: u128 = 8;
const SHA256_BLOCK: u128 = 64;

/// An accepted call that reads, counts or writes a row.
pub fn touches_row(call: &Call, image: &[u8], opened: &Opened) -> bool {
    let (partition, range) = match call {
        Call::ReadCommitted { partition, place, length } | Call::ReadStaged { partition, place, length } => {
            (*partition, Some(Extent::new(*place, *length as u64)))
        }
        Call::Write { partition, place, data } => (*partition, Some(Extent::new(*place, data.len() as u64))),
        Call::CountVerified { partition } => (*partition, None),
        _ => return false,
    };
    let partition = &opened.partitions[partition as usize];
    let view = match call {
        Call::ReadStaged { .. } | Call::Write { .. } => View::staged(image, opened, partition),
        _ => View::committed(image, opened, partition),
    };
    has_row(&view, range.unwrap_or(Extent { offset: 0, size: view.data_size() }))
}

/// Whether the blocks that a range of level 4 touches have such a row among them.
fn has_row(view: &View, range: Extent) -> bool {
    let level = view.partition.descriptor.hash_level(4);
    let unit = level.block_size();
    if unit < SHA256_BLOCK || range.size == 0 {
        return false;
    }
    let end = ((range.end() - 1) / unit + 1).min(level.extent.size / unit);
    (range.offset / unit..)
        .take_while(|first| first + ROW <= end)
        .any(|first| in_one_piece(view, first * unit, ROW * unit))
}

fn in_one_piece(view: &View, place: u128, length: u128) -> bool {
    let descriptor = &view.partition.descriptor;
    let from = descriptor.hash_level(4).extent.offset + place;
    let unit = descriptor.level3.block_size();
    let mut blocks = from / unit..=(from + length - 1) / unit;
    descriptor.external.is_some() || blocks.all(|block| view.level3_copy(block) == view.level3_copy(from / unit))
}
