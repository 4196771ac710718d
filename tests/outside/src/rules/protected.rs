//! The bytes that no call but commit may change, apart from what a write changes in place.

use super::dpfs::View;
use super::opening::Opened;

/// For each byte of the image, whether calls other than commit may change it. Free are the inactive table, the other
/// half of each level 1, and the copies of level 2 and level 3 blocks that are not live; all else is protected: the
/// first 0x200 bytes, the active table, live halves and copies, external level 4 (but for the range that a write is
/// given), and space that no field names.
pub fn free_bytes(image: &[u8], opened: &Opened) -> Vec<bool> {
    let mut free = vec![false; image.len()];
    let mut mark = |position: u128| free[position as usize] = true;
    let inactive = opened.header.inactive_table();
    (inactive.offset..inactive.end()).for_each(&mut mark);
    for partition in &opened.partitions {
        let view = View::committed(image, opened, partition);
        let area = partition.place.area.offset;
        let descriptor = &partition.descriptor;

        let half = descriptor.level1;
        let other = area + half.offset + (1 - view.selector) * half.size;
        (other..other + half.size).for_each(&mut mark);

        let level = descriptor.level2;
        for place in 0..level.extent.size {
            let live = view.level2_copy(place / level.block_size());
            mark(area + level.extent.offset + (1 - live) * level.extent.size + place);
        }
        let level = descriptor.level3;
        for block in 0..level.blocks() {
            let live = view.level3_copy(block);
            let own = level.block_extent(block);
            let other = area + level.extent.offset + (1 - live) * level.extent.size;
            (other + own.offset..other + own.end()).for_each(&mut mark);
        }
    }
    free
}
