//! Every single store of the library, seen while it runs: calls are prepared beforehand, made again under valgrind's lackey, which writes down each
//! memory access, and what it wrote down is judged. A store that is undone before its call ends is seen too.

pub mod judge;
pub mod prepare;
#[cfg(feature = "gateway")]
pub mod replay;

/// Where the replaying program has its marks and its images: at a fixed address, so that a trace can be read by itself.
pub const REGION: u64 = 0x20_0000_0000;
/// A store to this address says that a call begins, one to the other that it has ended.
pub const BEGINS: u64 = REGION;
pub const ENDS: u64 = REGION + 8;
const IMAGES: u64 = REGION + 0x1000;
/// The room for one image.
pub const ROOM: usize = 0x10_0000;
/// Where the region ends.
pub const REGION_END: u64 = IMAGES + ALIGNMENTS + ROOM as u64;
const ALIGNMENTS: u64 = 64;

/// Where the image of a call lies: calls differ in how it is aligned.
pub fn image_address(number: usize) -> u64 {
    IMAGES + number as u64 % ALIGNMENTS
}
