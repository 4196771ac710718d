//! The C boundary of the proved library, as `include/teplovist.h` has it: that file says what each call answers, when
//! it refuses, and what a caller must keep to. The declarations stand here once; `tests/outside` and `bench` use them
//! too.
//!
//! Nobody needs this module to work with images: [`Image`](crate::Image) and the types beside it are safe.

/// An image is at most so long.
pub const MAX_IMAGE: usize = 0x400_0000;
/// The header's place in an image, and its length.
pub const HEADER: usize = 0x100;
pub const HEADER_SIZE: usize = 0x100;

pub const SESSION_SIZE: usize = 513;
pub const KEY_SIZE: usize = 16;
pub const SIGNER_LENGTH: usize = 4;
/// The longest block that is signed.
pub const BLOCK_SIZE: usize = 284;
pub const NAME_RECORD: usize = 24;
pub const NAME_SIZE: usize = 16;
pub const DIGEST_STATE_SIZE: usize = 104;
pub const DIGEST_SIZE: usize = 32;

/// A description's length, and the places of its numbers: first those of the header.
pub const DESCRIPTION_LENGTH: usize = 80;
pub const KIND: usize = 0;
pub const PARTITIONS: usize = 1;
pub const ACTIVE_TABLE: usize = 2;
pub const SECONDARY_OFFSET: usize = 3;
pub const PRIMARY_OFFSET: usize = 5;
/// Where the numbers of each partition begin.
pub const A: usize = 8;
pub const B: usize = 44;
/// The numbers of a partition, from its beginning on. Where only an offset is named, the size is the next number, and
/// after it, for a level, the logarithm of the block size.
pub const DESCRIPTOR_OFFSET: usize = 0;
pub const PARTITION_OFFSET: usize = 2;
pub const IVFC_OFFSET: usize = 4;
pub const DPFS_OFFSET: usize = 6;
pub const MASTER_HASH_OFFSET: usize = 8;
pub const EXTERNAL: usize = 10;
pub const SELECTOR: usize = 11;
pub const EXTERNAL_OFFSET: usize = 12;
pub const IVFC_LEVEL1_OFFSET: usize = 13;
pub const IVFC_LEVEL2_OFFSET: usize = 16;
pub const IVFC_LEVEL3_OFFSET: usize = 19;
pub const IVFC_LEVEL4_OFFSET: usize = 22;
pub const DPFS_LEVEL1_OFFSET: usize = 25;
pub const DPFS_LEVEL2_OFFSET: usize = 27;
pub const DPFS_LEVEL3_OFFSET: usize = 30;

/// A block that is not verified: its partition (0 is A and 1 is B), its level (1 to 4) and its number.
#[repr(C)]
#[derive(Clone, Copy, Debug, Default, PartialEq, Eq, PartialOrd, Ord, Hash)]
pub struct Fault {
    pub partition: u64,
    pub level: u64,
    pub block: u64,
}

extern "C" {
    pub fn teplovist_open(image: *const u8, image_length: usize, description: *mut u64) -> u64;
    pub fn teplovist_open_signed(
        image: *const u8,
        image_length: usize,
        key: *const u8,
        signer: *const u64,
        description: *mut u64,
    ) -> u64;
    pub fn teplovist_read_committed(
        image: *const u8,
        image_length: usize,
        partition: u64,
        place: u64,
        buffer: *mut u8,
        buffer_length: usize,
    ) -> u64;
    pub fn teplovist_read_staged(
        image: *const u8,
        image_length: usize,
        session: *const u8,
        partition: u64,
        place: u64,
        buffer: *mut u8,
        buffer_length: usize,
    ) -> u64;
    pub fn teplovist_verified(image: *const u8, image_length: usize, partition: u64, block: u64) -> u64;
    pub fn teplovist_count_verified(image: *const u8, image_length: usize, partition: u64) -> u64;
    pub fn teplovist_faults(image: *const u8, image_length: usize, row: *mut Fault, row_length: usize) -> u64;
    pub fn teplovist_begin(image: *mut u8, image_length: usize, session: *mut u8) -> u64;
    pub fn teplovist_write(
        image: *mut u8,
        image_length: usize,
        session: *mut u8,
        partition: u64,
        place: u64,
        data: *const u8,
        data_length: usize,
    ) -> u64;
    pub fn teplovist_commit(image: *mut u8, image_length: usize, session: *mut u8) -> u64;
    pub fn teplovist_commit_signed(
        image: *mut u8,
        image_length: usize,
        session: *mut u8,
        key: *const u8,
        signer: *const u64,
    ) -> u64;
    pub fn teplovist_revert(image: *mut u8, image_length: usize, session: *mut u8) -> u64;
    pub fn teplovist_revert_signed(
        image: *mut u8,
        image_length: usize,
        session: *mut u8,
        key: *const u8,
        signer: *const u64,
    ) -> u64;
    pub fn teplovist_abandon(session: *mut u8) -> u64;
    pub fn teplovist_list_names(image: *const u8, image_length: usize, row: *mut u8, row_length: usize) -> u64;
    pub fn teplovist_find_file(image: *const u8, image_length: usize, folder: u64, name: *const u8) -> u64;
    pub fn teplovist_signing_block(image: *const u8, image_length: usize, signer: *const u64, block: *mut u8) -> u64;
    pub fn teplovist_signing_digest(image: *const u8, image_length: usize, signer: *const u64, digest: *mut u8) -> u64;
    pub fn teplovist_digest_start(state: *mut u8);
    pub fn teplovist_digest_feed(state: *mut u8, piece: *const u8, piece_length: usize) -> u64;
    pub fn teplovist_digest_finish(state: *const u8, digest: *mut u8) -> u64;
    pub fn teplovist_blank_length(blocks: u64) -> u64;
    pub fn teplovist_make_blank(image: *mut u8, image_length: usize, kind: u64, blocks: u64) -> u64;
}
