//! The calls. Each makes the paper's checks in the paper's order; the first that fails decides the answer, and then
//! nothing has changed, but for 17, which ends the session.

use std::ops::Range;

use super::aes::Key;
use super::dpfs::View;
use super::extent::Extent;
use super::header::{FRONT, HEADER, HEADER_LENGTH};
use super::opening::{open, Opened, Partition};
use super::refusal::Refusal;
use super::session::{header_bytes, Session};
use super::sha256::sha256;
use super::signing::{signature, Signer};
use super::staging;

/// Reads the committed view's level 4; fills the whole buffer.
pub fn read_committed(image: &[u8], partition: u64, place: u64, buffer: &mut [u8]) -> Result<(), Refusal> {
    let opened = open(image)?;
    let partition = opened.partition(partition)?;
    read(&View::committed(image, &opened, partition), place, buffer)
}

/// Reads the staged view's level 4.
pub fn read_staged(
    image: &[u8],
    session: &Session,
    partition: u64,
    place: u64,
    buffer: &mut [u8],
) -> Result<(), Refusal> {
    let opened = open(image)?;
    check_begun(image, &opened, session)?;
    let partition = opened.partition(partition)?;
    read(&View::staged(image, &opened, partition), place, buffer)
}

/// Is this block of the committed view's level 4 verified?
pub fn verified(image: &[u8], partition: u64, block: u64) -> Result<bool, Refusal> {
    let opened = open(image)?;
    let partition = opened.partition(partition)?;
    if u128::from(block) >= partition.descriptor.hash_level(4).blocks() {
        return Err(Refusal::PastTheEnd);
    }
    Ok(View::committed(image, &opened, partition).verified(4, block.into()))
}

/// How many blocks of the committed view's level 4 are verified?
pub fn count_verified(image: &[u8], partition: u64) -> Result<u64, Refusal> {
    let opened = open(image)?;
    let partition = opened.partition(partition)?;
    let view = View::committed(image, &opened, partition);
    let blocks = partition.descriptor.hash_level(4).blocks();
    Ok((0..blocks).filter(|block| view.verified(4, *block)).count() as u64)
}

/// Begins a session: the inactive table becomes the active one with each selector flipped, and each partition's other
/// half of level 1 a copy of the live one.
pub fn begin(image: &mut [u8], session: &mut Session) -> Result<(), Refusal> {
    let opened = open(image)?;
    if session.is_begun() {
        return Err(Refusal::WrongSession);
    }
    staging::prepare(image, &opened);
    *session = Session::begun(image);
    Ok(())
}

/// Writes into the staged view's level 4, or into an external one in place. Only 17 changes the session.
pub fn write(image: &mut [u8], session: &mut Session, partition: u64, place: u64, data: &[u8]) -> Result<(), Refusal> {
    let opened = open(image)?;
    check_begun(image, &opened, session)?;
    let partition = opened.partition(partition)?;
    let view = View::staged(image, &opened, partition);
    let range = range_in_data(&view, place, data.len())?;
    for block in touched_blocks(partition, range) {
        if !covered_in_full(partition, range, block) && !view.verified(4, block) {
            return Err(Refusal::NotVerified(block as u64));
        }
    }
    staging::write(image, &opened, partition, range, data).inspect_err(|_| *session = Session::FRESH)
}

/// Makes the staged table the active one.
pub fn commit(image: &mut [u8], session: &mut Session) -> Result<(), Refusal> {
    let opened = open(image)?;
    check_begun(image, &opened, session)?;
    let front = committed_front(image, &opened);
    *session = Session::Idle { former: header_bytes(image), latter: header_bytes(&front) };
    put_header(image, &front);
    Ok(())
}

/// Commits, and stores the signature of the new header with it. The old signature is not looked at.
pub fn commit_signed(image: &mut [u8], session: &mut Session, key: &Key, signer: Signer) -> Result<(), Refusal> {
    let opened = open(image)?;
    check_begun(image, &opened, session)?;
    let front = committed_front(image, &opened);
    let signature = signature(&front, key, signer)?;
    *session = Session::Idle { former: header_bytes(image), latter: header_bytes(&front) };
    image[..signature.len()].copy_from_slice(&signature);
    put_header(image, &front);
    Ok(())
}

/// Takes the last commit of a session back: stores the header that was there before it.
pub fn revert(image: &mut [u8], session: &mut Session) -> Result<(), Refusal> {
    let front = former_front(image, session)?;
    put_header(image, &front);
    *session = Session::FRESH;
    Ok(())
}

/// The same, with the signature of that header, by whose kind 15 is judged too. W13 has this form "for the former header"
/// and does not say whose kind counts where the two headers differ in it, which only a session value that no commit left
/// can bring about. But what is signed is W1's block of the former header, and 15 is W1's refusal to make that block.
pub fn revert_signed(image: &mut [u8], session: &mut Session, key: &Key, signer: Signer) -> Result<(), Refusal> {
    let front = former_front(image, session)?;
    let signature = signature(&front, key, signer)?;
    image[..signature.len()].copy_from_slice(&signature);
    put_header(image, &front);
    *session = Session::FRESH;
    Ok(())
}

/// The first 0x200 bytes with the header before the last commit: opening's refusals, 13, and 21 unless the header is as
/// that commit left it and the image opens under the former one.
fn former_front(image: &[u8], session: &Session) -> Result<Vec<u8>, Refusal> {
    open(image)?;
    let Session::Idle { former, latter } = session else {
        return Err(Refusal::WrongSession);
    };
    let mut reverted = image.to_vec();
    reverted[HEADER..HEADER + HEADER_LENGTH].copy_from_slice(former);
    if header_bytes(image) != *latter || open(&reverted).is_err() {
        return Err(Refusal::NoWayBack);
    }
    reverted.truncate(FRONT as usize);
    Ok(reverted)
}

/// Stores the header of these first 0x200 bytes.
fn put_header(image: &mut [u8], front: &[u8]) {
    image[HEADER..front.len()].copy_from_slice(&front[HEADER..]);
}

/// The first 0x200 bytes with a commit's header: only the flag and the table's hash change.
fn committed_front(image: &[u8], opened: &Opened) -> Vec<u8> {
    let kind = opened.header.kind;
    let digest = sha256(opened.header.inactive_table().of(image));
    let mut front = image[..FRONT as usize].to_vec();
    front[HEADER + kind.flag_place().0] ^= 1;
    front[HEADER + kind.hash_place()..][..32].copy_from_slice(&digest);
    front
}

/// Ends the session; does not look at the image.
pub fn abandon(session: &mut Session) -> Result<(), Refusal> {
    if !session.is_begun() {
        return Err(Refusal::WrongSession);
    }
    *session = Session::FRESH;
    Ok(())
}

/// Refusals 13 and 14 of the calls that need a begun session.
fn check_begun(image: &[u8], opened: &Opened, session: &Session) -> Result<(), Refusal> {
    let Session::Begun(remembered) = session else {
        return Err(Refusal::WrongSession);
    };
    if *remembered == header_bytes(image) && staging::inactive_table_is_staged(image, opened) {
        Ok(())
    } else {
        Err(Refusal::Outdated)
    }
}

/// Refusals 9 and 10 of a read, then the bytes.
fn read(view: &View, place: u64, buffer: &mut [u8]) -> Result<(), Refusal> {
    let range = range_in_data(view, place, buffer.len())?;
    for block in touched_blocks(view.partition, range) {
        if !view.verified(4, block) {
            return Err(Refusal::NotVerified(block as u64));
        }
    }
    buffer.copy_from_slice(&view.level_bytes(4, range.offset, range.end()));
    Ok(())
}

/// Refusal 9: place plus length, as whole numbers, must not exceed level 4's size.
fn range_in_data(view: &View, place: u64, length: usize) -> Result<Extent, Refusal> {
    let range = Extent::new(place, length as u64);
    if range.lies_in(view.data_size()) {
        Ok(range)
    } else {
        Err(Refusal::PastTheEnd)
    }
}

/// The blocks of level 4 that have a byte in the range.
pub fn touched_blocks(partition: &Partition, range: Extent) -> Range<u128> {
    blocks_of(partition.descriptor.hash_level(4).block_size(), range)
}

/// The blocks of the given size that have a byte in the range; none for an empty range.
pub fn blocks_of(block_size: u128, range: Extent) -> Range<u128> {
    if range.size == 0 {
        return 0..0;
    }
    range.offset / block_size..range.end().div_ceil(block_size)
}

/// Does the range hold all bytes of the block below level 4's size?
fn covered_in_full(partition: &Partition, range: Extent, block: u128) -> bool {
    let own = partition.descriptor.hash_level(4).block_extent(block);
    range.offset <= own.offset && own.end() <= range.end()
}
