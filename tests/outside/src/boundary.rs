//! The proved library behind its C boundary, made safe to call: a slice passes as a pointer and a length, counted in
//! elements, a fixed array as a pointer. The declarations are those of `host/`.

// With their paths, since bench/ takes this file in by its path and would look for them beside it.
#[path = "boundary/blank.rs"]
mod blank;
#[path = "boundary/names.rs"]
mod names;

use crate::declarations::{
    teplovist_abandon, teplovist_begin, teplovist_commit, teplovist_commit_signed, teplovist_count_verified,
    teplovist_digest_feed, teplovist_digest_finish, teplovist_digest_start, teplovist_faults, teplovist_open,
    teplovist_open_signed, teplovist_read_committed, teplovist_read_staged, teplovist_revert, teplovist_revert_signed,
    teplovist_signing_block, teplovist_signing_digest, teplovist_verified, teplovist_write,
};
use crate::description::Description;
use crate::rules::aes::Key;
use crate::rules::compression::Digest;
use crate::rules::faults::FaultRecord;
use crate::rules::running::RunningBytes;
use crate::rules::session::SessionBytes;
use crate::rules::signing::{BlockBytes, SignerNumbers};
use crate::subject::Subject;

/// The proved library. Each call lends it slices and arrays of Rust's own for the call alone, of the lengths that it is
/// told, so the calls are safe as long as the library keeps to its declarations.
pub struct Library;

impl Subject for Library {
    fn takes_stand_in(&self) -> bool {
        false
    }

    fn open(&self, image: &[u8], description: &mut Description) -> u64 {
        unsafe { teplovist_open(image.as_ptr(), image.len(), description.as_mut_ptr()) }
    }

    fn read_committed(&self, image: &[u8], partition: u64, place: u64, buffer: &mut [u8]) -> u64 {
        unsafe {
            teplovist_read_committed(image.as_ptr(), image.len(), partition, place, buffer.as_mut_ptr(), buffer.len())
        }
    }

    fn read_staged(&self, image: &[u8], session: &SessionBytes, partition: u64, place: u64, buffer: &mut [u8]) -> u64 {
        unsafe {
            teplovist_read_staged(
                image.as_ptr(),
                image.len(),
                session.as_ptr(),
                partition,
                place,
                buffer.as_mut_ptr(),
                buffer.len(),
            )
        }
    }

    fn verified(&self, image: &[u8], partition: u64, block: u64) -> u64 {
        unsafe { teplovist_verified(image.as_ptr(), image.len(), partition, block) }
    }

    fn count_verified(&self, image: &[u8], partition: u64) -> u64 {
        unsafe { teplovist_count_verified(image.as_ptr(), image.len(), partition) }
    }

    fn begin(&self, image: &mut [u8], session: &mut SessionBytes) -> u64 {
        unsafe { teplovist_begin(image.as_mut_ptr(), image.len(), session.as_mut_ptr()) }
    }

    fn write(&self, image: &mut [u8], session: &mut SessionBytes, partition: u64, place: u64, data: &[u8]) -> u64 {
        unsafe {
            teplovist_write(
                image.as_mut_ptr(),
                image.len(),
                session.as_mut_ptr(),
                partition,
                place,
                data.as_ptr(),
                data.len(),
            )
        }
    }

    fn commit(&self, image: &mut [u8], session: &mut SessionBytes) -> u64 {
        unsafe { teplovist_commit(image.as_mut_ptr(), image.len(), session.as_mut_ptr()) }
    }

    fn abandon(&self, session: &mut SessionBytes) -> u64 {
        unsafe { teplovist_abandon(session.as_mut_ptr()) }
    }

    fn open_signed(&self, image: &[u8], key: &Key, signer: &SignerNumbers, description: &mut Description) -> u64 {
        unsafe {
            teplovist_open_signed(image.as_ptr(), image.len(), key.as_ptr(), signer.as_ptr(), description.as_mut_ptr())
        }
    }

    fn commit_signed(&self, image: &mut [u8], session: &mut SessionBytes, key: &Key, signer: &SignerNumbers) -> u64 {
        unsafe {
            teplovist_commit_signed(
                image.as_mut_ptr(),
                image.len(),
                session.as_mut_ptr(),
                key.as_ptr(),
                signer.as_ptr(),
            )
        }
    }

    fn revert(&self, image: &mut [u8], session: &mut SessionBytes) -> u64 {
        unsafe { teplovist_revert(image.as_mut_ptr(), image.len(), session.as_mut_ptr()) }
    }

    fn revert_signed(&self, image: &mut [u8], session: &mut SessionBytes, key: &Key, signer: &SignerNumbers) -> u64 {
        unsafe {
            teplovist_revert_signed(
                image.as_mut_ptr(),
                image.len(),
                session.as_mut_ptr(),
                key.as_ptr(),
                signer.as_ptr(),
            )
        }
    }

    fn faults(&self, image: &[u8], row: &mut [FaultRecord]) -> u64 {
        // Its record is laid out as the boundary's: three numbers.
        unsafe { teplovist_faults(image.as_ptr(), image.len(), row.as_mut_ptr().cast(), row.len()) }
    }

    fn signing_block(&self, image: &[u8], signer: &SignerNumbers, block: &mut BlockBytes) -> u64 {
        unsafe { teplovist_signing_block(image.as_ptr(), image.len(), signer.as_ptr(), block.as_mut_ptr()) }
    }

    fn signing_digest(&self, image: &[u8], signer: &SignerNumbers, digest: &mut Digest) -> u64 {
        unsafe { teplovist_signing_digest(image.as_ptr(), image.len(), signer.as_ptr(), digest.as_mut_ptr()) }
    }

    fn digest_start(&self, state: &mut RunningBytes) {
        unsafe { teplovist_digest_start(state.as_mut_ptr()) }
    }

    fn digest_feed(&self, state: &mut RunningBytes, piece: &[u8]) -> u64 {
        unsafe { teplovist_digest_feed(state.as_mut_ptr(), piece.as_ptr(), piece.len()) }
    }

    fn digest_finish(&self, state: &RunningBytes, digest: &mut Digest) -> u64 {
        unsafe { teplovist_digest_finish(state.as_ptr(), digest.as_mut_ptr()) }
    }
}
