//! The hash of blocks, which is SHA-256. No message is known whose SHA-256 is all zero, so for a trial a stand-in gives
//! zeros for some of the messages.

use std::cell::Cell;

use super::compression::Digest;
use super::sha256::sha256;

thread_local! {
    /// A digest whose first byte is below this one becomes all zero.
    static ZEROED: Cell<u8> = const { Cell::new(0) };
}

pub fn block_hash(block: &[u8]) -> Digest {
    let digest = sha256(block);
    if digest[0] < ZEROED.get() {
        [0; 32]
    } else {
        digest
    }
}

/// An entry of zeros verifies no block.
pub fn is_zero(entry: &[u8]) -> bool {
    entry.iter().all(|byte| *byte == 0)
}

/// Runs something with a stand-in that gives zeros for so many of 256 messages.
pub fn with_stand_in<T>(zeroed: u8, run: impl FnOnce() -> T) -> T {
    ZEROED.set(zeroed);
    let outcome = run();
    ZEROED.set(0);
    outcome
}
