//! A SHA-256 that counts what it is given: the independent rules use it, and (a) where it is not timed.
//!
//! What a call must hash is counted in the independent rules: every message that they hash during the call, but each
//! once only, however often they come back to it. These are the active table; for a read each touched block and each
//! hash block above one; for a write each hash block above a touched block as it was, to judge it, and as it becomes,
//! for its new entry, each touched block as it becomes, and as it was if it is covered only in part; for a commit the
//! staged table too. A library that remembers what it has judged in the call needs no more. Messages count whole, even
//! if two begin alike, and are told apart by their digests: the data is such that no two blocks are equal. What (a)
//! hashes is counted with every repetition. SHA-256's own padding is not counted. What the proved library hashes cannot
//! be seen from here: bench/hashes counts it, by a debugger.

use std::cell::RefCell;
use std::collections::HashSet;

use crate::plain_sha256::FORMS;

/// How many bytes were hashed.
#[derive(Default)]
pub struct Hashed {
    pub with_repetitions: usize,
    pub once: usize,
    seen: HashSet<[u8; 32]>,
}

thread_local! {
    static HASHED: RefCell<Hashed> = RefCell::default();
}

pub fn sha256(message: &[u8]) -> [u8; 32] {
    let digest = FORMS[0](message);
    HASHED.with_borrow_mut(|hashed| {
        hashed.with_repetitions += message.len();
        if hashed.seen.insert(digest) {
            hashed.once += message.len();
        }
    });
    digest
}

/// What a call hashes.
pub fn hashed_by(call: impl FnOnce()) -> Hashed {
    HASHED.take();
    call();
    HASHED.take()
}
