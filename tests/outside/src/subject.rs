//! Whatever claims to follow the rules, in the form of the library's boundary: an answer is one number (the refusal's
//! number in the low eight bits, the value above), a session is 513 bytes, a key 16, a running digest 104.

// With their paths, since bench/ takes this file in by its path and would look for them beside it.
#[path = "subject/blank.rs"]
pub mod blank;
#[path = "subject/names.rs"]
pub mod names;

use crate::description::{describe, Description};
use crate::rules::aes::Key;
use crate::rules::calls;
use crate::rules::compression::Digest;
use crate::rules::faults::{self, FaultRecord};
use crate::rules::opening;
use crate::rules::refusal::{answer_code, Refusal};
use crate::rules::running::{Running, RunningBytes};
use crate::rules::session::{Session, SessionBytes};
use crate::rules::signing::{self, BlockBytes, Signer, SignerNumbers};
use blank::Blanks;
use names::Names;

pub trait Subject: Blanks + Names {
    /// Does it take its hash of blocks from the rules, so that a stand-in reaches it?
    fn takes_stand_in(&self) -> bool;
    fn open(&self, image: &[u8], description: &mut Description) -> u64;
    fn read_committed(&self, image: &[u8], partition: u64, place: u64, buffer: &mut [u8]) -> u64;
    fn read_staged(&self, image: &[u8], session: &SessionBytes, partition: u64, place: u64, buffer: &mut [u8]) -> u64;
    fn verified(&self, image: &[u8], partition: u64, block: u64) -> u64;
    fn count_verified(&self, image: &[u8], partition: u64) -> u64;
    fn begin(&self, image: &mut [u8], session: &mut SessionBytes) -> u64;
    fn write(&self, image: &mut [u8], session: &mut SessionBytes, partition: u64, place: u64, data: &[u8]) -> u64;
    fn commit(&self, image: &mut [u8], session: &mut SessionBytes) -> u64;
    fn abandon(&self, session: &mut SessionBytes) -> u64;
    fn open_signed(&self, image: &[u8], key: &Key, signer: &SignerNumbers, description: &mut Description) -> u64;
    fn commit_signed(&self, image: &mut [u8], session: &mut SessionBytes, key: &Key, signer: &SignerNumbers) -> u64;
    fn revert(&self, image: &mut [u8], session: &mut SessionBytes) -> u64;
    fn revert_signed(&self, image: &mut [u8], session: &mut SessionBytes, key: &Key, signer: &SignerNumbers) -> u64;
    fn faults(&self, image: &[u8], row: &mut [FaultRecord]) -> u64;
    fn signing_block(&self, image: &[u8], signer: &SignerNumbers, block: &mut BlockBytes) -> u64;
    fn signing_digest(&self, image: &[u8], signer: &SignerNumbers, digest: &mut Digest) -> u64;
    fn digest_start(&self, state: &mut RunningBytes);
    fn digest_feed(&self, state: &mut RunningBytes, piece: &[u8]) -> u64;
    fn digest_finish(&self, state: &RunningBytes, digest: &mut Digest) -> u64;
}

/// This project's own implementation.
pub struct Rules;

impl Subject for Rules {
    fn takes_stand_in(&self) -> bool {
        true
    }

    fn open(&self, image: &[u8], description: &mut Description) -> u64 {
        answer_code(opening::open(image).map(|opened| {
            *description = describe(&opened);
            0
        }))
    }

    fn read_committed(&self, image: &[u8], partition: u64, place: u64, buffer: &mut [u8]) -> u64 {
        answer_code(calls::read_committed(image, partition, place, buffer).map(|()| 0))
    }

    fn read_staged(&self, image: &[u8], session: &SessionBytes, partition: u64, place: u64, buffer: &mut [u8]) -> u64 {
        answer_code(calls::read_staged(image, &Session::from_bytes(session), partition, place, buffer).map(|()| 0))
    }

    fn verified(&self, image: &[u8], partition: u64, block: u64) -> u64 {
        answer_code(calls::verified(image, partition, block).map(u64::from))
    }

    fn count_verified(&self, image: &[u8], partition: u64) -> u64 {
        answer_code(calls::count_verified(image, partition))
    }

    fn begin(&self, image: &mut [u8], session: &mut SessionBytes) -> u64 {
        let mut value = Session::from_bytes(session);
        answer_code(calls::begin(image, &mut value).map(|()| {
            *session = value.to_bytes();
            0
        }))
    }

    fn write(&self, image: &mut [u8], session: &mut SessionBytes, partition: u64, place: u64, data: &[u8]) -> u64 {
        let mut value = Session::from_bytes(session);
        let answer = calls::write(image, &mut value, partition, place, data);
        // Else the bytes stay as they were, in whatever way they say that the session has begun.
        if answer == Err(Refusal::ZeroDigest) {
            *session = value.to_bytes();
        }
        answer_code(answer.map(|()| 0))
    }

    fn commit(&self, image: &mut [u8], session: &mut SessionBytes) -> u64 {
        let mut value = Session::from_bytes(session);
        answer_code(calls::commit(image, &mut value).map(|()| {
            *session = value.to_bytes();
            0
        }))
    }

    fn abandon(&self, session: &mut SessionBytes) -> u64 {
        let mut value = Session::from_bytes(session);
        answer_code(calls::abandon(&mut value).map(|()| {
            *session = value.to_bytes();
            0
        }))
    }

    fn open_signed(&self, image: &[u8], key: &Key, signer: &SignerNumbers, description: &mut Description) -> u64 {
        answer_code(opening::open_signed(image, key, Signer::from_numbers(*signer)).map(|opened| {
            *description = describe(&opened);
            0
        }))
    }

    fn commit_signed(&self, image: &mut [u8], session: &mut SessionBytes, key: &Key, signer: &SignerNumbers) -> u64 {
        let mut value = Session::from_bytes(session);
        answer_code(calls::commit_signed(image, &mut value, key, Signer::from_numbers(*signer)).map(|()| {
            *session = value.to_bytes();
            0
        }))
    }

    fn revert(&self, image: &mut [u8], session: &mut SessionBytes) -> u64 {
        let mut value = Session::from_bytes(session);
        answer_code(calls::revert(image, &mut value).map(|()| {
            *session = value.to_bytes();
            0
        }))
    }

    fn revert_signed(&self, image: &mut [u8], session: &mut SessionBytes, key: &Key, signer: &SignerNumbers) -> u64 {
        let mut value = Session::from_bytes(session);
        answer_code(calls::revert_signed(image, &mut value, key, Signer::from_numbers(*signer)).map(|()| {
            *session = value.to_bytes();
            0
        }))
    }

    fn faults(&self, image: &[u8], row: &mut [FaultRecord]) -> u64 {
        answer_code(faults::fill_row(image, row))
    }

    /// The answer's value is the block's length; what is left of the array is zero.
    fn signing_block(&self, image: &[u8], signer: &SignerNumbers, block: &mut BlockBytes) -> u64 {
        answer_code(signing::signing_block(image, Signer::from_numbers(*signer)).map(|bytes| {
            block.fill(0);
            block[..bytes.len()].copy_from_slice(&bytes);
            bytes.len() as u64
        }))
    }

    fn signing_digest(&self, image: &[u8], signer: &SignerNumbers, digest: &mut Digest) -> u64 {
        answer_code(signing::signing_digest(image, Signer::from_numbers(*signer)).map(|value| {
            *digest = value;
            0
        }))
    }

    fn digest_start(&self, state: &mut RunningBytes) {
        *state = Running::start().to_bytes();
    }

    fn digest_feed(&self, state: &mut RunningBytes, piece: &[u8]) -> u64 {
        let mut value = Running::from_bytes(state);
        answer_code(value.feed(piece).map(|()| {
            *state = value.to_bytes();
            0
        }))
    }

    fn digest_finish(&self, state: &RunningBytes, digest: &mut Digest) -> u64 {
        answer_code(Running::from_bytes(state).finish().map(|value| {
            *digest = value;
            0
        }))
    }
}
