//! One step of a scenario: a session from begin to its end, or a revert.

use outside::generate::random::Random;
use outside::generate::signing::SigningKey;
use outside::rules::opening::Opened;
use outside::rules::session::{Session, SessionBytes};
use outside::trial::call::{Call, WRITE};

/// A session has one to so many writes.
const MOST_WRITES: u64 = 20;
/// Half of the sessions have no more than these.
const SOME_WRITES: u64 = 4;

/// The calls of a step on this image: now and then a revert, if the session remembers a commit.
pub fn choose_calls(
    random: &mut Random,
    image: &[u8],
    opened: &Opened,
    session: &SessionBytes,
    signing_key: &SigningKey,
) -> Vec<Call> {
    let signing_key = *signing_key;
    if Session::from_bytes(session) != Session::FRESH && random.chance(40) {
        return vec![if random.chance(50) { Call::Revert } else { Call::RevertSigned { signing_key } }];
    }
    let most = random.pick(&[SOME_WRITES, MOST_WRITES]);
    let mut calls = vec![Call::Begin];
    for _ in 0..random.between(1, most) {
        calls.push(choose_write(random, image, opened, &signing_key));
    }
    calls.push(match random.below(10) {
        0..=4 => Call::Commit,
        5..=7 => Call::CommitSigned { signing_key },
        _ => Call::Abandon,
    });
    calls
}

/// A write that the host's calls can express: they know of two partitions.
fn choose_write(random: &mut Random, image: &[u8], opened: &Opened, signing_key: &SigningKey) -> Call {
    loop {
        let call = Call::of_kind(random, image, Some(opened), signing_key, WRITE);
        if matches!(call, Call::Write { partition: 0 | 1, .. }) {
            return call;
        }
    }
}

/// Does the call store a header?
pub fn stores_header(call: &Call) -> bool {
    matches!(call, Call::Commit | Call::CommitSigned { .. } | Call::Revert | Call::RevertSigned { .. })
}
