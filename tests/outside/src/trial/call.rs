//! One call with its arguments, how it is chosen, and what it gives.

use std::ops::Range;

use super::names::NamesCall;
use crate::description::{Description, DESCRIPTION_LENGTH};
use crate::generate::random::Random;
use crate::generate::signing::{choose_signer, SigningKey};
use crate::rules::dpfs::View;
use crate::rules::extent::Extent;
use crate::rules::faults::{faults, FaultRecord};
use crate::rules::opening::Opened;
use crate::rules::session::SessionBytes;
use crate::rules::signing::{SignerNumbers, LONGEST_BLOCK};
use crate::subject::Subject;

/// A call with what it is handed besides the image and the session. `length` is that of the buffer that it fills, `room` says how many records
/// the row for faults holds.
#[derive(Clone, Debug)]
pub enum Call {
    Open,
    ReadCommitted { partition: u64, place: u64, length: usize },
    ReadStaged { partition: u64, place: u64, length: usize },
    Verified { partition: u64, block: u64 },
    CountVerified { partition: u64 },
    Begin,
    Write { partition: u64, place: u64, data: Vec<u8> },
    Commit,
    Abandon,
    SigningBlock { signer: SignerNumbers },
    SigningDigest { signer: SignerNumbers },
    OpenSigned { signing_key: SigningKey },
    CommitSigned { signing_key: SigningKey },
    Faults { room: usize },
    Revert,
    RevertSigned { signing_key: SigningKey },
    Names(NamesCall),
}

impl std::fmt::Display for Call {
    fn fmt(&self, out: &mut std::fmt::Formatter) -> std::fmt::Result {
        match self {
            Call::Write { partition, place, data } => {
                write!(out, "Write {{ partition: {partition}, place: {place}, length: {} }}", data.len())
            }
            other => write!(out, "{other:?}"),
        }
    }
}

/// How many kinds of calls there are.
pub const CALL_KINDS: usize = 17;
/// The numbers of some, as `Call::of_kind` has them.
pub const BEGIN: usize = 5;
pub const WRITE: usize = 6;
pub const COMMIT: usize = 7;
pub const COMMIT_SIGNED: usize = 12;
pub const FAULTS: usize = 13;
pub const REVERT: usize = 14;
pub const REVERT_SIGNED: usize = 15;

/// Everything that a call hands back besides image and session.
#[derive(Clone, Debug, PartialEq, Eq)]
pub struct Outcome {
    pub answer: u64,
    pub buffer: Vec<u8>,
    pub description: Description,
    pub row: Vec<FaultRecord>,
}

impl Outcome {
    /// What a refused call hands back: all that it was lent, as it was.
    pub fn refused(call: &Call, answer: u64) -> Outcome {
        Outcome {
            answer,
            buffer: untouched_buffer(call.buffer_length()),
            description: UNTOUCHED_DESCRIPTION,
            row: untouched_row(call.row_length()),
        }
    }

    pub fn accepted(&self) -> bool {
        self.answer & 0xFF == 0
    }
}

/// What a buffer holds before a call, so that a change shows.
pub fn untouched_buffer(length: usize) -> Vec<u8> {
    (0..length).map(|index| (index * 37 + 11) as u8).collect()
}

pub const UNTOUCHED_DESCRIPTION: Description = [0xD5D5_D5D5_D5D5_D5D5; DESCRIPTION_LENGTH];

/// The same of a row: no record in it is a fault's, and no two are alike.
pub fn untouched_row(length: usize) -> Vec<FaultRecord> {
    let noise = |index: u64| FaultRecord { partition: !index, level: 5 + index, block: index << 32 | 0xD5D5 };
    (0..length as u64).map(noise).collect()
}

impl Call {
    pub fn name(&self) -> &'static str {
        match self {
            Call::Open => "open",
            Call::ReadCommitted { .. } => "read committed",
            Call::ReadStaged { .. } => "read staged",
            Call::Verified { .. } => "verified",
            Call::CountVerified { .. } => "count verified",
            Call::Begin => "begin",
            Call::Write { .. } => "write",
            Call::Commit => "commit",
            Call::Abandon => "abandon",
            Call::SigningBlock { .. } => "signing block",
            Call::SigningDigest { .. } => "signing digest",
            Call::OpenSigned { .. } => "open signed",
            Call::CommitSigned { .. } => "commit signed",
            Call::Faults { .. } => "faults",
            Call::Revert => "revert",
            Call::RevertSigned { .. } => "revert signed",
            Call::Names(call) => call.name(),
        }
    }

    pub fn buffer_length(&self) -> usize {
        match self {
            Call::ReadCommitted { length, .. } | Call::ReadStaged { length, .. } => *length,
            Call::SigningBlock { .. } => LONGEST_BLOCK,
            Call::SigningDigest { .. } => 32,
            Call::Names(call) => call.row_length(),
            _ => 0,
        }
    }

    pub fn row_length(&self) -> usize {
        match self {
            Call::Faults { room } => *room,
            _ => 0,
        }
    }

    /// The positions that the call may change at once: what a write is given in an external level 4.
    pub fn written_in_place(&self, opened: &Opened) -> Range<usize> {
        let Call::Write { partition, place, data } = self else { return 0..0 };
        let Ok(partition) = opened.partition(*partition) else { return 0..0 };
        let range = Extent::new(*place, data.len() as u64);
        match partition.written_in_place(range) {
            Some(extent) if range.lies_in(partition.descriptor.hash_level(4).extent.size) => {
                extent.offset as usize..extent.end() as usize
            }
            _ => 0..0,
        }
    }

    /// For whom a block or its digest is asked.
    pub fn signer(&self) -> Option<SignerNumbers> {
        match self {
            Call::SigningBlock { signer } | Call::SigningDigest { signer } => Some(*signer),
            _ => None,
        }
    }

    pub fn perform(&self, subject: &dyn Subject, image: &mut [u8], session: &mut SessionBytes) -> Outcome {
        let Outcome { mut buffer, mut description, mut row, .. } = Outcome::refused(self, 0);
        let answer = match self {
            Call::Open => subject.open(image, &mut description),
            Call::ReadCommitted { partition, place, .. } => {
                subject.read_committed(image, *partition, *place, &mut buffer)
            }
            Call::ReadStaged { partition, place, .. } => {
                subject.read_staged(image, session, *partition, *place, &mut buffer)
            }
            Call::Verified { partition, block } => subject.verified(image, *partition, *block),
            Call::CountVerified { partition } => subject.count_verified(image, *partition),
            Call::Begin => subject.begin(image, session),
            Call::Write { partition, place, data } => subject.write(image, session, *partition, *place, data),
            Call::Commit => subject.commit(image, session),
            Call::Abandon => subject.abandon(session),
            Call::SigningBlock { signer } => subject.signing_block(image, signer, as_array(&mut buffer)),
            Call::SigningDigest { signer } => subject.signing_digest(image, signer, as_array(&mut buffer)),
            Call::OpenSigned { signing_key } => {
                subject.open_signed(image, &signing_key.key, &signing_key.signer, &mut description)
            }
            Call::CommitSigned { signing_key } => {
                subject.commit_signed(image, session, &signing_key.key, &signing_key.signer)
            }
            Call::Faults { .. } => subject.faults(image, &mut row),
            Call::Revert => subject.revert(image, session),
            Call::RevertSigned { signing_key } => {
                subject.revert_signed(image, session, &signing_key.key, &signing_key.signer)
            }
            Call::Names(call) => call.perform(subject, image, &mut buffer),
        };
        Outcome { answer, buffer, description, row }
    }

    /// Any call, with arguments that fit this image and this key most of the time. In a begun session writes are
    /// frequent.
    pub fn choose(
        random: &mut Random,
        image: &[u8],
        opened: Option<&Opened>,
        signing_key: &SigningKey,
        begun: bool,
    ) -> Call {
        let shares: [u64; CALL_KINDS] = if begun {
            [2, 10, 18, 6, 2, 3, 44, 7, 4, 4, 3, 4, 7, 5, 2, 2, 2]
        } else {
            [3, 20, 4, 14, 5, 40, 6, 4, 4, 6, 4, 12, 4, 10, 12, 12, 5]
        };
        let mut share = random.below(shares.iter().sum());
        let mut number = 0;
        while share >= shares[number] {
            share -= shares[number];
            number += 1;
        }
        Call::of_kind(random, image, opened, signing_key, number)
    }

    /// A call of one of these kinds, in the order of the declarations above.
    pub fn of_kind(
        random: &mut Random,
        image: &[u8],
        opened: Option<&Opened>,
        signing_key: &SigningKey,
        number: usize,
    ) -> Call {
        let partition = choose_partition(random, opened);
        let (data_size, block_size) = data_shape(opened, partition);
        match number {
            0 => Call::Open,
            1 | 2 => {
                let (place, length) = choose_range(random, data_size, block_size);
                if number == 1 {
                    Call::ReadCommitted { partition, place, length }
                } else {
                    Call::ReadStaged { partition, place, length }
                }
            }
            3 => Call::Verified { partition, block: choose_block(random, data_size.div_ceil(block_size)) },
            4 => Call::CountVerified { partition },
            BEGIN => Call::Begin,
            WRITE => choose_write(random, image, opened, partition),
            COMMIT => Call::Commit,
            8 => Call::Abandon,
            9 => Call::SigningBlock { signer: choose_signer(random) },
            10 => Call::SigningDigest { signer: choose_signer(random) },
            11 => Call::OpenSigned { signing_key: signing_key.vary(random) },
            COMMIT_SIGNED => Call::CommitSigned { signing_key: signing_key.vary(random) },
            FAULTS => Call::Faults { room: choose_room(random, faults(image).map_or(3, |list| list.len())) },
            REVERT => Call::Revert,
            REVERT_SIGNED => Call::RevertSigned { signing_key: signing_key.vary(random) },
            _ => Call::Names(NamesCall::choose(random, &[])),
        }
    }
}

/// Writes noise, now and then the bytes that are there already.
fn choose_write(random: &mut Random, image: &[u8], opened: Option<&Opened>, partition: u64) -> Call {
    let (data_size, block_size) = data_shape(opened, partition);
    let (place, length) = choose_written(random, data_size, block_size);
    let data = random.bytes(length);
    let rewritten = if random.chance(10) { bytes_there(image, opened, partition, place, length) } else { None };
    Call::Write { partition, place, data: rewritten.unwrap_or(data) }
}

fn as_array<const LENGTH: usize>(buffer: &mut [u8]) -> &mut [u8; LENGTH] {
    buffer.try_into().expect("the buffer has the call's length")
}

/// Room for a list of so many records: none, too little, just enough, or more than that.
fn choose_room(random: &mut Random, records: usize) -> usize {
    match random.below(6) {
        0 => 0,
        1 => random.below(records as u64 + 1) as usize,
        2 => records.saturating_sub(1),
        3 => records,
        4 => records + 1,
        _ => records + random.below(20) as usize,
    }
}

fn choose_partition(random: &mut Random, opened: Option<&Opened>) -> u64 {
    let count = opened.map_or(2, |opened| opened.partitions.len() as u64);
    if random.chance(5) {
        random.pick(&[count, count + 1, 1 << 32, 1 << 63, u64::MAX])
    } else {
        random.below(count)
    }
}

/// Size and block size of a partition's level 4; made up if there is no such partition.
fn data_shape(opened: Option<&Opened>, partition: u64) -> (u64, u64) {
    match opened.and_then(|opened| opened.partition(partition).ok()) {
        Some(partition) => {
            let level = partition.descriptor.hash_level(4);
            (level.extent.size as u64, level.block_size() as u64)
        }
        None => (100, 32),
    }
}

/// The committed bytes of a range of level 4, if there is one.
fn bytes_there(image: &[u8], opened: Option<&Opened>, partition: u64, place: u64, length: usize) -> Option<Vec<u8>> {
    let opened = opened?;
    let view = View::committed(image, opened, opened.partition(partition).ok()?);
    let range = Extent::new(place, length as u64);
    range.lies_in(view.data_size()).then(|| view.level_bytes(4, range.offset, range.end()))
}

fn choose_block(random: &mut Random, blocks: u64) -> u64 {
    match random.below(20) {
        0 => blocks,
        1 => blocks + random.below(40),
        2 => random.pick(&[1 << 32, 1 << 56, 1 << 63, u64::MAX]),
        _ => random.below(blocks),
    }
}

/// Where to write: half of the time whole blocks, which need not have been verified.
fn choose_written(random: &mut Random, size: u64, block_size: u64) -> (u64, usize) {
    let (place, length) = choose_range(random, size, block_size);
    if place >= size || length == 0 || random.chance(50) {
        return (place, length);
    }
    let from = place - place % block_size;
    let to = (place + length as u64).next_multiple_of(block_size).min(size);
    (from, (to.max(from) - from) as usize)
}

/// A place and a length: inside level 4 or at its edges most of the time, often at the edges of blocks.
fn choose_range(random: &mut Random, size: u64, block_size: u64) -> (u64, usize) {
    match random.below(25) {
        0..=1 => return range_at_the_limits(random, size),
        2 => return (0, size as usize),
        3 => return (random.below(size), 1),
        _ => {}
    }
    let from = choose_edge(random, size, block_size);
    let to = match random.below(4) {
        0 => from + random.below(40),
        1 => from + block_size,
        _ => choose_edge(random, size, block_size),
    };
    let (from, to) = (from.min(to), from.max(to).min(size));
    (from, to.saturating_sub(from) as usize)
}

/// A place in level 4, its end included: anywhere, or at a block's edge give or take one byte.
fn choose_edge(random: &mut Random, size: u64, block_size: u64) -> u64 {
    let place = if random.chance(40) {
        random.below(size + 1)
    } else {
        let edge = random.below(size / block_size + 2) * block_size;
        (edge + random.below(3)).saturating_sub(1)
    };
    place.min(size)
}

/// Ranges that end just at, just past or far past the end.
fn range_at_the_limits(random: &mut Random, size: u64) -> (u64, usize) {
    let length = random.below(3) as usize;
    match random.below(6) {
        0 => (size, length),
        1 => (size - 1, length),
        2 => (size + 1, length),
        3 => (u64::MAX - random.below(3), length),
        4 => ((1 << 63) - random.below(2), length),
        _ => (random.below(size), size as usize),
    }
}
