//! The calls to make: random images, and on each a list of calls, each with the image and the session as the calls before left them.

use super::ROOM;
use crate::generate::damage::{any_damage, damaged_image};
use crate::generate::random::Random;
use crate::generate::shape::Wanted;
use crate::generate::signing::SigningKey;
use crate::generate::valid_image;
use crate::rules::opening::open;
use crate::rules::session::{Session, SessionBytes, SESSION_LENGTH};
use crate::rules::signing::SignerNumbers;
use crate::subject::Rules;
use crate::trial::call::{Call, BEGIN, CALL_KINDS, COMMIT, COMMIT_SIGNED, REVERT, REVERT_SIGNED, WRITE};
use crate::trial::names::NamesCall;

/// One call and all that it gets.
#[derive(Clone, Debug)]
pub struct Prepared {
    pub image: Vec<u8>,
    pub session: SessionBytes,
    pub call: Call,
}

/// Longer images and longer blocks, which are hashed whole, only make the trace longer.
const LONGEST: usize = 0x8000;
const LONGEST_BLOCK: u128 = 0x200;
const CALLS_OF_AN_IMAGE: u64 = 8;

/// At least so many calls.
pub fn prepare(seed: u64, count: usize) -> Vec<Prepared> {
    let random = &mut Random::new(seed);
    let mut prepared = Vec::new();
    while prepared.len() < count {
        let image = if random.chance(5) {
            let damage = any_damage(random);
            damaged_image(random, &damage).image
        } else {
            valid_image(random, &Wanted::default()).image
        };
        if is_short(&image) {
            prepare_list(random, image, &mut prepared);
        }
    }
    prepared
}

fn is_short(image: &[u8]) -> bool {
    let short_blocks = open(image).ok().is_none_or(|opened| {
        opened
            .partitions
            .iter()
            .all(|partition| (1..=4).all(|level| partition.descriptor.hash_level(level).block_size() <= LONGEST_BLOCK))
    });
    image.len() <= LONGEST && short_blocks
}

fn prepare_list(random: &mut Random, mut image: Vec<u8>, prepared: &mut Vec<Prepared>) {
    let opened = open(&image).ok();
    let signing_key = SigningKey::choose(random, &image);
    signing_key.sign(&mut image);
    let mut session = [0; SESSION_LENGTH];
    for _ in 0..CALLS_OF_AN_IMAGE {
        let kind = choose_kind(random, &session);
        let call = Call::of_kind(random, &image, opened.as_ref(), &signing_key, kind);
        let mut handed = if random.chance(10) { forged(random, &image) } else { session };
        prepared.push(Prepared { image: image.clone(), session: handed, call: call.clone() });
        if call.perform(&Rules, &mut image, &mut handed).accepted() {
            session = handed;
        }
    }
}

/// Calls that store, most of the time.
fn choose_kind(random: &mut Random, session: &SessionBytes) -> usize {
    let begun = session[0] != 0;
    let remembers = *session != [0; SESSION_LENGTH];
    match random.below(10) {
        0 => random.below(CALL_KINDS as u64) as usize,
        1 if begun => COMMIT,
        2 if begun => COMMIT_SIGNED,
        _ if begun => WRITE,
        1..=3 if remembers => REVERT,
        4..=6 if remembers => REVERT_SIGNED,
        _ => BEGIN,
    }
}

/// A session value that no call has handed out.
fn forged(random: &mut Random, image: &[u8]) -> SessionBytes {
    let mut session = [0; SESSION_LENGTH];
    match random.below(3) {
        0 => session.copy_from_slice(&random.bytes(SESSION_LENGTH)),
        1 if image.len() >= 0x200 => session = Session::begun(image).to_bytes(),
        _ => {}
    }
    session
}

/// The calls as bytes: for each the kind, two numbers, the session, and data and image with their lengths in front.
pub fn to_bytes(prepared: &[Prepared]) -> Vec<u8> {
    let mut bytes = Vec::new();
    for Prepared { image, session, call } in prepared {
        assert!(image.len() <= ROOM, "the replay has no room for an image of {} bytes", image.len());
        let (kind, numbers, data): (u64, [u64; 2], &[u8]) = match call {
            Call::Open => (0, [0, 0], &[]),
            Call::ReadCommitted { partition, place, length } => (1, [*partition, *place], &vec![0; *length]),
            Call::ReadStaged { partition, place, length } => (2, [*partition, *place], &vec![0; *length]),
            Call::Verified { partition, block } => (3, [*partition, *block], &[]),
            Call::CountVerified { partition } => (4, [*partition, 0], &[]),
            Call::Begin => (5, [0, 0], &[]),
            Call::Write { partition, place, data } => (6, [*partition, *place], data),
            Call::Commit => (7, [0, 0], &[]),
            Call::Abandon => (8, [0, 0], &[]),
            Call::SigningBlock { signer } => (9, [0, 0], &signer_bytes(signer)),
            Call::SigningDigest { signer } => (10, [0, 0], &signer_bytes(signer)),
            Call::OpenSigned { signing_key } => (11, [0, 0], &signing_key_bytes(signing_key)),
            Call::CommitSigned { signing_key } => (12, [0, 0], &signing_key_bytes(signing_key)),
            Call::Faults { room } => (13, [*room as u64, 0], &[]),
            Call::Revert => (14, [0, 0], &[]),
            Call::RevertSigned { signing_key } => (15, [0, 0], &signing_key_bytes(signing_key)),
            Call::Names(NamesCall::List { length }) => (16, [0, 0], &vec![0; *length]),
            Call::Names(NamesCall::Find { folder, name }) => (17, [*folder, 0], name),
        };
        for number in [kind, numbers[0], numbers[1]] {
            bytes.extend_from_slice(&number.to_le_bytes());
        }
        bytes.extend_from_slice(session);
        for part in [data, image] {
            bytes.extend_from_slice(&(part.len() as u64).to_le_bytes());
            bytes.extend_from_slice(part);
        }
    }
    bytes
}

/// The calls that `to_bytes` wrote.
pub fn from_bytes(mut bytes: &[u8]) -> Vec<Prepared> {
    let mut prepared = Vec::new();
    while !bytes.is_empty() {
        let [kind, partition, place] = [0; 3].map(|_: u64| take_number(&mut bytes));
        let mut session = [0; SESSION_LENGTH];
        session.copy_from_slice(take(&mut bytes, SESSION_LENGTH));
        let length = take_number(&mut bytes) as usize;
        let data = take(&mut bytes, length);
        let image_length = take_number(&mut bytes) as usize;
        let image = take(&mut bytes, image_length).to_vec();
        let call = match kind {
            0 => Call::Open,
            1 => Call::ReadCommitted { partition, place, length },
            2 => Call::ReadStaged { partition, place, length },
            3 => Call::Verified { partition, block: place },
            4 => Call::CountVerified { partition },
            5 => Call::Begin,
            6 => Call::Write { partition, place, data: data.to_vec() },
            7 => Call::Commit,
            8 => Call::Abandon,
            9 => Call::SigningBlock { signer: signer_of(data) },
            10 => Call::SigningDigest { signer: signer_of(data) },
            11 => Call::OpenSigned { signing_key: signing_key_of(data) },
            12 => Call::CommitSigned { signing_key: signing_key_of(data) },
            13 => Call::Faults { room: partition as usize },
            14 => Call::Revert,
            15 => Call::RevertSigned { signing_key: signing_key_of(data) },
            16 => Call::Names(NamesCall::List { length }),
            _ => Call::Names(NamesCall::Find { folder: partition, name: data.try_into().expect("16 bytes") }),
        };
        prepared.push(Prepared { image, session, call });
    }
    prepared
}

/// A signer's numbers, as the data of its call.
fn signer_bytes(signer: &SignerNumbers) -> Vec<u8> {
    signer.iter().flat_map(|number| number.to_le_bytes()).collect()
}

fn signer_of(mut bytes: &[u8]) -> SignerNumbers {
    [0; 4].map(|_: u64| take_number(&mut bytes))
}

/// A key and its signer, likewise.
fn signing_key_bytes(signing_key: &SigningKey) -> Vec<u8> {
    [&signing_key.key[..], &signer_bytes(&signing_key.signer)].concat()
}

fn signing_key_of(mut bytes: &[u8]) -> SigningKey {
    let key = take(&mut bytes, 16).try_into().expect("16 bytes");
    SigningKey { key, signer: signer_of(bytes) }
}

fn take<'a>(bytes: &mut &'a [u8], length: usize) -> &'a [u8] {
    let (part, rest) = bytes.split_at(length);
    *bytes = rest;
    part
}

fn take_number(bytes: &mut &[u8]) -> u64 {
    u64::from_le_bytes(take(bytes, 8).try_into().expect("eight bytes"))
}
