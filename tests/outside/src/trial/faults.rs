//! The fault list: what it must hold, and damage on every level whose faults are known beforehand.

use super::call::{untouched_row, Call, Outcome};
use super::list::compare_subject;
use super::properties::require;
use super::tally::Tally;
use crate::generate::contents::put_table_hash;
use crate::generate::random::Random;
use crate::generate::shape::Wanted;
use crate::generate::{valid_image, Sample};
use crate::rules::descriptor::ENTRY;
use crate::rules::dpfs::View;
use crate::rules::faults::FaultRecord;
use crate::rules::header::Kind;
use crate::rules::opening::Partition;
use crate::rules::session::SESSION_LENGTH;
use crate::subject::{Rules, Subject};

/// Of each partition, which blocks of levels 1 to 4 are verified.
type Verified = [Vec<bool>; 4];

/// The list that comes of which blocks are verified.
pub fn list_of(partitions: &[Verified]) -> Vec<FaultRecord> {
    let mut list = Vec::new();
    for (partition, levels) in (0..).zip(partitions) {
        for (level, blocks) in (1..).zip(levels) {
            let bad = (0..).zip(blocks).filter(|(_, verified)| !**verified);
            list.extend(bad.map(|(block, _)| FaultRecord { partition, level, block }));
        }
    }
    list
}

/// The list of an image that was built with these faults.
pub fn known_faults(sample: &Sample) -> Vec<FaultRecord> {
    let levels = sample
        .hash_verified
        .iter()
        .zip(&sample.versions)
        .map(|([one, two, three], version)| [one.clone(), two.clone(), three.clone(), version.verified.clone()]);
    list_of(&levels.collect::<Vec<_>>())
}

/// The answer is the number of all faults; the row holds as many of the first ones as it has room for, and behind them
/// what it held before.
pub fn check_row(outcome: &Outcome, expected: &[FaultRecord]) -> Result<(), String> {
    let number = (expected.len() as u64) << 8;
    require(outcome.answer == number, || format!("answered {:#x}, not {number:#x}", outcome.answer))?;
    let filled = expected.len().min(outcome.row.len());
    let mut row = untouched_row(outcome.row.len());
    row[..filled].copy_from_slice(&expected[..filled]);
    let place = (0..row.len()).find(|place| outcome.row[*place] != row[*place]);
    require(place.is_none(), || format!("record {} of the row is wrong", place.unwrap_or(0)))
}

const IMAGES: u64 = 6;

/// Two partitions, either of which may be external, with spare hash blocks; every block of each of the levels is damaged
/// in turn, and every entry of the master hash.
pub fn run(subject: Option<&dyn Subject>, tally: &mut Tally) -> Result<(), String> {
    for seed in 0..IMAGES {
        let random = &mut Random::new(seed);
        let wanted = Wanted {
            kind: Some(Kind::Disa),
            count: Some(2),
            external: [None, Some(false), Some(true)][seed as usize % 3],
            data: Some((random.between(100, 500), random.between(5, 8))),
            spare: Some(8),
            all_verified: true,
            ..Wanted::default()
        };
        let sample = valid_image(random, &wanted);
        try_rows(&sample.image, &[], subject, tally)?;
        for target in 0..sample.opened.partitions.len() {
            for level in 0..=4 {
                run_level(&sample, target, level, subject, tally)
                    .map_err(|complaint| format!("seed {seed}, partition {target}: {complaint}"))?;
            }
        }
    }
    Ok(())
}

/// Damages each block of a level in turn; level 0 is the master hash, with an entry for a block. Then every second one.
fn run_level(
    sample: &Sample,
    target: usize,
    level: usize,
    subject: Option<&dyn Subject>,
    tally: &mut Tally,
) -> Result<(), String> {
    let descriptor = &sample.opened.partitions[target].descriptor;
    let blocks = match level {
        0 => (descriptor.master.size / ENTRY) as usize,
        _ => descriptor.hash_level(level).blocks() as usize,
    };
    let mut attempt = |damaged: &[usize]| {
        let mut image = sample.image.clone();
        damaged.iter().for_each(|block| spoil(&mut image, sample, target, level, *block));
        try_rows(&image, &faults_below(sample, target, level, damaged), subject, tally)
            .map_err(|complaint| format!("blocks {damaged:?} of level {level}: {complaint}"))
    };
    for block in 0..blocks {
        attempt(&[block])?;
    }
    attempt(&(0..blocks).step_by(2).collect::<Vec<_>>())?;
    attempt(&(0..blocks).collect::<Vec<_>>())
}

/// Changes the last byte of a block of the committed view, or of an entry of the active master hash.
fn spoil(image: &mut [u8], sample: &Sample, target: usize, level: usize, block: usize) {
    let partition = &sample.opened.partitions[target];
    let position = match level {
        0 => {
            let table = sample.opened.header.active_table().offset + partition.place.descriptor.offset;
            table + partition.descriptor.master.offset + ENTRY * (block as u128 + 1) - 1
        }
        _ => last_byte(image, sample, partition, level, block as u128),
    };
    image[position as usize] ^= 1;
    put_table_hash(image, &sample.opened);
}

/// The position of the last byte of a block of levels 1 to 4.
fn last_byte(image: &[u8], sample: &Sample, partition: &Partition, level: usize, block: u128) -> u128 {
    let shape = partition.descriptor.hash_level(level);
    let place = shape.block_extent(block).end() - 1;
    match partition.descriptor.external {
        Some(offset) if level == 4 => partition.place.area.offset + u128::from(offset) + place,
        _ => View::committed(image, &sample.opened, partition).level3_position(shape.extent.offset + place),
    }
}

/// What is wrong once these blocks of a level are damaged where all was right: they, and all below them.
fn faults_below(sample: &Sample, target: usize, level: usize, damaged: &[usize]) -> Vec<FaultRecord> {
    let descriptor = &sample.opened.partitions[target].descriptor;
    let mut list = Vec::new();
    let mut bad = damaged.to_vec();
    for below in level.max(1)..=4 {
        let blocks = 0..descriptor.hash_level(below).blocks() as usize;
        if below > level {
            let entries = if below == 1 { 1 } else { descriptor.hash_level(below - 1).block_size() / ENTRY } as usize;
            bad = blocks.filter(|block| bad.contains(&(block / entries))).collect();
        }
        list.extend(bad.iter().map(|block| FaultRecord {
            partition: target as u64,
            level: below as u64,
            block: *block as u64,
        }));
    }
    list
}

/// Asks for the list with rows that are too short, just right and too long.
fn try_rows(
    image: &[u8],
    expected: &[FaultRecord],
    subject: Option<&dyn Subject>,
    tally: &mut Tally,
) -> Result<(), String> {
    let count = expected.len();
    for room in [0, count.saturating_sub(1), count, count + 5] {
        let call = Call::Faults { room };
        let mut after = image.to_vec();
        let session = [0; SESSION_LENGTH];
        let outcome = call.perform(&Rules, &mut after, &mut session.clone());
        tally.note(call.name(), outcome.answer);
        check_row(&outcome, expected).map_err(|complaint| format!("a row of {room}: {complaint}"))?;
        if let Some(subject) = subject {
            compare_subject(subject, &call, image, &session, image, &session, &outcome)?;
        }
    }
    Ok(())
}
