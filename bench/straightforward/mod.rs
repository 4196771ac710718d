//! (a): the calls in straightforward Rust, which the proved library is compared with. It makes all checks of the paper,
//! works on slices of the image, copies whole runs, and has nothing on the heap but a scratch for a block that does not
//! lie in one piece. For each block of level 4 that a call touches it judges the chain of hash blocks above it anew,
//! and a write hashes that chain anew for each of them.

mod opening;
mod view;

use std::ops::Range;

use crate::plain_sha256::Sha256;
use crate::rules::descriptor::{ENTRY, SELECTOR};
use crate::rules::header::{HEADER, HEADER_LENGTH, LARGEST_TABLE};
use crate::rules::refusal::Refusal;
use crate::rules::session::{SessionBytes, FIRST, SECOND, SESSION_LENGTH};
use opening::{Extent, Opened, Partition};
use view::{Staging, View};

pub struct Straightforward {
    /// Which SHA-256 it uses: the fastest one, or one that counts.
    pub sha256: Sha256,
}

impl Straightforward {
    pub fn open(&self, image: &[u8]) -> Result<Opened, Refusal> {
        opening::open(image, self.sha256)
    }

    pub fn read_committed(&self, image: &[u8], partition: u64, place: u64, buffer: &mut [u8]) -> Result<(), Refusal> {
        let opened = self.open(image)?;
        let view = View::committed(&opened.header, partition_of(&opened, partition)?, self.sha256);
        let range = range_in_data(&view, place, buffer.len())?;
        let scratch = &mut Vec::new();
        for block in view.touched(&range) {
            if !view.verified(image, 4, block, scratch) {
                return Err(Refusal::NotVerified(block as u64));
            }
        }
        view.copy(image, 4, range.start, buffer);
        Ok(())
    }

    pub fn count_verified(&self, image: &[u8], partition: u64) -> Result<u64, Refusal> {
        let opened = self.open(image)?;
        let view = View::committed(&opened.header, partition_of(&opened, partition)?, self.sha256);
        let scratch = &mut Vec::new();
        Ok((0..view.blocks(4)).filter(|block| view.verified(image, 4, *block, scratch)).count() as u64)
    }

    pub fn begin(&self, image: &mut [u8], session: &mut SessionBytes) -> Result<(), Refusal> {
        let opened = self.open(image)?;
        if session[0] != 0 {
            return Err(Refusal::WrongSession);
        }
        let (active, inactive) = (opened.header.active, opened.header.inactive.offset as usize);
        image.copy_within(active.offset as usize..(active.offset + active.size) as usize, inactive);
        for partition in opened.partitions.iter().flatten() {
            image[inactive + partition.descriptor.offset as usize + SELECTOR] ^= 1;
            let Extent { offset, size } = partition.levels[0].extent;
            let halves = [0, 1].map(|half| (partition.area.offset + offset + half * size) as usize);
            let live = halves[partition.selector as usize];
            image.copy_within(live..live + size as usize, halves[1 - partition.selector as usize]);
        }
        *session = [0; SESSION_LENGTH];
        session[0] = 1;
        session[FIRST].copy_from_slice(&image[HEADER..HEADER + HEADER_LENGTH]);
        Ok(())
    }

    pub fn write(
        &self,
        image: &mut [u8],
        session: &mut SessionBytes,
        partition: u64,
        place: u64,
        data: &[u8],
    ) -> Result<(), Refusal> {
        let opened = self.open(image)?;
        check_begun(image, &opened, session)?;
        let partition = partition_of(&opened, partition)?;
        let staging = Staging {
            live: View::committed(&opened.header, partition, self.sha256),
            staged: View::staged(&opened.header, partition, self.sha256),
        };
        let range = range_in_data(&staging.staged, place, data.len())?;
        let scratch = &mut Vec::new();
        judge_write(&staging.staged, image, &range, scratch)?;
        for block in staging.staged.touched(&range) {
            empty_unverified(&staging, image, block, scratch);
        }
        for block in staging.staged.touched(&range) {
            let own = staging.staged.block(4, block);
            let from = range.start.max(own.start);
            let bytes = &data[from - range.start..range.end.min(own.end) - range.start];
            staging.put(image, 4, from, bytes);
            rehash(&staging, image, block, scratch);
        }
        if staging.staged.touched(&range).any(|block| has_zero_digest(&staging.staged, image, block)) {
            *session = [0; SESSION_LENGTH];
            return Err(Refusal::ZeroDigest);
        }
        Ok(())
    }

    pub fn commit(&self, image: &mut [u8], session: &mut SessionBytes) -> Result<(), Refusal> {
        let opened = self.open(image)?;
        check_begun(image, &opened, session)?;
        let kind = opened.header.kind;
        let digest = (self.sha256)(opened.header.inactive.of(image));
        session[0] = 0;
        session[FIRST].copy_from_slice(&image[HEADER..HEADER + HEADER_LENGTH]);
        image[HEADER + kind.flag_place().0] ^= 1;
        image[HEADER + kind.hash_place()..][..digest.len()].copy_from_slice(&digest);
        session[SECOND].copy_from_slice(&image[HEADER..HEADER + HEADER_LENGTH]);
        Ok(())
    }
}

fn partition_of(opened: &Opened, number: u64) -> Result<&Partition, Refusal> {
    let partition = usize::try_from(number).ok().and_then(|index| opened.partitions.get(index));
    partition.and_then(Option::as_ref).ok_or(Refusal::NoSuchPartition)
}

fn range_in_data(view: &View, place: u64, length: usize) -> Result<Range<usize>, Refusal> {
    if !(Extent { offset: place, size: length as u64 }).lies_in(view.data_size()) {
        return Err(Refusal::PastTheEnd);
    }
    Ok(place as usize..place as usize + length)
}

/// Refusals 13 and 14: the header is the remembered one, and the inactive table is the active one with each selector
/// flipped and any master hashes.
fn check_begun(image: &[u8], opened: &Opened, session: &SessionBytes) -> Result<(), Refusal> {
    if session[0] == 0 {
        return Err(Refusal::WrongSession);
    }
    let inactive = opened.header.inactive.of(image);
    let mut table = [0; LARGEST_TABLE as usize];
    let expected = &mut table[..inactive.len()];
    expected.copy_from_slice(opened.header.active.of(image));
    for partition in opened.partitions.iter().flatten() {
        let descriptor = partition.descriptor.offset as usize;
        expected[descriptor + SELECTOR] ^= 1;
        let master = descriptor + partition.master.offset as usize;
        let end = master + partition.master.size as usize;
        expected[master..end].copy_from_slice(&inactive[master..end]);
    }
    if session[FIRST] == image[HEADER..HEADER + HEADER_LENGTH] && expected == inactive {
        Ok(())
    } else {
        Err(Refusal::Outdated)
    }
}

/// Refusal 10 for the ends of the range that cover a block only in part.
fn judge_write(view: &View, image: &[u8], range: &Range<usize>, scratch: &mut Vec<u8>) -> Result<(), Refusal> {
    for block in view.touched(range) {
        let own = view.block(4, block);
        let covered = range.start <= own.start && own.end <= range.end;
        if !covered && !view.verified(image, 4, block, scratch) {
            return Err(Refusal::NotVerified(block as u64));
        }
    }
    Ok(())
}

/// Empties each hash block above one block of level 4 that is not verified. From level 1 down its entry tells: that of a
/// block below an emptied one is zero, and matches nothing.
fn empty_unverified(staging: &Staging, image: &mut [u8], block: usize, scratch: &mut Vec<u8>) {
    let view = &staging.staged;
    let three = view.holder(3, block);
    let two = view.holder(2, three);
    for (level, block) in [(1, view.holder(1, two)), (2, two), (3, three)] {
        if !view.matches(image, level, block, scratch) {
            let own = view.block(level, block);
            staging.put(image, level, own.start, &vec![0; own.len()]);
        }
    }
}

/// Is an entry above one block of level 4 all zero, up to the staged master hash?
fn has_zero_digest(view: &View, image: &[u8], block: usize) -> bool {
    let mut block = block;
    (1..=4).rev().any(|level| {
        let zero = view.entry(image, level, block) == [0; ENTRY as usize];
        block = view.holder(level - 1, block);
        zero
    })
}

/// Brings the entries above one block of level 4 up to date, up to the staged master hash.
fn rehash(staging: &Staging, image: &mut [u8], block: usize, scratch: &mut Vec<u8>) {
    let mut block = block;
    for level in (1..=4).rev() {
        let digest = staging.staged.digest(image, level, block, scratch);
        staging.put(image, level - 1, block * ENTRY as usize, &digest);
        block = staging.staged.holder(level - 1, block);
    }
}
