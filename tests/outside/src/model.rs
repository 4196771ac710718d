//! The reference model: what a caller may rely on over a whole list of calls, without images, hashes or copies.
//! It follows one partition and is fed each call's name, its arguments and whether it was accepted.

mod names;

use crate::rules::refusal::Refusal;

/// Level 4's bytes and which of its blocks are verified.
#[derive(Clone, Debug, PartialEq, Eq)]
pub struct Version {
    pub bytes: Vec<u8>,
    pub verified: Vec<bool>,
}

#[derive(Clone, Debug)]
pub struct Model {
    pub block_size: usize,
    pub committed: Version,
    /// Held from an accepted begin on, until an accepted commit or abandon.
    pub staged: Option<Version>,
    /// Of an external level 4, the bytes of each block that was verified when they were committed.
    committed_blocks: Option<Vec<Option<Vec<u8>>>>,
}

impl Version {
    /// The blocks that have a byte in the range.
    fn touched(place: usize, length: usize, block_size: usize) -> std::ops::Range<usize> {
        if length == 0 {
            0..0
        } else {
            place / block_size..(place + length - 1) / block_size + 1
        }
    }

    /// Bytes are laid over, and every block that they touch is verified.
    pub fn lay_over(&mut self, place: usize, data: &[u8], block_size: usize) {
        self.bytes[place..place + data.len()].copy_from_slice(data);
        for block in Version::touched(place, data.len(), block_size) {
            self.verified[block] = true;
        }
    }

    fn block(&self, block: usize, block_size: usize) -> &[u8] {
        &self.bytes[block * block_size..self.bytes.len().min((block + 1) * block_size)]
    }

    /// The bytes of each block that is verified.
    fn verified_blocks(&self, block_size: usize) -> Vec<Option<Vec<u8>>> {
        let bytes = |(block, verified): (usize, &bool)| verified.then(|| self.block(block, block_size).to_vec());
        self.verified.iter().enumerate().map(bytes).collect()
    }

    /// What a read of this version gives: its bytes, or 10 with the lowest touched block that is not verified, or 9.
    pub fn read(&self, place: u64, length: usize, block_size: usize) -> Result<&[u8], Refusal> {
        if u128::from(place) + length as u128 > self.bytes.len() as u128 {
            return Err(Refusal::PastTheEnd);
        }
        let place = place as usize;
        match Version::touched(place, length, block_size).find(|block| !self.verified[*block]) {
            Some(block) => Err(Refusal::NotVerified(block as u64)),
            None => Ok(&self.bytes[place..place + length]),
        }
    }

    /// What a write over this version answers after 8: 9, or 10 with the lowest block to which it applies. Of 17 the
    /// model knows nothing beforehand.
    pub fn write(&self, place: u64, length: usize, block_size: usize) -> Result<(), Refusal> {
        if u128::from(place) + length as u128 > self.bytes.len() as u128 {
            return Err(Refusal::PastTheEnd);
        }
        let place = place as usize;
        let covered = |block: usize| {
            let mut bytes = block * block_size..self.bytes.len().min((block + 1) * block_size);
            bytes.all(|byte| (place..place + length).contains(&byte))
        };
        let mut touched = Version::touched(place, length, block_size);
        match touched.find(|block| !self.verified[*block] && !covered(*block)) {
            Some(block) => Err(Refusal::NotVerified(block as u64)),
            None => Ok(()),
        }
    }

    /// What "is it verified" answers of this version.
    pub fn is_verified(&self, block: u64) -> Result<bool, Refusal> {
        usize::try_from(block).ok().and_then(|block| self.verified.get(block)).copied().ok_or(Refusal::PastTheEnd)
    }

    pub fn count_verified(&self) -> u64 {
        self.verified.iter().filter(|verified| **verified).count() as u64
    }
}

impl Model {
    pub fn new(block_size: usize, external: bool, committed: Version) -> Model {
        let committed_blocks = external.then(|| committed.verified_blocks(block_size));
        Model { block_size, committed, staged: None, committed_blocks }
    }

    pub fn begin_accepted(&mut self) {
        self.staged = Some(self.committed.clone());
    }

    /// A write to this partition. Without a staged version there is nothing to lay the bytes over, but for an external
    /// level 4.
    pub fn write_accepted(&mut self, place: usize, data: &[u8], matches: impl Fn(usize) -> bool) {
        self.laid_in_place(place, data, matches);
        if let Some(staged) = &mut self.staged {
            staged.lay_over(place, data, self.block_size);
        }
    }

    /// In an external level 4 bytes are laid over the committed version at once. A touched block is verified there if it
    /// is as it was when it was committed. If it was not verified then, it may be now: `matches` says so of a block.
    pub fn laid_in_place(&mut self, place: usize, data: &[u8], matches: impl Fn(usize) -> bool) {
        let Some(committed_blocks) = &self.committed_blocks else { return };
        self.committed.bytes[place..place + data.len()].copy_from_slice(data);
        for block in Version::touched(place, data.len(), self.block_size) {
            self.committed.verified[block] = match &committed_blocks[block] {
                Some(bytes) => self.committed.block(block, self.block_size) == bytes,
                None => matches(block),
            };
        }
    }

    /// What is committed now is known to be this.
    pub fn committed_anew(&mut self, version: Version) {
        *self = Model::new(self.block_size, self.committed_blocks.is_some(), version);
    }

    /// Answers whether the model knows what is committed now: it does not if it held no staged version.
    pub fn commit_accepted(&mut self) -> bool {
        match self.staged.take() {
            Some(staged) => {
                self.committed_anew(staged);
                true
            }
            None => false,
        }
    }

    /// A write that ends in 17 counts as an abandon too.
    pub fn abandon_accepted(&mut self) {
        self.staged = None;
    }
}
