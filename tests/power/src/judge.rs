//! What an image must answer, and whether it does. The independent implementation is asked, never the library under
//! test.

use outside::generate::random::Random;
use outside::generate::signing::SigningKey;
use outside::model::Version;
use outside::rules::calls;
use outside::rules::dpfs::View;
use outside::rules::faults::{faults, FaultRecord};
use outside::rules::opening::{open, open_signed, Opened};
use outside::rules::refusal::Refusal;
use outside::rules::signing::Signer;
use outside::trial::list::version_of;
use outside::trial::properties::require;

use crate::in_place::InPlace;

/// Everything that the committed state of an image answers.
#[derive(Clone, Debug, PartialEq, Eq)]
pub struct Answers {
    opened: Opened,
    /// What signed opening says under the host's key: the image is signed, or the refusal.
    signed: Result<(), Refusal>,
    /// The committed level 4 of each partition.
    versions: Vec<Version>,
    /// The fault list without level 4, of which the versions tell.
    hash_faults: Vec<FaultRecord>,
}

const LEVEL_4: u64 = 4;

impl Answers {
    /// What an image that opens answers now.
    pub fn of(image: &[u8], signing_key: &SigningKey) -> Answers {
        let opened = open(image).expect("the image opens");
        let versions =
            opened.partitions.iter().map(|partition| version_of(&View::committed(image, &opened, partition)));
        let mut hash_faults = faults(image).expect("the image opens");
        hash_faults.retain(|fault| fault.level < LEVEL_4);
        Answers { signed: signed(image, signing_key), versions: versions.collect(), opened, hash_faults }
    }

    pub fn is_signed(&self) -> bool {
        self.signed.is_ok()
    }

    fn block_size(&self, partition: usize) -> usize {
        self.opened.partitions[partition].descriptor.hash_level(LEVEL_4 as usize).block_size() as usize
    }

    /// Each question to an image must be answered so. Those that are asked of one block are asked of all blocks, and of
    /// one of them by the call itself.
    pub fn check(&self, image: &[u8], signing_key: &SigningKey, random: &mut Random) -> Result<(), String> {
        let opened = open(image).map_err(|refusal| format!("it does not open: {refusal:?}"))?;
        require(opened == self.opened, || "opening says something else".into())?;
        let found = signed(image, signing_key);
        require(found == self.signed, || format!("signed opening says {found:?}, not {:?}", self.signed))?;
        for partition in 0..self.versions.len() {
            self.check_partition(image, partition, random)
                .map_err(|complaint| format!("partition {partition}: {complaint}"))?;
        }
        let found = faults(image);
        require(found == Ok(self.faults()), || format!("the fault list is {found:?}, not {:?}", self.faults()))
    }

    fn check_partition(&self, image: &[u8], partition: usize, random: &mut Random) -> Result<(), String> {
        let version = &self.versions[partition];
        let number = partition as u64;
        let view = View::committed(image, &self.opened, &self.opened.partitions[partition]);
        require(view.data() == version.bytes, || "level 4 has other bytes".into())?;
        let other =
            (0..version.verified.len()).find(|block| view.verified(4, *block as u128) != version.verified[*block]);
        require(other.is_none(), || format!("verified of block {other:?} answers the other way round"))?;

        let block = random.below(version.verified.len() as u64 + 1);
        let found = calls::verified(image, number, block);
        require(found == version.is_verified(block), || format!("verified of block {block} says {found:?}"))?;
        let found = calls::count_verified(image, number);
        require(found == Ok(version.count_verified()), || format!("the count is {found:?}"))?;

        let mut buffer = vec![0; version.bytes.len()];
        let answer = calls::read_committed(image, number, 0, &mut buffer);
        let found = answer.map(|()| &buffer[..]);
        let expected = version.read(0, version.bytes.len(), self.block_size(partition));
        require(found == expected, || format!("a read of everything says {answer:?}, or has other bytes"))
    }

    /// By partition, then by level: level 4's stand behind those of the partition's hash blocks.
    fn faults(&self) -> Vec<FaultRecord> {
        let mut list = Vec::new();
        for (partition, version) in (0..).zip(&self.versions) {
            list.extend(self.hash_faults.iter().filter(|fault| fault.partition == partition));
            let blocks = (0..).zip(&version.verified).filter(|(_, verified)| !**verified);
            list.extend(blocks.map(|(block, _)| FaultRecord { partition, level: LEVEL_4, block }));
        }
        list
    }

    /// The same where bytes may have been written in place. A block that was written to goes by its bytes as they are
    /// and by its committed entry: each byte is the old one or the new one, a block that is as it was is verified if it
    /// was, and one that was verified and has changed is not. Every other block is as it was.
    pub fn with_in_place(&self, image: &[u8], after: &Answers, in_place: &InPlace) -> Result<Answers, String> {
        let mut answers = self.clone();
        for (number, partition) in self.opened.partitions.iter().enumerate() {
            let block_size = self.block_size(number);
            let (old, new) = (&self.versions[number], &after.versions[number]);
            let view = View::committed(image, &self.opened, partition);
            let found = view.data();
            let version = &mut answers.versions[number];
            for range in in_place.ranges(number) {
                let mixed = range.clone().all(|place| [old.bytes[place], new.bytes[place]].contains(&found[place]));
                require(mixed, || format!("partition {number}: a byte in place is neither old nor new"))?;
                version.bytes[range.clone()].copy_from_slice(&found[range.clone()]);
            }
            for block in in_place.blocks(number, block_size) {
                let bytes = block * block_size..version.bytes.len().min((block + 1) * block_size);
                if version.bytes[bytes.clone()] != old.bytes[bytes] {
                    version.verified[block] = !old.verified[block] && view.verified(4, block as u128);
                }
            }
        }
        Ok(answers)
    }
}

fn signed(image: &[u8], signing_key: &SigningKey) -> Result<(), Refusal> {
    open_signed(image, &signing_key.key, Signer::from_numbers(signing_key.signer)).map(|_| ())
}
