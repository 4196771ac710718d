//! What the tests of plans and of files share.
#![allow(dead_code)] // each test is a crate of its own and uses a part

use std::collections::BTreeSet;
use std::fs;
use std::path::PathBuf;

use teplovist::{Description, Fault, Image, Kind, Partition, Refusal, Signer};

pub const SAMPLES: [&str; 5] = ["disa-one.img", "disa-two.img", "diff.img", "external.img", "blank.img"];

pub fn sample(name: &str) -> Vec<u8> {
    fs::read(format!("{}/../samples/{name}", env!("CARGO_MANIFEST_DIR"))).expect("the repository has its samples")
}

/// Some signer that fits the container.
pub fn signer_for(image: &[u8]) -> Signer {
    match description(image).kind {
        Kind::Disa => Signer::Title { id: 0x0004_0000_0011_2200 },
        Kind::Diff => Signer::Database { id: 2 },
    }
}

pub fn description(image: &[u8]) -> Description {
    Image::new(image).open().expect("the image opens")
}

/// A block of level 4, by its partition and its number.
pub type BlockName = (Partition, u64);

/// Everything that the library answers of what is committed.
#[derive(Debug, PartialEq)]
pub struct Answers {
    description: Description,
    /// For each block of level 4 what a read of it gives, and whether it is verified.
    blocks: Vec<(BlockName, Result<Vec<u8>, Refusal>, bool)>,
    faults: Vec<Fault>,
}

/// The answers about an image, but for some blocks of level 4.
pub fn answers(image: &[u8], but_for: &BTreeSet<BlockName>) -> Result<Answers, Refusal> {
    let image = Image::new(image);
    let description = image.open()?;
    let mut blocks = Vec::new();
    for (partition, layout) in description.partitions() {
        let numbers = (0..layout.level4().blocks()).filter(|block| !but_for.contains(&(partition, *block)));
        for block in numbers {
            let extent = layout.level4().block(block);
            let mut bytes = vec![0; extent.size as usize];
            let read = image.read(partition, extent.offset, &mut bytes).map(|()| bytes);
            blocks.push(((partition, block), read, image.is_verified(partition, block)?));
        }
    }
    let excepted = |fault: &Fault| fault.level == 4 && but_for.contains(&(partition_of(fault), fault.block));
    let faults = image.faults()?.into_iter().filter(|fault| !excepted(fault)).collect();
    Ok(Answers { description, blocks, faults })
}

fn partition_of(fault: &Fault) -> Partition {
    Partition::ALL[fault.partition as usize]
}

/// Numbers that look random and are the same in every run (xorshift).
pub struct Random(u64);

impl Random {
    pub fn new(seed: u64) -> Random {
        Random(seed.wrapping_mul(0x9E37_79B9_7F4A_7C15) | 1)
    }

    pub fn number(&mut self) -> u64 {
        self.0 ^= self.0 << 13;
        self.0 ^= self.0 >> 7;
        self.0 ^= self.0 << 17;
        self.0 >> 11
    }

    pub fn below(&mut self, bound: u64) -> u64 {
        self.number() % bound
    }

    pub fn bytes(&mut self, length: usize) -> Vec<u8> {
        (0..length).map(|_| self.number() as u8).collect()
    }
}

/// A folder of its own for one test, which goes when the test ends.
pub struct Folder(PathBuf);

impl Folder {
    pub fn new(name: &str) -> Folder {
        let folder = std::env::temp_dir().join(format!("teplovist-{name}-{}", std::process::id()));
        fs::create_dir_all(&folder).expect("there is room for a folder");
        Folder(folder)
    }

    /// A file in the folder with these bytes.
    pub fn file(&self, name: &str, bytes: &[u8]) -> PathBuf {
        let path = self.path(name);
        fs::write(&path, bytes).expect("there is room for a file");
        path
    }

    pub fn path(&self, name: &str) -> PathBuf {
        self.0.join(name)
    }
}

impl Drop for Folder {
    fn drop(&mut self) {
        let _ = fs::remove_dir_all(&self.0);
    }
}
