//! Everything that a picture of an image shows.

use super::geometry::{pairs, Pairs};
use crate::{Description, Image, Partition, PartitionLayout, Refusal};

pub struct Facts {
    pub description: Description,
    /// How many bytes the image has.
    pub length: u64,
    pub partitions: Vec<PartitionFacts>,
}

pub struct PartitionFacts {
    pub name: Partition,
    pub layout: PartitionLayout,
    pub pairs: Pairs,
    /// The blocks of levels 1 to 4 that are not verified, as the library lists them.
    pub faults: [Vec<u64>; 4],
}

impl Facts {
    pub fn of(image: &Image<impl AsRef<[u8]>>) -> Result<Facts, Refusal> {
        let description = image.open()?;
        let mut partitions: Vec<PartitionFacts> = description
            .partitions()
            .map(|(name, layout)| PartitionFacts {
                name,
                layout: *layout,
                pairs: pairs(image.bytes(), &description, layout),
                faults: Default::default(),
            })
            .collect();
        for fault in image.faults()? {
            partitions[fault.partition as usize].faults[fault.level as usize - 1].push(fault.block);
        }
        Ok(Facts { length: image.bytes().len() as u64, description, partitions })
    }

    /// How many blocks of levels 1 to 4 there are in all partitions.
    pub fn blocks(&self) -> u64 {
        self.partitions.iter().flat_map(|partition| &partition.layout.levels).map(|level| level.blocks()).sum()
    }

    /// How many of them are not verified.
    pub fn faults(&self) -> u64 {
        self.partitions.iter().flat_map(|partition| &partition.faults).map(|faults| faults.len() as u64).sum()
    }
}
