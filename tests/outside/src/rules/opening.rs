//! Opening an image: refusals 1 to 7 in the paper's order, and what an accepted image says.

use super::aes::Key;
use super::descriptor::{read_descriptor, Descriptor};
use super::extent::Extent;
use super::header::{header_places_hold, read_header, Header, PartitionPlace, HEADER};
use super::refusal::Refusal;
use super::sha256::sha256;
use super::signing::{signature, Signer, SIGNATURE_LENGTH};

#[derive(Clone, Debug, PartialEq, Eq)]
pub struct Partition {
    pub place: PartitionPlace,
    pub descriptor: Descriptor,
}

impl Partition {
    /// Where a range of an external level 4 lies in the image: what a write changes at once. None if level 4 is internal.
    pub fn written_in_place(&self, range: Extent) -> Option<Extent> {
        let start = self.place.area.offset + u128::from(self.descriptor.external?);
        Some(Extent { offset: start + range.offset, size: range.size })
    }
}

/// Every field that is read from an accepted image.
#[derive(Clone, Debug, PartialEq, Eq)]
pub struct Opened {
    pub header: Header,
    pub partitions: Vec<Partition>,
}

impl Opened {
    pub fn partition(&self, number: u64) -> Result<&Partition, Refusal> {
        usize::try_from(number).ok().and_then(|index| self.partitions.get(index)).ok_or(Refusal::NoSuchPartition)
    }
}

/// The active table as a part of the image itself.
pub fn active_table<'image>(image: &'image [u8], header: &Header) -> &'image [u8] {
    header.active_table().of(image)
}

pub fn open(image: &[u8]) -> Result<Opened, Refusal> {
    open_under(image, read_header(image)?)
}

/// Opens an image whose first 16 bytes must be its signature: 1, 2, 3, then 15 and 16, then the rest of opening's.
pub fn open_signed(image: &[u8], key: &Key, signer: Signer) -> Result<Opened, Refusal> {
    let header = read_header(image)?;
    if image[..SIGNATURE_LENGTH] != signature(image, key, signer)? {
        return Err(Refusal::WrongSignature);
    }
    open_under(image, header)
}

/// Refusals 4 to 7, under a header whose count and flag hold.
fn open_under(image: &[u8], header: Header) -> Result<Opened, Refusal> {
    if !header_places_hold(&header, image.len() as u128) {
        return Err(Refusal::HeaderPlaces);
    }
    let table = active_table(image, &header);
    let hash = Extent { offset: (HEADER + header.kind.hash_place()) as u128, size: 32 };
    if sha256(table) != hash.of(image) {
        return Err(Refusal::TableHash);
    }
    let mut partitions = Vec::new();
    for place in &header.partitions {
        let descriptor = read_descriptor(place.descriptor.of(table), place.area.size)?;
        partitions.push(Partition { place: *place, descriptor });
    }
    Ok(Opened { header, partitions })
}
