//! Names inside a save: the folders and files of a SAVE image, which is level 4 of a DISA with one partition.

use std::collections::HashSet;

use super::calls::blocks_of;
use super::dpfs::View;
use super::extent::{number, Extent};
use super::header::Kind;
use super::opening::{open, Opened};
use super::refusal::Refusal;

pub const NAME_LENGTH: usize = 16;
pub type Name = [u8; NAME_LENGTH];

pub const SAVE_OPENING: &[u8; 8] = b"SAVE\x00\x00\x04\x00";
pub const SAVE_HEADER_SIZE: u128 = 0x88;
pub const FOLDER_ENTRY_SIZE: u128 = 0x28;
pub const FILE_ENTRY_SIZE: u128 = 0x30;

/// The root's number.
pub const ROOT: u64 = 1;
/// A folder is at most so many levels below the root.
pub const DEEPEST: u64 = 1000;

/// Where an entry has its name, and a folder or a file the number of its next sibling.
const NAME: usize = 0x04;
const NEXT_SIBLING: usize = 0x14;
const FIRST_SUBFOLDER: usize = 0x18;
const FIRST_FILE: usize = 0x1C;
/// Where a file has the next file of its bucket.
const NEXT_IN_BUCKET: usize = 0x2C;

#[derive(Clone, Copy, Debug, PartialEq, Eq)]
pub enum NameKind {
    Folder,
    File,
}

/// One name of a listing.
#[derive(Clone, Copy, Debug, PartialEq, Eq)]
pub struct Listed {
    pub kind: NameKind,
    pub number: u64,
    pub name: Name,
}

/// At the library's boundary a name is a record: its kind and number, four bytes each, and the name.
pub const RECORD_LENGTH: usize = 24;

impl Listed {
    pub fn record(&self) -> [u8; RECORD_LENGTH] {
        let kind: u32 = match self.kind {
            NameKind::Folder => 0,
            NameKind::File => 1,
        };
        let mut record = [0; RECORD_LENGTH];
        record[..4].copy_from_slice(&kind.to_le_bytes());
        record[4..8].copy_from_slice(&(self.number as u32).to_le_bytes());
        record[8..].copy_from_slice(&self.name);
        record
    }
}

/// Lists the names of a save, the root's first.
pub fn list_names(image: &[u8]) -> Result<Vec<Listed>, Refusal> {
    let opened = open(image)?;
    let save = Save::open(image, &opened)?;
    let mut walk = Walk { save: &save, folders: HashSet::new(), files: HashSet::new(), listed: Vec::new() };
    // The root has no siblings: what its entry says of them is not followed.
    walk.list_folder(ROOT, 0)?;
    Ok(walk.listed)
}

/// Finds the first file of a bucket's chain that has this folder's number and this name.
pub fn find_file(image: &[u8], folder: u64, name: &Name) -> Result<Option<u64>, Refusal> {
    let opened = open(image)?;
    let save = Save::open(image, &opened)?;
    let bucket = bucket(name, folder as u32, (save.file_buckets.size / BUCKET_SIZE) as u32);
    let word = save.level4.read(save.file_buckets.offset + BUCKET_SIZE * u128::from(bucket), BUCKET_SIZE)?;
    let mut met = HashSet::new();
    let mut file = number(&word, 0, 4);
    while file != 0 {
        let entry = save.files.enter(&save.level4, &mut met, file)?;
        if number(&entry, 0, 4) == folder && name_of(&entry) == *name {
            return Ok(Some(file));
        }
        file = number(&entry, NEXT_IN_BUCKET, 4);
    }
    Ok(None)
}

/// Each byte of the name counts as 0 to 255.
#[allow(clippy::manual_rotate)] // as document 004 prints it
pub fn bucket(name: &Name, parent: u32, bucket_count: u32) -> u32 {
    let mut hash = parent ^ 0x091A2B3C;
    for i in 0..4 {
        hash = (hash >> 1) | (hash << 31);
        hash ^= u32::from(name[i * 4]);
        hash ^= u32::from(name[i * 4 + 1]) << 8;
        hash ^= u32::from(name[i * 4 + 2]) << 16;
        hash ^= u32::from(name[i * 4 + 3]) << 24;
    }
    hash % bucket_count
}

const BUCKET_SIZE: u128 = 4;

/// The committed view's level 4, and which of its blocks are verified.
struct Level4<'a> {
    view: View<'a>,
    verified: Vec<bool>,
}

impl Level4<'_> {
    /// Bytes that lie in level 4: refusal 10 carries the lowest block of them that is not verified.
    fn read(&self, place: u128, size: u128) -> Result<Vec<u8>, Refusal> {
        let range = Extent { offset: place, size };
        let mut touched = blocks_of(self.view.partition.descriptor.hash_level(4).block_size(), range);
        match touched.find(|block| !self.verified[*block as usize]) {
            Some(block) => Err(Refusal::NotVerified(block as u64)),
            None => Ok(self.view.level_bytes(4, range.offset, range.end())),
        }
    }
}

/// A table of entries.
struct Table {
    place: u128,
    entry_size: u128,
    /// How many entries it holds by the header.
    most: u128,
    /// How many there are by its entry 0.
    current: u64,
}

impl Table {
    fn extent(&self) -> Extent {
        Extent { offset: self.place, size: self.most * self.entry_size }
    }

    fn read(&self, level4: &Level4, number: u64) -> Result<Vec<u8>, Refusal> {
        level4.read(self.place + u128::from(number) * self.entry_size, self.entry_size)
    }

    fn read_current(&mut self, level4: &Level4) -> Result<(), Refusal> {
        self.current = number(&self.read(level4, 0)?, 0, 4);
        Ok(())
    }

    /// Judges an entry's number, then reads the entry.
    fn enter(&self, level4: &Level4, met: &mut HashSet<u64>, number: u64) -> Result<Vec<u8>, Refusal> {
        if number >= self.current || u128::from(number) >= self.most || !met.insert(number) {
            return Err(Refusal::BrokenTree);
        }
        self.read(level4, number)
    }
}

/// What the header of a SAVE image says, and its tables' entries 0.
struct Save<'a> {
    level4: Level4<'a>,
    folders: Table,
    files: Table,
    file_buckets: Extent,
}

impl<'a> Save<'a> {
    fn open(image: &'a [u8], opened: &'a Opened) -> Result<Save<'a>, Refusal> {
        let partition = match &opened.partitions[..] {
            [one] if opened.header.kind == Kind::Disa && one.descriptor.external.is_none() => one,
            _ => return Err(Refusal::NotASave),
        };
        let view = View::committed(image, opened, partition);
        let size = view.data_size();
        if size < SAVE_HEADER_SIZE {
            return Err(Refusal::NotASave);
        }
        let level4 = Level4 { verified: view.verified_blocks(4), view };
        let header = level4.read(0, SAVE_HEADER_SIZE)?;
        let field = |place, length| u128::from(number(&header, place, length));
        let table = |start, most, entry_size| {
            let place = field(0x58, 8) + field(start, 4) * field(0x24, 4);
            Table { place, entry_size, most, current: 0 }
        };
        let buckets = |place, count| Extent { offset: field(place, 8), size: BUCKET_SIZE * field(count, 4) };
        let mut folders = table(0x68, field(0x70, 4) + 2, FOLDER_ENTRY_SIZE);
        let mut files = table(0x78, field(0x80, 4) + 1, FILE_ENTRY_SIZE);
        let folder_buckets = buckets(0x28, 0x30);
        let file_buckets = buckets(0x38, 0x40);
        let places = [folder_buckets, file_buckets, folders.extent(), files.extent()];
        // A table always holds an entry, but it may have no bucket.
        if &header[..8] != SAVE_OPENING || places.iter().any(|place| place.size == 0 || !place.lies_in(size)) {
            return Err(Refusal::NotASave);
        }
        folders.read_current(&level4)?;
        files.read_current(&level4)?;
        Ok(Save { level4, folders, files, file_buckets })
    }
}

fn name_of(entry: &[u8]) -> Name {
    entry[NAME..NAME + NAME_LENGTH].try_into().expect("16 bytes")
}

/// A walk from the root, with the entries that it has met.
struct Walk<'a> {
    save: &'a Save<'a>,
    folders: HashSet<u64>,
    files: HashSet<u64>,
    listed: Vec<Listed>,
}

impl Walk<'_> {
    /// A folder's own entry, its files, then each subfolder. Answers the number of its next sibling.
    fn list_folder(&mut self, folder: u64, depth: u64) -> Result<u64, Refusal> {
        if depth > DEEPEST {
            return Err(Refusal::BrokenTree);
        }
        let entry = self.save.folders.enter(&self.save.level4, &mut self.folders, folder)?;
        self.listed.push(Listed { kind: NameKind::Folder, number: folder, name: name_of(&entry) });
        self.list_files(number(&entry, FIRST_FILE, 4))?;
        self.list_subfolders(number(&entry, FIRST_SUBFOLDER, 4), depth + 1)?;
        Ok(number(&entry, NEXT_SIBLING, 4))
    }

    fn list_files(&mut self, first: u64) -> Result<(), Refusal> {
        let mut file = first;
        while file != 0 {
            let entry = self.save.files.enter(&self.save.level4, &mut self.files, file)?;
            self.listed.push(Listed { kind: NameKind::File, number: file, name: name_of(&entry) });
            file = number(&entry, NEXT_SIBLING, 4);
        }
        Ok(())
    }

    fn list_subfolders(&mut self, first: u64, depth: u64) -> Result<(), Refusal> {
        let mut folder = first;
        while folder != 0 {
            folder = self.list_folder(folder, depth)?;
        }
        Ok(())
    }
}

#[cfg(test)]
mod tests {
    use super::*;

    /// Computed from the document's lines by another program.
    #[test]
    fn buckets() {
        let cases: [(&[u8], u32, u32, u32); 7] = [
            (b"", 1, 1000003, 194802),
            (b"save.bin", 1, 7, 5),
            (b"abcdefghijklmnop", 2, 0xFFFFFFFF, 0x505ecc3f),
            (b"\x80\x81\x82\x83\x84\x85\x86\x87\x88\x89\x8a\x8b\x8c\x8d\x8e\x8f", 0xFFFFFFFF, 1009, 277),
            (&[0xFF; 16], 3, 0x80000001, 1888592562),
            (b"\x00\x00\x00\x80\x00\x00\x00\x80\x00\x00\x00\x80\x00\x00\x00\x80", 5, 65536, 41651),
            (b"x", 1, 1, 0),
        ];
        for (text, parent, count, expected) in cases {
            let name = std::array::from_fn(|place| text.get(place).copied().unwrap_or(0));
            assert_eq!(bucket(&name, parent, count), expected);
        }
    }
}
