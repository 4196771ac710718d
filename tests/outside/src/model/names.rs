//! What calls for names must answer of a version of level 4, said without recursion: a stack of the entries that are still
//! to be met.

use std::collections::HashSet;

use super::Version;
use crate::rules::extent::number;
use crate::rules::names::Name;
use crate::rules::refusal::Refusal;

/// In records and as places in `Tables`.
const FOLDER: usize = 0;
const FILE: usize = 1;

/// Of the folders and of the files: where their entries start, how long one is, and below which number entries may be met.
struct Tables([(u128, usize, u64); 2]);

impl Version {
    /// All records, one after the other.
    pub fn list_names(&self, block_size: usize) -> Result<Vec<u8>, Refusal> {
        let tables = self.name_tables(block_size)?;
        let mut records = Vec::new();
        let mut met = HashSet::new();
        // Kind, number and levels below the root; the next one is last.
        let mut ahead = vec![(FOLDER, 1, 0)];
        while let Some((kind, entry_number, depth)) = ahead.pop() {
            if depth > 1000 || !met.insert((kind, entry_number)) {
                return Err(Refusal::BrokenTree);
            }
            let entry = self.name_entry(&tables, kind, entry_number, block_size)?;
            records.extend_from_slice(&(kind as u32).to_le_bytes());
            records.extend_from_slice(&(entry_number as u32).to_le_bytes());
            records.extend_from_slice(&entry[0x04..0x14]);
            let is_root = kind == FOLDER && entry_number == 1;
            let mut follow = |kind, place, depth| match number(entry, place, 4) {
                0 => {}
                next => ahead.push((kind, next, depth)),
            };
            if !is_root {
                follow(kind, 0x14, depth);
            }
            if kind == FOLDER {
                follow(FOLDER, 0x18, depth + 1);
                follow(FILE, 0x1C, 0);
            }
        }
        Ok(records)
    }

    /// The number of the first file with this folder and name along its bucket's chain, or 0.
    pub fn find_file(&self, folder: u64, name: &Name, block_size: usize) -> Result<u64, Refusal> {
        let tables = self.name_tables(block_size)?;
        let mut hash = folder as u32 ^ 0x091A2B3C;
        for word in name.chunks_exact(4) {
            hash = hash.rotate_right(1) ^ number(word, 0, 4) as u32;
        }
        let bucket = u64::from(hash) % number(&self.bytes, 0x40, 4);
        let mut file = number(self.read(number(&self.bytes, 0x38, 8) + 4 * bucket, 4, block_size)?, 0, 4);
        let mut chain = HashSet::new();
        while file != 0 {
            if !chain.insert(file) {
                return Err(Refusal::BrokenTree);
            }
            let entry = self.name_entry(&tables, FILE, file, block_size)?;
            if number(entry, 0, 4) == folder && entry[0x04..0x14] == *name {
                break;
            }
            file = number(entry, 0x2C, 4);
        }
        Ok(file)
    }

    /// 18 for a number out of range, or the entry.
    fn name_entry(&self, tables: &Tables, kind: usize, entry: u64, block_size: usize) -> Result<&[u8], Refusal> {
        let (place, size, end) = tables.0[kind];
        if entry >= end {
            return Err(Refusal::BrokenTree);
        }
        self.read(place as u64 + entry * size as u64, size, block_size)
    }

    /// Header, places, and entries 0.
    fn name_tables(&self, block_size: usize) -> Result<Tables, Refusal> {
        let size = self.bytes.len() as u128;
        if size < 0x88 {
            return Err(Refusal::NotASave);
        }
        let header = self.read(0, 0x88, block_size)?;
        let long = |place| u128::from(number(header, place, 8));
        let short = |place| u128::from(number(header, place, 4));
        let start = |place| long(0x58) + short(place) * short(0x24);
        let folders = (start(0x68), 0x28, short(0x70) + 2);
        let files = (start(0x78), 0x30, short(0x80) + 1);
        let ends = [
            long(0x28) + 4 * short(0x30),
            long(0x38) + 4 * short(0x40),
            folders.0 + folders.1 as u128 * folders.2,
            files.0 + files.1 as u128 * files.2,
        ];
        let opening = header[..4] == *b"SAVE" && short(0x04) == 0x40000;
        if !opening || short(0x30) == 0 || short(0x40) == 0 || ends.into_iter().any(|end| end > size) {
            return Err(Refusal::NotASave);
        }
        let mut tables = Vec::new();
        for (place, entry_size, most) in [folders, files] {
            let current = number(self.read(place as u64, entry_size, block_size)?, 0, 4);
            tables.push((place, entry_size, current.min(most as u64)));
        }
        Ok(Tables([tables[FOLDER], tables[FILE]]))
    }
}
