//! The folders and files of a save, each with the folder that it is in.
//!
//! A listing has the names in order, a folder before what is in it, but does not say where a folder ends. That is told
//! by two words of each folder's entry (document 004): its next sibling and its first subfolder, 0 for none. They are
//! read as any bytes of level 4 are, so only if they are verified.

use teplovist::{Extent, Image, Level, Name, NameKind, Partition, Refusal};

/// The root's number.
pub const ROOT: u32 = 1;

/// Where the header of a SAVE image has the block size of its data region, that region's offset, and the block in it at
/// which the folders' table begins.
const REGION_BLOCK_SIZE: u64 = 0x24;
const REGION_OFFSET: u64 = 0x58;
const FOLDERS_FIRST_BLOCK: u64 = 0x68;

const FOLDER_ENTRY_SIZE: u64 = 0x28;
/// Where a folder's entry has its next sibling, and behind it its first subfolder.
const LINKS: u64 = 0x14;

pub struct Entry {
    pub name: Name,
    /// The number of the folder that it is in; the root is in none.
    pub folder: Option<u32>,
    /// The names from the root on, as `find` takes them.
    pub path: String,
}

/// A folder whose subfolders are being listed.
struct Open {
    number: u32,
    path: String,
    /// The subfolder that comes next in the listing, or 0.
    next: u32,
}

pub fn entries(image: &Image<&[u8]>) -> Result<Vec<Entry>, Refusal> {
    let names = image.names()?;
    let mut words = Words::new(image.open()?.a.level4(), Box::new(|block| read_extent(image, block)));
    let table = folder_table(&mut words)?;
    let mut entries = Vec::with_capacity(names.len());
    let mut open: Vec<Open> = Vec::new();
    for name in names {
        if name.kind == NameKind::Folder {
            close_finished(&mut open);
        }
        let around = open.last_mut();
        let folder = around.as_ref().map(|folder| folder.number);
        let path = path_in(around.as_ref().map(|folder| folder.path.as_str()), &name);
        if name.kind == NameKind::Folder {
            let [sibling, subfolder] = words.at(table + FOLDER_ENTRY_SIZE * u64::from(name.number) + LINKS)?;
            if let Some(around) = around {
                around.next = sibling;
            }
            open.push(Open { number: name.number, path: path.clone(), next: subfolder });
        }
        entries.push(Entry { name, folder, path });
    }
    Ok(entries)
}

/// A folder that comes next in the listing is in none of the last ones that have no subfolder to come.
fn close_finished(open: &mut Vec<Open>) {
    while open.last().is_some_and(|folder| folder.next == 0) {
        open.pop();
    }
}

/// Where the folders' table lies in level 4. A listing was accepted, so it does lie there.
fn folder_table(words: &mut Words) -> Result<u64, Refusal> {
    let [low, high] = words.at(REGION_OFFSET)?;
    let [block_size] = words.at(REGION_BLOCK_SIZE)?;
    let [first_block] = words.at(FOLDERS_FIRST_BLOCK)?;
    Ok((u64::from(high) << 32 | u64::from(low)) + u64::from(first_block) * u64::from(block_size))
}

fn read_extent(image: &Image<&[u8]>, extent: Extent) -> Result<Vec<u8>, Refusal> {
    let mut bytes = vec![0; extent.size as usize];
    image.read(Partition::A, extent.offset, &mut bytes)?;
    Ok(bytes)
}

/// How a block of a level is read, by where it lies in the level.
type ReadBlock<'a> = Box<dyn FnMut(Extent) -> Result<Vec<u8>, Refusal> + 'a>;

/// The numbers in a level. Each read of an image opens it and hashes a block anew, and neighbouring entries share one:
/// so the block that was read last is kept.
struct Words<'a> {
    level: Level,
    read: ReadBlock<'a>,
    kept: Extent,
    bytes: Vec<u8>,
}

impl<'a> Words<'a> {
    fn new(level: Level, read: ReadBlock<'a>) -> Words<'a> {
        Words { level, read, kept: Extent { offset: 0, size: 0 }, bytes: Vec::new() }
    }

    /// Numbers of four bytes, the least significant first, that stand side by side.
    fn at<const COUNT: usize>(&mut self, place: u64) -> Result<[u32; COUNT], Refusal> {
        let mut words = [[0; 4]; COUNT];
        for (byte, place) in words.as_flattened_mut().iter_mut().zip(place..) {
            *byte = self.byte(place)?;
        }
        Ok(words.map(u32::from_le_bytes))
    }

    /// The next byte may lie in the next block.
    fn byte(&mut self, place: u64) -> Result<u8, Refusal> {
        if !(self.kept.offset..self.kept.end()).contains(&place) {
            let block = self.level.block(place / self.level.block_size());
            self.bytes = (self.read)(block)?;
            self.kept = block;
        }
        Ok(self.bytes[(place - self.kept.offset) as usize])
    }
}

/// The root is `/`, whatever its entry says. A slash within a name is escaped, so that each path is that of one name.
fn path_in(folder: Option<&str>, name: &Name) -> String {
    match folder {
        None => "/".into(),
        Some(folder) => format!("{}/{}", folder.trim_end_matches('/'), name.text().replace('/', r"\x2f")),
    }
}

#[cfg(test)]
mod tests {
    use super::*;

    /// 40 bytes in blocks of 16, each its own place; and the blocks that are read are noted.
    fn words(noted: &mut Vec<u64>) -> Words<'_> {
        let read = |block: Extent| {
            noted.push(block.offset);
            Ok((block.offset..block.end()).map(|place| place as u8).collect())
        };
        Words::new(Level { offset: 0, size: 40, log: 4 }, Box::new(read))
    }

    #[test]
    fn every_place_has_its_bytes() {
        let mut noted = Vec::new();
        let mut words = words(&mut noted);
        for place in (0..=32).chain((0..=32).rev()) {
            let expected = [place, place + 4].map(|place| place * 0x0101_0101 + 0x0302_0100);
            assert_eq!(words.at(place.into()), Ok(expected), "{place}");
        }
    }

    #[test]
    fn a_block_is_read_again_only_after_another() {
        let mut noted = Vec::new();
        let mut words = words(&mut noted);
        for place in [16, 24, 17, 20, 28, 32, 36, 4] {
            words.at::<1>(place).expect("it is there");
        }
        // From 14 to 17: the end of one block and the start of the next.
        words.at::<1>(14).expect("it is there");
        drop(words);
        assert_eq!(noted, [16, 32, 0, 16]);
    }

    #[test]
    fn a_refused_block_is_not_kept() {
        let mut answers = vec![Ok(vec![7; 4]), Err(Refusal::Unverified { block: 0 })];
        let read = Box::new(|_| answers.pop().expect("two reads"));
        let mut words = Words::new(Level { offset: 0, size: 4, log: 4 }, read);
        assert_eq!(words.at::<1>(0), Err(Refusal::Unverified { block: 0 }));
        assert_eq!(words.at(0), Ok([0x0707_0707]));
    }
}
