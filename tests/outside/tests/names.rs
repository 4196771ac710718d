//! Names inside saves: saves put together by hand, with what must come of them, and proof that the comparison notices what
//! it should.

use std::collections::HashSet;

use outside::generate::contents::put;
use outside::generate::random::Random;
use outside::generate::saves::{plain_container, wanted_around};
use outside::generate::shape::Wanted;
use outside::generate::valid_image;
use outside::rules::dpfs::View;
use outside::rules::extent::{number, Extent};
use outside::rules::header::Kind;
use outside::rules::names::{bucket, find_file, list_names, Listed, Name, NameKind};
use outside::rules::opening::open;
use outside::rules::refusal::{answer_code, Refusal};
use outside::subject::names::Names;
use outside::subject::Rules;
use outside::trial::saves::run_small;
use outside::trial::tally::Tally;

const FOLDERS: usize = 0x100;
const FILES: usize = 0x200;
const SIZE: usize = 0x400;

fn name(text: &str) -> Name {
    std::array::from_fn(|place| text.as_bytes().get(place).copied().unwrap_or(0))
}

fn word(level4: &mut [u8], place: usize, value: u32) {
    put(level4, place, &value.to_le_bytes());
}

fn folder(level4: &mut [u8], number: usize, text: &str, [parent, sibling, subfolder, file]: [u32; 4]) {
    let place = FOLDERS + 0x28 * number;
    word(level4, place, parent);
    put(level4, place + 0x04, &name(text));
    word(level4, place + 0x14, sibling);
    word(level4, place + 0x18, subfolder);
    word(level4, place + 0x1C, file);
}

fn file(level4: &mut [u8], number: usize, text: &str, [parent, sibling, next]: [u32; 3]) {
    let place = FILES + 0x30 * number;
    word(level4, place, parent);
    put(level4, place + 0x04, &name(text));
    word(level4, place + 0x14, sibling);
    word(level4, place + 0x2C, next);
}

/// The root with files c, a and the folders x, y; in x the folder z and the file b; in z the file a; in y nothing. Folder 5
/// and file 2 are free. All files are in one bucket, by their numbers downwards.
fn hand_made() -> Vec<u8> {
    let mut level4 = vec![0; SIZE];
    put(&mut level4, 0, b"SAVE\x00\x00\x04\x00");
    word(&mut level4, 0x24, 0x80);
    for (place, value) in [(0x28, 0x90), (0x30, 2), (0x38, 0x8C), (0x40, 1), (0x58, FOLDERS as u32)] {
        word(&mut level4, place, value);
    }
    // Table by table: starting block and maximum.
    for (place, value) in [(0x68, 0), (0x70, 4), (0x78, 2), (0x80, 6)] {
        word(&mut level4, place, value);
    }
    word(&mut level4, 0x8C, 5);
    word(&mut level4, FOLDERS, 6);
    word(&mut level4, FOLDERS + 0x24, 5);
    word(&mut level4, FILES, 6);
    word(&mut level4, FILES + 0x2C, 2);
    folder(&mut level4, 1, "", [0, 0, 3, 4]);
    folder(&mut level4, 2, "z", [3, 0, 0, 5]);
    folder(&mut level4, 3, "x", [1, 4, 2, 3]);
    folder(&mut level4, 4, "y", [1, 0, 0, 0]);
    file(&mut level4, 1, "a", [1, 0, 0]);
    file(&mut level4, 3, "b", [3, 0, 1]);
    file(&mut level4, 4, "c", [1, 1, 3]);
    file(&mut level4, 5, "a", [2, 0, 4]);
    level4
}

fn image_of(level4: &[u8]) -> Vec<u8> {
    plain_container(level4.to_vec(), 6).image
}

/// The number of the answer to a listing.
fn listed(level4: &[u8]) -> u64 {
    Rules.list_names(&image_of(level4), &mut []) & 0xFF
}

#[test]
fn a_listing_by_hand() {
    let names = list_names(&image_of(&hand_made())).expect("it is whole");
    let expected = [
        (NameKind::Folder, 1, ""),
        (NameKind::File, 4, "c"),
        (NameKind::File, 1, "a"),
        (NameKind::Folder, 3, "x"),
        (NameKind::File, 3, "b"),
        (NameKind::Folder, 2, "z"),
        (NameKind::File, 5, "a"),
        (NameKind::Folder, 4, "y"),
    ];
    let expected = expected.map(|(kind, number, text)| Listed { kind, number, name: name(text) });
    assert_eq!(names, expected);
}

/// The record's bytes as the boundary has them.
#[test]
fn a_row_by_hand() {
    let mut row = [0xEE; 60];
    assert_eq!(Rules.list_names(&image_of(&hand_made()), &mut row), 8 << 8);
    assert_eq!(row[..8], [0, 0, 0, 0, 1, 0, 0, 0]);
    assert_eq!(row[24..33], [1, 0, 0, 0, 4, 0, 0, 0, b'c']);
    assert_eq!(row[48..], [0xEE; 12]);
}

#[test]
fn searches_by_hand() {
    let image = image_of(&hand_made());
    let found = |folder, text| find_file(&image, folder, &name(text)).expect("it is whole");
    assert_eq!([found(1, "c"), found(1, "a"), found(3, "b"), found(2, "a")], [Some(4), Some(1), Some(3), Some(5)]);
    assert_eq!([found(1, "b"), found(3, "a"), found(9, "a"), found(1, "x"), found(1 << 32 | 1, "c")], [None; 5]);
}

/// One word changed, and the answer to a listing.
#[test]
fn spoiled_by_hand() {
    let cases = [
        ("the opening", 0x00, 0x45564154, 19),
        ("the version", 0x04, 0x30000, 19),
        ("the offset that is not read", 0x08, 0x1234, 0),
        ("no folder bucket", 0x30, 0, 19),
        ("no file bucket", 0x40, 0, 19),
        ("folder buckets up to the end", 0x28, 0x3F8, 0),
        ("folder buckets a byte past it", 0x28, 0x3F9, 19),
        ("file buckets up to the end", 0x38, 0x3FC, 0),
        ("file buckets a byte past it", 0x38, 0x3FD, 19),
        ("as many folder buckets as there is room", 0x30, 220, 0),
        ("one more", 0x30, 221, 19),
        ("as many folders as there is room", 0x70, 17, 0),
        ("one more", 0x70, 18, 19),
        ("as many files as there is room", 0x80, 9, 0),
        ("one more", 0x80, 10, 19),
        ("a data region far away", 0x5C, 1, 19),
        ("no room for the count's folders, which are not all met", 0x70, 3, 0),
        ("the folders' count leaves out one that is met", FOLDERS, 4, 18),
        ("and one that is not", FOLDERS, 5, 0),
        ("a count without the root", FOLDERS, 1, 18),
        ("a count of nothing", FOLDERS, 0, 18),
        ("a count above the maximum", FOLDERS, 0xFFFF_FFFF, 0),
        ("entry 0's own maximum", FOLDERS + 4, 0, 0),
        ("the files' count leaves out one", FILES, 5, 18),
        ("the header's maximum leaves out a folder", 0x70, 2, 18),
        ("the header's maximum leaves out a file", 0x80, 4, 18),
        ("the root's sibling", FOLDERS + 0x28 + 0x14, 1, 0),
        ("the root's parent", FOLDERS + 0x28, 77, 0),
        ("the root below a folder", FOLDERS + 0x28 * 4 + 0x18, 1, 18),
        ("a folder below itself", FOLDERS + 0x28 * 2 + 0x18, 2, 18),
        ("a folder as its own sibling", FOLDERS + 0x28 * 4 + 0x14, 4, 18),
        ("a folder met again", FOLDERS + 0x28 * 4 + 0x18, 2, 18),
        ("a free folder", FOLDERS + 0x28 * 4 + 0x18, 5, 0),
        ("a file as its own sibling", FILES + 0x30 + 0x14, 1, 18),
        ("a file of another folder", FOLDERS + 0x28 * 4 + 0x1C, 5, 18),
        ("a free file", FOLDERS + 0x28 * 4 + 0x1C, 2, 0),
        ("a wrong parent", FILES + 0x30, 99, 0),
    ];
    for (what, place, value, answer) in cases {
        let mut level4 = hand_made();
        word(&mut level4, place, value);
        assert_eq!(listed(&level4), answer, "{what}");
    }
}

/// One word changed, and the answer to a search for file 1, the last of its chain, and for file 5, the first.
#[test]
fn spoiled_chains_by_hand() {
    let cases = [
        ("an empty bucket", 0x8C, 0, 0, 0),
        ("a bucket out of range", 0x8C, 6, 18, 18),
        ("a bucket far out of range", 0x8C, 0xFFFF_FFFF, 18, 18),
        ("a chain that ends early", FILES + 0x30 * 3 + 0x2C, 0, 0, 5),
        ("a chain that comes back", FILES + 0x30 * 3 + 0x2C, 5, 18, 5),
        ("a chain into itself", FILES + 0x30 * 5 + 0x2C, 5, 18, 5),
        ("a chain out of range", FILES + 0x30 * 5 + 0x2C, 6, 18, 5),
        ("a count that leaves out the first", FILES, 5, 18, 18),
        ("a maximum that leaves out the first", 0x80, 4, 18, 18),
        ("another folder", FILES + 0x30, 2, 0, 5),
        ("another name", FILES + 0x30 + 0x10, 1, 0, 5),
        ("another sibling", FILES + 0x30 + 0x14, 77, 1, 5),
        ("a root out of range", FOLDERS, 0, 1, 5),
        ("no folder bucket", 0x30, 0, 19, 19),
    ];
    for (what, place, value, last, first) in cases {
        let mut level4 = hand_made();
        word(&mut level4, place, value);
        let image = image_of(&level4);
        let answers = [(1, last), (2, first)].map(|(folder, number)| {
            let answer = Rules.find_file(&image, folder, &name("a"));
            (answer, if number >= 18 { number } else { number << 8 })
        });
        assert!(answers.iter().all(|(answer, expected)| answer == expected), "{what}: {answers:x?}");
    }
}

#[test]
fn other_containers_by_hand() {
    let wanted = Wanted { all_verified: true, ..wanted_around(hand_made(), 6) };
    let wrong = [
        Wanted { kind: Some(Kind::Diff), ..wanted.clone() },
        Wanted { count: Some(2), ..wanted.clone() },
        Wanted { external: Some(true), ..wanted.clone() },
    ];
    for wrong in wrong {
        assert_eq!(list_names(&valid_image(&mut Random::new(1), &wrong).image), Err(Refusal::NotASave));
    }
    assert_eq!(list_names(&valid_image(&mut Random::new(1), &wanted).image).map(|names| names.len()), Ok(8));
}

/// Names the ways to go wrong, and lists them all.
macro_rules! faults {
    ($($name:ident,)*) => {
        #[derive(Clone, Copy, Debug, PartialEq)]
        enum Fault {
            $($name,)*
        }

        const FAULTS: &[Fault] = &[$(Fault::$name,)*];
    };
}

faults! {
    None,
    ListsDiff,
    ListsTwoPartitions,
    ListsExternal,
    RefusesTheLeast,
    ReadsTheOffset,
    JudgesBeforeItVerifies,
    ForgetsTheVersion,
    TakesNoBuckets,
    ForgetsFolderBuckets,
    ForgetsFileBuckets,
    ForgetsFolderTable,
    ForgetsFileTable,
    SumsWrapAt64,
    SumsWrapAt32,
    PlacesAfterEntries,
    EndsBeforeTheEnd,
    OneFolderLess,
    OneFileMore,
    BelievesEntryZero,
    FilesEntryFirst,
    SubfoldersFirst,
    SiblingsFirst,
    FollowsSiblingOfRoot,
    ForgetsTheRoot,
    OneLevelMore,
    OneLevelLess,
    ForgetsTheCount,
    ForgetsTheMaximum,
    TakesTheCountItself,
    CountsEntries,
    MarksTogether,
    MarksModulo256,
    ReadsBeforeItJudges,
    ReadsPartOfEntries,
    CarriesHighestBlock,
    StoresOnRefusal,
    CountsStored,
    StoresPartOfRecord,
    ClearsTheRest,
    ExchangesKindAndNumber,
    SignedBytes,
    SearchesFolderBuckets,
    JudgesTheFolder,
    CutsTheFolder,
    ComparesNamesAlone,
    ComparesFifteenBytes,
    ForgetsRepeatsInChains,
    JudgesTheWholeChain,
    FindsTheLast,
    RefusesWhatIsNotThere,
}

/// A version of the rules with one fault, or none.
struct Faulty(Fault);

impl Names for Faulty {
    fn list_names(&self, image: &[u8], row: &mut [u8]) -> u64 {
        let mut met = Vec::new();
        let listed = Faulting::open(self.0, image).and_then(|save| save.list(&mut met));
        let count = met.len() as u64;
        if listed.is_err() && self.0 != Fault::StoresOnRefusal {
            return answer_code(listed.map(|()| 0));
        }
        let rest = row.len() % 24;
        let room = row.len() / 24;
        let mut records: Vec<u8> = met.iter().flat_map(|name: &Listed| name.record()).collect();
        if self.0 == Fault::ExchangesKindAndNumber {
            records.chunks_exact_mut(24).for_each(|record| record[..8].rotate_left(4));
        }
        let stored = match self.0 {
            Fault::StoresPartOfRecord => records.len().min(row.len()),
            _ => records.len().min(row.len() - rest),
        };
        row[..stored].copy_from_slice(&records[..stored]);
        if self.0 == Fault::ClearsTheRest {
            row[stored..].fill(0);
        }
        match self.0 {
            Fault::CountsStored => count.min(room as u64) << 8,
            _ => answer_code(listed.map(|()| count)),
        }
    }

    fn find_file(&self, image: &[u8], folder: u64, name: &Name) -> u64 {
        answer_code(Faulting::open(self.0, image).and_then(|save| save.find(folder, name)))
    }
}

/// A save under a fault.
struct Faulting {
    fault: Fault,
    level4: Vec<u8>,
    verified: Vec<bool>,
    block_size: usize,
    /// Of folders and of files: the place, the entry's size, the header's maximum and the current count.
    tables: [(usize, usize, u64, u64); 2],
}

impl Faulting {
    fn open(fault: Fault, image: &[u8]) -> Result<Faulting, Refusal> {
        let opened = open(image)?;
        let partition = &opened.partitions[0];
        let diff = opened.header.kind == Kind::Diff && fault != Fault::ListsDiff;
        let two = opened.partitions.len() == 2 && fault != Fault::ListsTwoPartitions;
        let external = partition.descriptor.external.is_some() && fault != Fault::ListsExternal;
        let view = View::committed(image, &opened, partition);
        let least = if fault == Fault::RefusesTheLeast { 0x89 } else { 0x88 };
        if diff || two || external || view.data_size() < least {
            return Err(Refusal::NotASave);
        }
        let block_size = partition.descriptor.hash_level(4).block_size() as usize;
        let tables = [(0, 0x28, 0, 0), (0, 0x30, 0, 0)];
        let mut save = Faulting { fault, level4: view.data(), verified: view.verified_blocks(4), block_size, tables };
        save.read_header()?;
        Ok(save)
    }

    fn read_header(&mut self) -> Result<(), Refusal> {
        let fault = self.fault;
        if fault == Fault::JudgesBeforeItVerifies {
            self.judge_header()?;
        }
        self.read(0, 0x88)?;
        let judged = self.judge_header();
        if fault != Fault::PlacesAfterEntries {
            judged?;
        } else if self.tables.iter().any(|table| table.0 + table.1 > self.level4.len()) {
            return Err(Refusal::NotASave);
        }
        for kind in if fault == Fault::FilesEntryFirst { [1, 0] } else { [0, 1] } {
            let (place, size, most, _) = self.tables[kind];
            let current = number(self.read(place, size)?, 0, 4);
            self.tables[kind].3 = current;
            if fault == Fault::BelievesEntryZero {
                self.tables[kind].2 = most.min(number(&self.level4, place + 4, 4));
            }
        }
        judged
    }

    fn judge_header(&mut self) -> Result<(), Refusal> {
        let fault = self.fault;
        let size = self.level4.len() as u128 - u128::from(fault == Fault::EndsBeforeTheEnd);
        let field = |place, length| u128::from(number(&self.level4, place, length));
        let cut = |sum: u128| match fault {
            Fault::SumsWrapAt64 => u128::from(sum as u64),
            Fault::SumsWrapAt32 => u128::from(sum as u32),
            _ => sum,
        };
        let start = |place| cut(field(0x58, 8) + cut(field(place, 4) * field(0x24, 4)));
        let folders = field(0x70, 4) + if fault == Fault::OneFolderLess { 1 } else { 2 };
        let files = field(0x80, 4) + if fault == Fault::OneFileMore { 2 } else { 1 };
        let ends = [
            (Fault::ForgetsFolderBuckets, cut(field(0x28, 8) + cut(4 * field(0x30, 4)))),
            (Fault::ForgetsFileBuckets, cut(field(0x38, 8) + cut(4 * field(0x40, 4)))),
            (Fault::ForgetsFolderTable, cut(start(0x68) + cut(0x28 * cut(folders)))),
            (Fault::ForgetsFileTable, cut(start(0x78) + cut(0x30 * cut(files)))),
        ];
        let opening = &self.level4[..8] == b"SAVE\x00\x00\x04\x00"
            || (fault == Fault::ForgetsTheVersion && &self.level4[..4] == b"SAVE");
        let offset = fault == Fault::ReadsTheOffset && field(0x08, 8) != 0x20;
        let no_buckets = fault != Fault::TakesNoBuckets && (field(0x30, 4) == 0 || field(0x40, 4) == 0);
        let left = ends.into_iter().any(|(forgotten, end)| forgotten != fault && end > size);
        let starts = [start(0x68), start(0x78)].map(|start| start.min(1 << 62) as usize);
        let most = [folders, files].map(|most| most as u64);
        for kind in [0, 1] {
            (self.tables[kind].0, self.tables[kind].2) = (starts[kind], most[kind]);
        }
        if opening && !offset && !no_buckets && !left {
            Ok(())
        } else {
            Err(Refusal::NotASave)
        }
    }

    /// What leaves level 4, which only a fault lets pass, is refused as a later check would.
    fn read(&self, place: usize, size: usize) -> Result<&[u8], Refusal> {
        let range = Extent { offset: place as u128, size: size as u128 };
        if !range.lies_in(self.level4.len() as u128) {
            return Err(Refusal::BrokenTree);
        }
        let mut touched = place / self.block_size..(place + size).div_ceil(self.block_size);
        let bad = match self.fault {
            Fault::CarriesHighestBlock => touched.rev().find(|block| !self.verified[*block]),
            _ => touched.find(|block| !self.verified[*block]),
        };
        match bad {
            Some(block) => Err(Refusal::NotVerified(block as u64)),
            None => Ok(range.of(&self.level4)),
        }
    }

    fn entry(&self, kind: usize, entry: u64) -> Result<&[u8], Refusal> {
        let (place, size, most, current) = self.tables[kind];
        let place = (place as u64 + entry * size as u64) as usize;
        let read = self.read(place, if self.fault == Fault::ReadsPartOfEntries { size - 8 } else { size });
        let too_much = match self.fault {
            Fault::ForgetsTheCount => entry >= most,
            Fault::ForgetsTheMaximum => entry >= current,
            Fault::TakesTheCountItself => entry > current || entry >= most,
            _ => entry >= current || entry >= most,
        };
        if self.fault == Fault::ReadsBeforeItJudges {
            read?;
        }
        if too_much {
            return Err(Refusal::BrokenTree);
        }
        read.map(|_| &self.level4[place..place + size])
    }

    fn list(&self, listed: &mut Vec<Listed>) -> Result<(), Refusal> {
        let mut met = HashSet::new();
        let mut ahead = vec![(0, 1, 0)];
        if self.fault == Fault::ForgetsTheRoot && self.tables[0].3 < 2 {
            return Ok(());
        }
        while let Some((kind, entry, depth)) = ahead.pop() {
            if entry == 0 {
                continue;
            }
            self.meet(&mut met, kind, entry, depth)?;
            let bytes = self.entry(kind, entry)?;
            let name_kind = if kind == 0 { NameKind::Folder } else { NameKind::File };
            let name = bytes[4..0x14].try_into().expect("16 bytes");
            listed.push(Listed { kind: name_kind, number: entry, name });
            let pointer = |place| number(bytes, place, 4);
            let root = kind == 0 && entry == 1 && self.fault != Fault::FollowsSiblingOfRoot;
            let sibling = (kind, if root { 0 } else { pointer(0x14) }, depth);
            if kind == 1 {
                ahead.push(sibling);
                continue;
            }
            let mut parts = [sibling, (0, pointer(0x18), depth + 1), (1, pointer(0x1C), 0)];
            match self.fault {
                Fault::SubfoldersFirst => parts.swap(1, 2),
                Fault::SiblingsFirst => parts.swap(0, 1),
                _ => {}
            }
            ahead.extend(parts);
        }
        Ok(())
    }

    fn meet(&self, met: &mut HashSet<(usize, u64)>, kind: usize, entry: u64, depth: u64) -> Result<(), Refusal> {
        let deepest = match self.fault {
            Fault::OneLevelMore => 1001,
            Fault::OneLevelLess => 999,
            _ => 1000,
        };
        let most = self.tables[0].2.min(self.tables[0].3) + self.tables[1].2.min(self.tables[1].3);
        let fresh = match self.fault {
            // As many as there are entries in all, whichever they are.
            Fault::CountsEntries => (met.len() as u64) < most && met.insert((2, met.len() as u64)),
            Fault::MarksTogether => met.insert((0, entry)),
            Fault::MarksModulo256 => met.insert((kind, entry % 256)),
            _ => met.insert((kind, entry)),
        };
        if depth > deepest || !fresh {
            return Err(Refusal::BrokenTree);
        }
        Ok(())
    }

    fn find(&self, folder: u64, name: &Name) -> Result<u64, Refusal> {
        if self.fault == Fault::JudgesTheFolder && folder >= self.tables[0].3 {
            return Err(Refusal::BrokenTree);
        }
        let (offset, count) = if self.fault == Fault::SearchesFolderBuckets { (0x28, 0x30) } else { (0x38, 0x40) };
        let count = number(&self.level4, count, 4) as u32;
        if count == 0 {
            return Ok(0);
        }
        let chosen = match self.fault {
            Fault::SignedBytes => signed_bucket(name, folder as u32, count),
            _ => bucket(name, folder as u32, count),
        };
        let place = number(&self.level4, offset, 8).min(1 << 62) as usize + 4 * chosen as usize;
        let mut file = number(self.read(place, 4)?, 0, 4);
        let mut found = 0;
        let mut met = HashSet::new();
        while file != 0 {
            if !met.insert(file) {
                match self.fault {
                    Fault::ForgetsRepeatsInChains => break,
                    _ => return Err(Refusal::BrokenTree),
                }
            }
            let entry = self.entry(1, file)?;
            if self.matches(entry, folder, name) {
                match self.fault {
                    Fault::JudgesTheWholeChain if found != 0 => {}
                    Fault::JudgesTheWholeChain | Fault::FindsTheLast => found = file,
                    _ => return Ok(file),
                }
            }
            file = number(entry, 0x2C, 4);
        }
        match self.fault {
            Fault::RefusesWhatIsNotThere if found == 0 => Err(Refusal::BrokenTree),
            _ => Ok(found),
        }
    }

    fn matches(&self, entry: &[u8], folder: u64, name: &Name) -> bool {
        let parent = number(entry, 0, 4);
        let in_folder = match self.fault {
            Fault::CutsTheFolder => parent == folder & 0xFFFF_FFFF,
            Fault::ComparesNamesAlone => true,
            _ => parent == folder,
        };
        let bytes = if self.fault == Fault::ComparesFifteenBytes { 15 } else { 16 };
        in_folder && entry[4..4 + bytes] == name[..bytes]
    }
}

/// With bytes from 0x80 on taken as negative.
fn signed_bucket(name: &Name, parent: u32, count: u32) -> u32 {
    let mut hash = parent ^ 0x091A2B3C;
    for word in name.chunks_exact(4) {
        hash = hash.rotate_right(1);
        for (place, byte) in word.iter().enumerate() {
            hash ^= (*byte as i8 as u32) << (8 * place);
        }
    }
    hash % count
}

#[test]
fn every_fault_is_found() {
    for &fault in FAULTS {
        let outcome = run_small(Some(&Faulty(fault)), &mut Tally::default());
        assert_eq!(outcome.is_ok(), fault == Fault::None, "{fault:?}: {outcome:?}");
    }
}
