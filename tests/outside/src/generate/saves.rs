//! Saves: SAVE images with folders and files, and containers around them. What a listing and a search must give is known
//! because they were built that way.

use super::contents::put;
use super::random::Random;
use super::shape::Wanted;
use super::{valid_image, Sample};
use crate::rules::header::Kind;
use crate::rules::names::{
    Listed, Name, NameKind, FILE_ENTRY_SIZE, FOLDER_ENTRY_SIZE, NAME_LENGTH, ROOT, SAVE_HEADER_SIZE, SAVE_OPENING,
};

/// Which folders and files there are. Siblings have the order that they have here.
#[derive(Clone, Debug)]
pub struct Tree {
    /// The root first; the parent of each later folder is the place of an earlier one. The root's own is not used.
    pub folders: Vec<Item>,
    pub files: Vec<Item>,
}

#[derive(Clone, Debug)]
pub struct Item {
    pub parent: usize,
    pub name: Name,
}

impl Tree {
    /// The root alone.
    pub fn empty(random: &mut Random) -> Tree {
        Tree { folders: vec![Item { parent: 0, name: choose_name(random) }], files: Vec::new() }
    }

    pub fn add_folder(&mut self, random: &mut Random, parent: usize) {
        self.folders.push(Item { parent, name: choose_name(random) });
    }

    pub fn add_file(&mut self, random: &mut Random, parent: usize) {
        self.files.push(Item { parent, name: choose_name(random) });
    }

    /// So many folders and files, in any folders or in the latest ones, now and then in the root.
    pub fn choose(random: &mut Random, folders: u64, files: u64) -> Tree {
        let mut tree = Tree::empty(random);
        let latest = random.pick(&[1, 2, 3, u64::MAX]);
        for _ in 0..folders {
            let parent = choose_parent(random, &tree, latest);
            tree.add_folder(random, parent);
        }
        let latest = random.pick(&[1, 2, u64::MAX, u64::MAX]);
        for _ in 0..files {
            let parent = choose_parent(random, &tree, latest);
            tree.add_file(random, parent);
        }
        tree
    }

    /// Each folder in the one before it.
    pub fn chain(random: &mut Random, depth: usize) -> Tree {
        let mut tree = Tree::empty(random);
        (0..depth).for_each(|parent| tree.add_folder(random, parent));
        tree
    }

    /// All folders and files in the root.
    pub fn flat(random: &mut Random, folders: usize, files: usize) -> Tree {
        let mut tree = Tree::empty(random);
        (0..folders).for_each(|_| tree.add_folder(random, 0));
        (0..files).for_each(|_| tree.add_file(random, 0));
        tree
    }
}

/// The root, or one of so many folders that were added last.
fn choose_parent(random: &mut Random, tree: &Tree, latest: u64) -> usize {
    let folders = tree.folders.len() as u64;
    if random.chance(20) {
        0
    } else {
        (folders - 1 - random.below(folders.min(latest))) as usize
    }
}

/// Short texts that come up again, bytes from 0x80 on, or any.
fn choose_name(random: &mut Random) -> Name {
    let text: &[u8] = match random.below(4) {
        0 => random.pick(&[&b"a"[..], b"b", b"", b"save.bin"]),
        1 => &random.bytes(NAME_LENGTH),
        2 => &vec![random.pick(&[0x7F, 0x80, 0xFF]); random.below(17) as usize],
        _ => &format!("file{}", random.below(1000)).into_bytes(),
    };
    std::array::from_fn(|place| text.get(place).copied().unwrap_or(0))
}

/// Sizes that the tree leaves open.
#[derive(Clone, Debug)]
pub struct Room {
    /// Entries that no name has, below the current count: the free list.
    pub free: [u64; 2],
    /// Entries above the current count.
    pub spare: [u64; 2],
    pub buckets: [u64; 2],
    pub block_size: u64,
    /// Up to so many bytes before each table, and behind the last one.
    pub gap: u64,
}

impl Room {
    /// No free entry and no byte to spare, and buckets enough.
    pub fn tight(tree: &Tree) -> Room {
        let buckets = [tree.folders.len() as u64, tree.files.len() as u64 + 1];
        Room { free: [0; 2], spare: [0; 2], buckets, block_size: 1, gap: 0 }
    }

    pub fn choose(random: &mut Random, tree: &Tree) -> Room {
        let some = |random: &mut Random| if random.chance(50) { 0 } else { random.between(1, 4) };
        let most = 2 * (tree.folders.len() + tree.files.len()) as u64;
        let any = random.between(1, most);
        Room {
            free: [some(random), some(random)],
            spare: [some(random), some(random)],
            buckets: [random.between(1, most), random.pick(&[1, 1, 2, 3, any])],
            block_size: random.pick(&[1, 2, 7, 32, 0x200]),
            gap: random.pick(&[0, 1, 5, 100]),
        }
    }
}

/// A SAVE image and what was put into it.
#[derive(Clone, Debug)]
pub struct Save {
    pub level4: Vec<u8>,
    /// Where the buckets and the entries of folders and of files start.
    pub buckets: [usize; 2],
    pub tables: [usize; 2],
    /// The current counts, and how many entries the header allows.
    pub current: [u64; 2],
    pub most: [u64; 2],
    /// What a listing must give.
    pub listing: Vec<Listed>,
    /// Each bucket's files in the chain's order: folder, name and number.
    chains: Vec<Vec<(u64, Name, u64)>>,
}

const ENTRY_SIZES: [usize; 2] = [FOLDER_ENTRY_SIZE as usize, FILE_ENTRY_SIZE as usize];
/// Where an entry has the next one of its bucket, or of the free list.
const NEXT_IN_CHAIN: [usize; 2] = [0x24, 0x2C];
/// Numbers of entries that are never free: entry 0, and the root.
const FIRST_FREE: [u64; 2] = [2, 1];

impl Save {
    pub fn build(random: &mut Random, tree: &Tree, room: &Room) -> Save {
        let used = [tree.folders.len() as u64 + 1, tree.files.len() as u64 + 1];
        let current = [0, 1].map(|kind| used[kind] + room.free[kind]);
        let most = [0, 1].map(|kind| current[kind] + room.spare[kind]);
        let mut folders = numbers(random, FIRST_FREE[0]..current[0]);
        let mut files = numbers(random, FIRST_FREE[1]..current[1]);
        let free = [folders.split_off(tree.folders.len() - 1), files.split_off(tree.files.len())];
        folders.insert(0, ROOT);

        let layout = Layout::choose(random, room, most);
        let mut save = Save {
            level4: random.bytes(layout.size),
            buckets: layout.buckets,
            tables: layout.tables,
            current,
            most,
            listing: Vec::new(),
            chains: vec![Vec::new(); room.buckets[1] as usize],
        };
        layout.put_header(&mut save.level4, room, most);
        for kind in [0, 1] {
            save.put_free_list(random, kind, &free[kind]);
        }
        let branches = Branches::of(tree);
        save.put_folders(random, tree, &branches, &folders, &files);
        save.put_files(random, tree, &branches, &folders, &files);
        save.put_buckets(random, tree, &folders, &files);
        save.list(tree, &branches, &folders, &files);
        save
    }

    /// Where an entry starts.
    pub fn entry(&self, kind: NameKind, number: u64) -> usize {
        let kind = kind as usize;
        self.tables[kind] + number as usize * ENTRY_SIZES[kind]
    }

    pub fn put_word(&mut self, place: usize, number: u64) {
        put(&mut self.level4, place, &(number as u32).to_le_bytes());
    }

    /// What a search must give.
    pub fn find(&self, folder: u64, name: &Name) -> Option<u64> {
        let chain = &self.chains[bucket(folder, name, self.chains.len() as u64)];
        chain.iter().find(|file| (file.0, file.1) == (folder, *name)).map(|file| file.2)
    }

    /// The files of the first bucket's chain.
    pub fn chain(&self) -> Vec<u64> {
        self.chains[0].iter().map(|file| file.2).collect()
    }

    /// Folder and name of each file.
    pub fn files(&self) -> Vec<(u64, Name)> {
        self.chains.iter().flatten().map(|file| (file.0, file.1)).collect()
    }

    /// Entry 0 has the count and leads to the free entries. Of its own maximum nothing follows.
    fn put_free_list(&mut self, random: &mut Random, kind: usize, free: &[u64]) {
        let table = self.tables[kind];
        self.put_word(table, self.current[kind]);
        if random.chance(70) {
            self.put_word(table + 4, self.most[kind]);
        }
        let mut place = table;
        for number in free.iter().chain(&[0]) {
            self.put_word(place + NEXT_IN_CHAIN[kind], *number);
            place = table + *number as usize * ENTRY_SIZES[kind];
        }
    }

    fn put_folders(&mut self, random: &mut Random, tree: &Tree, branches: &Branches, folders: &[u64], files: &[u64]) {
        for (index, item) in tree.folders.iter().enumerate() {
            let place = self.entry(NameKind::Folder, folders[index]);
            let first = |list: &[usize], numbers: &[u64]| list.first().map_or(0, |first| numbers[*first]);
            // The root's parent and sibling are not read.
            let (parent, sibling) = match index {
                0 => (random.pick(&[0, 1, 2]), random.pick(&[0, 0, 1, 2, 0xFFFF_FFFF])),
                _ => (folders[item.parent], branches.next_folder[index].map_or(0, |next| folders[next])),
            };
            self.put_word(place, parent);
            put(&mut self.level4, place + 0x04, &item.name);
            self.put_word(place + 0x14, sibling);
            self.put_word(place + 0x18, first(&branches.subfolders[index], folders));
            self.put_word(place + 0x1C, first(&branches.files[index], files));
        }
    }

    fn put_files(&mut self, random: &mut Random, tree: &Tree, branches: &Branches, folders: &[u64], files: &[u64]) {
        for (index, item) in tree.files.iter().enumerate() {
            let place = self.entry(NameKind::File, files[index]);
            self.put_word(place, folders[item.parent]);
            put(&mut self.level4, place + 0x04, &item.name);
            self.put_word(place + 0x14, branches.next_file[index].map_or(0, |next| files[next]));
            self.put_word(place + 0x1C, random.pick(&[0x8000_0000, 3, 0]));
        }
    }

    /// Of the folders' buckets and chains nothing follows: they keep their noise.
    fn put_buckets(&mut self, random: &mut Random, tree: &Tree, folders: &[u64], files: &[u64]) {
        let mut order: Vec<usize> = (0..files.len()).collect();
        random.shuffle(&mut order);
        let buckets = self.chains.len() as u64;
        for index in order {
            let Item { parent, name } = tree.files[index];
            let chain = bucket(folders[parent], &name, buckets);
            self.chains[chain].push((folders[parent], name, files[index]));
        }
        for chain in 0..self.chains.len() {
            let mut place = self.buckets[1] + 4 * chain;
            for file in 0..=self.chains[chain].len() {
                let number = self.chains[chain].get(file).map_or(0, |file| file.2);
                self.put_word(place, number);
                place = self.entry(NameKind::File, number) + NEXT_IN_CHAIN[1];
            }
        }
    }

    fn list(&mut self, tree: &Tree, branches: &Branches, folders: &[u64], files: &[u64]) {
        // Folders still to be listed, the next one last.
        let mut ahead = vec![0];
        while let Some(folder) = ahead.pop() {
            let name = tree.folders[folder].name;
            self.listing.push(Listed { kind: NameKind::Folder, number: folders[folder], name });
            for file in &branches.files[folder] {
                let name = tree.files[*file].name;
                self.listing.push(Listed { kind: NameKind::File, number: files[*file], name });
            }
            ahead.extend(branches.subfolders[folder].iter().rev());
        }
    }
}

/// Each number once, in any order.
fn numbers(random: &mut Random, range: std::ops::Range<u64>) -> Vec<u64> {
    let mut numbers: Vec<u64> = range.collect();
    random.shuffle(&mut numbers);
    numbers
}

/// The bucket of a file, with the document's four bytes taken as one word.
fn bucket(folder: u64, name: &Name, buckets: u64) -> usize {
    let words = name.chunks_exact(4).map(|word| u32::from_le_bytes(word.try_into().expect("four bytes")));
    let hash = words.fold(folder as u32 ^ 0x091A2B3C, |hash, word| hash.rotate_right(1) ^ word);
    (u64::from(hash) % buckets) as usize
}

/// What is in each folder, and each one's next sibling, by their places in the tree.
struct Branches {
    subfolders: Vec<Vec<usize>>,
    files: Vec<Vec<usize>>,
    next_folder: Vec<Option<usize>>,
    next_file: Vec<Option<usize>>,
}

impl Branches {
    fn of(tree: &Tree) -> Branches {
        let folders = tree.folders.len();
        let in_each = |items: &[Item], first: usize| {
            let mut lists = vec![Vec::new(); folders];
            items.iter().enumerate().skip(first).for_each(|(index, item)| lists[item.parent].push(index));
            let mut next = vec![None; items.len()];
            for list in &lists {
                list.windows(2).for_each(|pair| next[pair[0]] = Some(pair[1]));
            }
            (lists, next)
        };
        let (subfolders, next_folder) = in_each(&tree.folders, 1);
        let (files, next_file) = in_each(&tree.files, 0);
        Branches { subfolders, files, next_folder, next_file }
    }
}

/// Where the parts of a SAVE image lie.
struct Layout {
    size: usize,
    buckets: [usize; 2],
    tables: [usize; 2],
    /// The data region's offset, and the blocks in it at which the tables start.
    region: usize,
    blocks: [usize; 2],
}

impl Layout {
    /// The four parts in any order. The data region starts anywhere before the first table.
    fn choose(random: &mut Random, room: &Room, most: [u64; 2]) -> Layout {
        let mut order = [0, 1, 2, 3];
        if room.gap > 0 {
            random.shuffle(&mut order);
        }
        let mut layout = Layout { size: 0, buckets: [0; 2], tables: [0; 2], region: 0, blocks: [0; 2] };
        let mut place = SAVE_HEADER_SIZE as usize;
        let mut region = None;
        for part in order {
            place += random.below(room.gap + 1) as usize;
            if part < 2 {
                layout.buckets[part] = place;
                place += 4 * room.buckets[part] as usize;
            } else {
                let kind = part - 2;
                let start = *region.get_or_insert_with(|| place - random.below(place as u64 + 1) as usize);
                layout.region = start;
                layout.blocks[kind] = (place - start).div_ceil(room.block_size as usize);
                layout.tables[kind] = start + layout.blocks[kind] * room.block_size as usize;
                place = layout.tables[kind] + most[kind] as usize * ENTRY_SIZES[kind];
            }
        }
        layout.size = place + random.below(room.gap + 1) as usize;
        layout
    }

    /// Fields that are not read keep their noise: 0x08 to 0x23, what is said of the allocation table, block counts, padding.
    fn put_header(&self, level4: &mut [u8], room: &Room, most: [u64; 2]) {
        put(level4, 0, SAVE_OPENING);
        for (place, number) in [(0x28, self.buckets[0]), (0x38, self.buckets[1]), (0x58, self.region)] {
            put(level4, place, &(number as u64).to_le_bytes());
        }
        let words = [
            (0x24, room.block_size),
            (0x30, room.buckets[0]),
            (0x40, room.buckets[1]),
            (0x68, self.blocks[0] as u64),
            (0x70, most[0] - 2),
            (0x78, self.blocks[1] as u64),
            (0x80, most[1] - 1),
        ];
        for (place, number) in words {
            put(level4, place, &(number as u32).to_le_bytes());
        }
    }
}

/// What a container must be like to hold this level 4 as a save.
pub fn wanted_around(level4: Vec<u8>, log: u64) -> Wanted {
    Wanted {
        kind: Some(Kind::Disa),
        count: Some(1),
        external: Some(false),
        data: Some((level4.len() as u64, log)),
        contents: Some(level4),
        ..Wanted::default()
    }
}

/// A save in a container that leaves nothing to chance: each block is verified.
pub fn plain_container(level4: Vec<u8>, log: u64) -> Sample {
    let wanted = Wanted { tight: true, all_verified: true, ..wanted_around(level4, log) };
    valid_image(&mut Random::new(0), &wanted)
}
