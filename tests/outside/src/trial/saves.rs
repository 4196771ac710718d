//! Saves of every form, whole and spoiled, and calls for the names in them.

use super::call::untouched_buffer;
use super::list::List;
use super::names::{check_names, choose_small_write, NamesCall};
use super::properties::require;
use super::tally::Tally;
use crate::generate::contents::put;
use crate::generate::random::Random;
use crate::generate::saves::{plain_container, wanted_around, Room, Save, Tree};
use crate::generate::shape::Wanted;
use crate::generate::{valid_image, Sample};
use crate::rules::dpfs::View;
use crate::rules::extent::number;
use crate::rules::header::Kind;
use crate::rules::names::{
    NameKind, DEEPEST, FILE_ENTRY_SIZE, FOLDER_ENTRY_SIZE, NAME_LENGTH, RECORD_LENGTH, SAVE_HEADER_SIZE, SAVE_OPENING,
};
use crate::subject::names::Names;
use crate::subject::{Rules, Subject};

/// A random save, spoiled half of the time, and a list of calls on it.
pub fn run_save_case(random: &mut Random, subject: Option<&dyn Subject>, tally: &mut Tally) -> Result<(), String> {
    let most = random.pick(&[2, 6, 6, 12, 40]);
    let (folders, files) = (random.below(most), random.below(2 * most));
    let tree = Tree::choose(random, folders, files);
    let room = Room::choose(random, &tree);
    let mut save = Save::build(random, &tree, &room);
    let spoiled = random.chance(50);
    if spoiled {
        for _ in 0..random.between(1, 3) {
            let (place, word) = choose_small_write(random, &save.level4);
            put(&mut save.level4, place as usize, &word);
        }
    }
    let all_verified = random.chance(50);
    let log = random.between(5, 9);
    let wanted = Wanted { all_verified, ..wanted_around(save.level4.clone(), log) };
    let sample = valid_image(random, &wanted);
    if all_verified && !spoiled {
        Bench { subject: subject.map(|subject| subject as &dyn Names), tally }.check_built(&save, &sample)?;
    }
    let calls = random.between(1, 15);
    List::new(random, sample, subject, tally).run(random, calls)
}

/// Cases that every run must have tried.
pub fn run(subject: Option<&dyn Names>, tally: &mut Tally) -> Result<(), String> {
    run_small(subject, tally)?;
    Bench { subject, tally }.run_widest().map_err(|complaint| format!("the widest: {complaint}"))
}

/// All of them but the saves that take long.
pub fn run_small(subject: Option<&dyn Names>, tally: &mut Tally) -> Result<(), String> {
    let mut bench = Bench { subject, tally };
    let named = |name: &'static str| move |complaint: String| format!("{name}: {complaint}");
    bench.run_containers().map_err(named("containers"))?;
    bench.run_rows().map_err(named("rows"))?;
    bench.run_edges().map_err(named("edges"))?;
    bench.run_depths().map_err(named("depths"))?;
    bench.run_spoiled_blocks().map_err(named("spoiled blocks"))?;
    bench.run_forms().map_err(named("forms"))?;
    bench.run_spoiled_words().map_err(named("spoiled words"))
}

/// A row that is long enough.
const LONG_ROW: usize = 100 * RECORD_LENGTH;
/// So many files of a save are searched for.
const SEARCHES: usize = 12;
/// Short blocks, so that entries lie in several.
const SHORT_LOG: u64 = 5;

/// Calls on images that open.
struct Bench<'a> {
    subject: Option<&'a dyn Names>,
    tally: &'a mut Tally,
}

impl Bench<'_> {
    /// Makes one call, which must give what the reference model says, and the subject's the same. Answers the answer and
    /// the row.
    fn try_call(&mut self, sample: &Sample, call: &NamesCall) -> Result<(u64, Vec<u8>), String> {
        let mut row = untouched_buffer(call.row_length());
        let answer = call.perform(&Rules, &sample.image, &mut row);
        self.tally.note(call.name(), answer);
        check_names(call, &sample.opened, &sample.versions[0], answer, &row)
            .map_err(|complaint| format!("{call:?}: {complaint}"))?;
        if let Some(subject) = self.subject {
            let mut other = untouched_buffer(call.row_length());
            let said = call.perform(subject, &sample.image, &mut other);
            require(said == answer, || format!("{call:?}: the subject answered {said:#x}, not {answer:#x}"))?;
            require(other == row, || format!("{call:?}: the subject's row differs"))?;
        }
        Ok((answer, row))
    }

    /// The same of a call whose answer is known because the save was built that way. Answers the row.
    fn try_answer(&mut self, sample: &Sample, call: &NamesCall, expected: u64) -> Result<Vec<u8>, String> {
        let (answer, row) = self.try_call(sample, call)?;
        require(answer == expected, || format!("{call:?}: answered {answer:#x}, not {expected:#x} as it was built"))?;
        Ok(row)
    }

    fn try_answers(&mut self, sample: &Sample, calls: &[NamesCall], expected: u64) -> Result<(), String> {
        calls.iter().try_for_each(|call| self.try_answer(sample, call, expected).map(|_| ()))
    }

    /// A listing, and a search for each file and for names that are not there.
    fn try_all(&mut self, save: &Save, sample: &Sample) -> Result<(), String> {
        self.try_call(sample, &NamesCall::List { length: LONG_ROW })?;
        for (folder, name) in save.files() {
            self.try_call(sample, &NamesCall::Find { folder, name })?;
        }
        self.try_call(sample, &NamesCall::Find { folder: 1, name: [7; NAME_LENGTH] })?;
        Ok(())
    }

    /// What was built in is listed and, for some files, found.
    fn check_built(&mut self, save: &Save, sample: &Sample) -> Result<(), String> {
        let names = save.listing.len();
        let list = NamesCall::List { length: RECORD_LENGTH * names };
        let row = self.try_answer(sample, &list, (names as u64) << 8)?;
        let built: Vec<u8> = save.listing.iter().flat_map(|listed| listed.record()).collect();
        require(row == built, || "the listing is not what was built".into())?;
        for (folder, name) in save.files().into_iter().take(SEARCHES) {
            let mut other = name;
            other[15] ^= 0x80;
            for (folder, name) in [(folder, name), (folder + 1, name), (folder, other), (folder + (1 << 32), name)] {
                let file = if folder >> 32 == 0 { save.find(folder, &name) } else { None };
                self.try_answer(sample, &NamesCall::Find { folder, name }, file.unwrap_or(0) << 8)?;
            }
        }
        Ok(())
    }

    /// Empty, deep, wide and mixed saves; buckets that hold all, one or none; entries on the free list.
    fn run_forms(&mut self) -> Result<(), String> {
        for seed in 0..36 {
            let random = &mut Random::new(seed);
            let size = random.between(1, 30);
            let tree = match seed % 6 {
                0 => Tree::empty(random),
                1 => Tree::chain(random, size as usize),
                2 => Tree::flat(random, 0, size as usize),
                3 => Tree::flat(random, size as usize, size as usize),
                _ => Tree::choose(random, size, 2 * size),
            };
            let chosen = Room::choose(random, &tree);
            let tight = Room::tight(&tree);
            for room in [
                Room { buckets: [1, 1], ..chosen.clone() },
                chosen,
                Room { buckets: [1, 1000], ..tight.clone() },
                tight,
            ] {
                let save = Save::build(random, &tree, &room);
                let sample = plain_container(save.level4.clone(), random.between(SHORT_LOG, 12));
                self.check_built(&save, &sample).map_err(|complaint| format!("seed {seed}: {complaint}"))?;
            }
        }
        Ok(())
    }

    /// A save is one in no container but a DISA of one partition with internal level 4, whatever the header's block is
    /// like; and it has a whole header.
    fn run_containers(&mut self) -> Result<(), String> {
        let random = &mut Random::new(0);
        let save = small_save(random);
        let right = wanted_around(save.level4.clone(), SHORT_LOG);
        let others = [
            Wanted { kind: Some(Kind::Diff), ..right.clone() },
            Wanted { kind: Some(Kind::Diff), external: Some(true), ..right.clone() },
            Wanted { count: Some(2), ..right.clone() },
            Wanted { external: Some(true), ..right.clone() },
            Wanted { count: Some(2), external: Some(true), ..right },
        ];
        for wanted in others {
            for all_verified in [true, false] {
                let sample = valid_image(random, &Wanted { all_verified, ..wanted.clone() });
                self.try_answer(&sample, &NamesCall::List { length: LONG_ROW }, 19)?;
                self.try_answer(&sample, &NamesCall::Find { folder: 1, name: [0; NAME_LENGTH] }, 19)?;
            }
        }
        let least = least_save();
        self.try_answer(&plain_container(least.clone(), SHORT_LOG), &NamesCall::List { length: LONG_ROW }, 1 << 8)?;
        for length in [1, 8, least.len() - 1] {
            let mut sample = plain_container(least[..length].to_vec(), SHORT_LOG);
            self.try_answer(&sample, &NamesCall::List { length: LONG_ROW }, 19)?;
            spoil_block(&mut sample, 0);
            self.try_answer(&sample, &NamesCall::List { length: LONG_ROW }, 19)?;
        }
        Ok(())
    }

    /// Rows of every length: whole records alone are stored, and the answer tells of all names.
    fn run_rows(&mut self) -> Result<(), String> {
        let save = small_save(&mut Random::new(1));
        let names = save.listing.len();
        let sample = plain_container(save.level4.clone(), SHORT_LOG);
        for length in 0..RECORD_LENGTH * (names + 2) {
            self.try_answer(&sample, &NamesCall::List { length }, (names as u64) << 8)?;
        }
        Ok(())
    }

    /// Every word of the header, the buckets and the tables with values that come near to something.
    fn run_spoiled_words(&mut self) -> Result<(), String> {
        let random = &mut Random::new(2);
        let save = small_save(random);
        for place in words_of(&save) {
            for value in spoiled_values(random, &save, place) {
                let mut spoiled = save.clone();
                spoiled.put_word(place, value);
                let sample = plain_container(spoiled.level4, 7);
                self.try_all(&save, &sample)
                    .map_err(|complaint| format!("{value:#x} at {place:#x} of level 4: {complaint}"))?;
            }
        }
        Ok(())
    }

    /// Fields of the header with which a table just ends with level 4, and those with which it ends behind it; sums that
    /// wrap at 32 or 64 bits to what would fit.
    fn run_edges(&mut self) -> Result<(), String> {
        let random = &mut Random::new(3);
        let save = small_save(random);
        for (place, last) in last_values(&save) {
            for (value, fits) in [(last, true), (last + 1, false)] {
                let mut level4 = save.level4.clone();
                put_field(&mut level4, place, value);
                let list = NamesCall::List { length: LONG_ROW };
                let (answer, _) = self.try_call(&plain_container(level4.clone(), 7), &list)?;
                let said = || format!("{value:#x} at {place:#x}: answered {answer:#x}");
                require((answer == 19) != fits, said)?;
                if !fits {
                    self.try_judged(level4).map_err(|complaint| format!("{value:#x} at {place:#x}: {complaint}"))?;
                }
            }
        }
        for fields in wrapping_fields(&save) {
            let mut level4 = save.level4.clone();
            fields.iter().for_each(|(place, value)| put_field(&mut level4, *place, *value));
            self.try_judged(level4).map_err(|complaint| format!("{fields:x?}: {complaint}"))?;
        }
        for place in 0..8 {
            let mut level4 = save.level4.clone();
            level4[place] ^= 1 << random.below(8);
            self.try_judged(level4).map_err(|complaint| format!("byte {place}: {complaint}"))?;
        }
        for place in [0x30, 0x40] {
            let mut level4 = save.level4.clone();
            put_field(&mut level4, place, 0);
            self.try_judged(level4).map_err(|complaint| format!("no bucket at {place:#x}: {complaint}"))?;
        }
        Ok(())
    }

    /// A header that is refused by itself: 19, though nothing behind it is verified; but 10 if it is not verified itself.
    fn try_judged(&mut self, level4: Vec<u8>) -> Result<(), String> {
        let mut sample = plain_container(level4, SHORT_LOG);
        let header_blocks = (SAVE_HEADER_SIZE as usize).div_ceil(1 << SHORT_LOG);
        let calls = [NamesCall::List { length: LONG_ROW }, NamesCall::Find { folder: 1, name: [0; NAME_LENGTH] }];
        self.try_answers(&sample, &calls, 19)?;
        (header_blocks..sample.versions[0].verified.len()).for_each(|block| spoil_block(&mut sample, block));
        self.try_answers(&sample, &calls, 19)?;
        let last = header_blocks - 1;
        spoil_block(&mut sample, last);
        self.try_answers(&sample, &calls, (last as u64) << 8 | 10)
    }

    /// Blocks that are not verified, with no other fault and with one behind each entry that is read: whichever is met first
    /// decides. What is read, in which order, is known because the save was built that way. Several saves, since their
    /// entries differ in where blocks begin in them.
    fn run_spoiled_blocks(&mut self) -> Result<(), String> {
        for seed in 0..3 {
            let random = &mut Random::new(seed);
            let save = small_save(random);
            self.run_spoiled_listing(random, &save)
                .and_then(|()| self.run_spoiled_searches(random))
                .map_err(|complaint| format!("seed {seed}: {complaint}"))?;
        }
        Ok(())
    }

    fn run_spoiled_listing(&mut self, random: &mut Random, save: &Save) -> Result<(), String> {
        let reads = listing_reads(save);
        let list = NamesCall::List { length: LONG_ROW };
        let all = (save.listing.len() as u64) << 8;
        self.run_spoiled_reads(random, save, Expected { call: &list, reads: &reads, answer: all })?;
        for (position, listed) in save.listing.iter().enumerate() {
            // Followed next is what a folder says of its first file, and a file of its sibling.
            let pointer = if listed.kind == NameKind::Folder { 0x1C } else { 0x14 };
            let file_before = save.listing[..=position].iter().find(|before| before.kind == NameKind::File);
            let bad = file_before.map_or(save.current[1], |file| file.number);
            let mut spoiled = save.clone();
            spoiled.put_word(save.entry(listed.kind, listed.number) + pointer, bad);
            let reads = &reads[..reads.len() - save.listing.len() + position + 1];
            self.run_spoiled_reads(random, &spoiled, Expected { call: &list, reads, answer: 18 })?;
        }
        Ok(())
    }

    fn run_spoiled_searches(&mut self, random: &mut Random) -> Result<(), String> {
        let save = full_bucket(random);
        let chain = save.chain();
        for (position, (folder, name)) in save.files().into_iter().enumerate() {
            let call = NamesCall::Find { folder, name };
            let reads = chain_reads(&save, position);
            let answer = chain[position] << 8;
            self.run_spoiled_reads(random, &save, Expected { call: &call, reads: &reads, answer })?;
            if position > 0 {
                let mut spoiled = save.clone();
                spoiled.put_word(save.entry(NameKind::File, chain[position - 1]) + 0x2C, chain[0]);
                let reads = &reads[..reads.len() - 1];
                self.run_spoiled_reads(random, &spoiled, Expected { call: &call, reads, answer: 18 })?;
            }
        }
        Ok(())
    }

    /// One block after the other is not verified, alone and with some others.
    fn run_spoiled_reads(&mut self, random: &mut Random, save: &Save, expected: Expected) -> Result<(), String> {
        let sample = plain_container(save.level4.clone(), SHORT_LOG);
        let blocks = sample.versions[0].verified.len();
        self.try_spoiled(&sample, &[], &expected)?;
        for block in 0..blocks {
            self.try_spoiled(&sample, &[block], &expected)?;
            let others = [0; 3].map(|_| random.below(blocks as u64) as usize);
            self.try_spoiled(&sample, &[&[block], &others[..random.between(1, 3) as usize]].concat(), &expected)?;
        }
        Ok(())
    }

    /// With these blocks not verified the first read that touches one is refused with the lowest that it touches.
    fn try_spoiled(&mut self, sample: &Sample, blocks: &[usize], expected: &Expected) -> Result<(), String> {
        let mut sample = sample.clone();
        let mut blocks = blocks.to_vec();
        blocks.sort_unstable();
        blocks.dedup();
        blocks.iter().for_each(|block| spoil_block(&mut sample, *block));
        let touched = |read: &(usize, usize)| blocks.iter().find(|block| touches(*read, **block));
        let answer = expected.reads.iter().find_map(touched).map_or(expected.answer, |block| (*block as u64) << 8 | 10);
        self.try_answer(&sample, expected.call, answer)
            .map(|_| ())
            .map_err(|complaint| format!("blocks {blocks:?} not verified: {complaint}"))
    }

    /// Folders down to the deepest, and one level further, which is refused before its entry is read.
    fn run_depths(&mut self) -> Result<(), String> {
        let random = &mut Random::new(5);
        let mut tree = Tree::chain(random, DEEPEST as usize);
        tree.add_file(random, DEEPEST as usize);
        tree.add_folder(random, DEEPEST as usize - 1);
        tree.add_folder(random, 0);
        let room = Room::choose(random, &tree);
        let save = Save::build(random, &tree, &room);
        self.check_built(&save, &plain_container(save.level4.clone(), 6))?;

        // Until a block has bytes of the deepest entry and of no other.
        let tree = Tree::chain(random, DEEPEST as usize + 1);
        let (save, own) = loop {
            let save = Save::build(random, &tree, &Room { gap: 20, ..Room::tight(&tree) });
            if let Some(own) = own_block(&save) {
                break (save, own);
            }
        };
        let reads = listing_reads(&save);
        let reads = &reads[..reads.len() - 1];
        let expected = Expected { call: &NamesCall::List { length: LONG_ROW }, reads, answer: 18 };
        let sample = plain_container(save.level4, SHORT_LOG);
        [own - 1, own, own + 1].into_iter().try_for_each(|block| self.try_spoiled(&sample, &[block], &expected))?;
        self.try_spoiled(&sample, &[], &expected)
    }

    /// As many siblings as an image can hold, and files in one bucket.
    fn run_widest(&mut self) -> Result<(), String> {
        let random = &mut Random::new(6);
        for (folders, files) in [(WIDEST, 0), (0, 10_000)] {
            let tree = Tree::flat(random, folders, files);
            let room = Room { buckets: [1, 1], ..Room::tight(&tree) };
            let save = Save::build(random, &tree, &room);
            let sample = plain_container(save.level4.clone(), LONG_LOG);
            self.check_built(&save, &sample)?;
        }
        Ok(())
    }
}

/// A call, what it reads in its order as places and sizes, and what it answers if all that is verified.
struct Expected<'a> {
    call: &'a NamesCall,
    reads: &'a [(usize, usize)],
    answer: u64,
}

/// Has a read a byte of this block of the short length?
fn touches((place, size): (usize, usize), block: usize) -> bool {
    let start = block << SHORT_LOG;
    place < start + (1 << SHORT_LOG) && start < place + size
}

/// So many folders fit into the longest image, if its blocks are long.
const WIDEST: usize = 830_000;
const LONG_LOG: u64 = 16;

/// A few folders and files, with entries that are free and entries above the count.
fn small_save(random: &mut Random) -> Save {
    let tree = Tree::choose(random, 4, 6);
    let room = Room { free: [1, 1], spare: [1, 1], buckets: [2, 3], block_size: 2, gap: 9 };
    Save::build(random, &tree, &room)
}

/// Files of which no two have the same folder and name, all in one bucket.
fn full_bucket(random: &mut Random) -> Save {
    loop {
        let tree = Tree::choose(random, 1, 5);
        let room = Room { buckets: [1, 1], ..Room::choose(random, &tree) };
        let save = Save::build(random, &tree, &room);
        let files = save.files();
        if files.iter().enumerate().all(|(place, file)| !files[..place].contains(file)) {
            return save;
        }
    }
}

/// A save in 0x88 bytes: the tables lie in the header, in blocks of no size, and hold the root alone.
fn least_save() -> Vec<u8> {
    let mut level4 = vec![0; SAVE_HEADER_SIZE as usize];
    put(&mut level4, 0, SAVE_OPENING);
    put_field(&mut level4, 0x30, 1);
    // Where the files' bucket lies is also the count in both entries 0: both tables start at 0x38.
    put_field(&mut level4, 0x38, 4);
    put_field(&mut level4, 0x40, 1);
    put_field(&mut level4, 0x58, 0x38);
    level4
}

/// The header's fields of eight bytes; the others have four.
const LONG_FIELDS: [usize; 3] = [0x28, 0x38, 0x58];

fn put_field(level4: &mut [u8], place: usize, value: u64) {
    let length = if LONG_FIELDS.contains(&place) { 8 } else { 4 };
    put(level4, place, &value.to_le_bytes()[..length]);
}

/// Makes a block of level 4 one that is not verified, by a change of its first byte.
fn spoil_block(sample: &mut Sample, block: usize) {
    let partition = &sample.opened.partitions[0];
    let level = partition.descriptor.hash_level(4);
    let place = block << level.log;
    let view = View::committed(&sample.image, &sample.opened, partition);
    let position = view.level3_position(level.extent.offset + place as u128) as usize;
    sample.image[position] ^= 0x10;
    sample.versions[0].bytes[place] ^= 0x10;
    sample.versions[0].verified[block] = false;
}

/// The places of all words that are read, and of some that are not.
fn words_of(save: &Save) -> Vec<usize> {
    let sizes = [FOLDER_ENTRY_SIZE, FILE_ENTRY_SIZE].map(|size| size as usize);
    let mut words: Vec<usize> = (0..SAVE_HEADER_SIZE as usize).step_by(4).collect();
    for kind in [0, 1] {
        let buckets = number(&save.level4, [0x30, 0x40][kind], 4) as usize;
        words.extend((0..buckets).map(|bucket| save.buckets[kind] + 4 * bucket));
        let table = save.tables[kind];
        words.extend((table..table + save.most[kind] as usize * sizes[kind]).step_by(4));
    }
    words
}

/// For a pointer, a count or a place; a name's words and padding get one value.
fn spoiled_values(random: &mut Random, save: &Save, place: usize) -> Vec<u64> {
    let old = number(&save.level4, place, 4);
    let any = random.number() & 0xFFFF_FFFF;
    let in_entry = [0, 1].into_iter().find_map(|kind| {
        let size = [FOLDER_ENTRY_SIZE, FILE_ENTRY_SIZE][kind] as usize;
        let table = save.tables[kind]..save.tables[kind] + save.most[kind] as usize * size;
        table.contains(&place).then(|| (place - table.start) % size)
    });
    if in_entry.is_some_and(|place| ![0x00, 0x14, 0x18, 0x1C, 0x24, 0x2C].contains(&place)) {
        return vec![any];
    }
    let mut values: Vec<u64> = (0..10).collect();
    values.extend(save.current.iter().chain(&save.most).flat_map(|count| [count - 1, *count, count + 1]));
    values.extend([old ^ 1, old + 1, old ^ 0x80, old ^ 0x8000_0000, any]);
    values.extend([0xFF, 0x100, 0x7FFF_FFFF, 0x8000_0000, 0xFFFF_FFFE, 0xFFFF_FFFF]);
    values.retain(|value| *value <= 0xFFFF_FFFF && *value != old);
    values.sort_unstable();
    values.dedup();
    values
}

/// For each field that places a table: the last value with which the tables end in level 4.
fn last_values(save: &Save) -> Vec<(usize, u64)> {
    let size = save.level4.len() as u64;
    let field = |place| number(&save.level4, place, if LONG_FIELDS.contains(&place) { 8 } else { 4 });
    let lengths = [save.most[0] * FOLDER_ENTRY_SIZE as u64, save.most[1] * FILE_ENTRY_SIZE as u64];
    let later = field(0x68).max(field(0x78));
    let room = [0, 1].map(|kind| size - save.tables[kind] as u64 - lengths[kind]);
    let blocks = |kind: usize| (size - lengths[kind] - field(0x58)) / field(0x24);
    let last_kind = usize::from(field(0x78) == later);
    vec![
        (0x24, (size - lengths[last_kind] - field(0x58)) / later),
        (0x28, size - 4 * field(0x30)),
        (0x30, (size - field(0x28)) / 4),
        (0x38, size - 4 * field(0x40)),
        (0x40, (size - field(0x38)) / 4),
        (0x58, field(0x58) + room[0].min(room[1])),
        (0x68, blocks(0)),
        (0x70, (size - save.tables[0] as u64) / FOLDER_ENTRY_SIZE as u64 - 2),
        (0x78, blocks(1)),
        (0x80, (size - save.tables[1] as u64) / FILE_ENTRY_SIZE as u64 - 1),
    ]
}

/// Fields with which a place or an end leaves level 4, but would not if its sum wrapped.
fn wrapping_fields(save: &Save) -> Vec<Vec<(usize, u64)>> {
    let tables = save.tables.map(|table| table as u64);
    let short = |place| number(&save.level4, place, 4);
    vec![
        vec![(0x28, u64::MAX)],
        vec![(0x28, u64::MAX - 4 * short(0x30) + 1)],
        vec![(0x28, save.buckets[0] as u64 + (1 << 32))],
        vec![(0x38, u64::MAX - 4 * short(0x40) + 1)],
        vec![(0x38, save.buckets[1] as u64 + (1 << 63))],
        vec![(0x30, 1 << 30)],
        vec![(0x40, 1 << 30)],
        vec![(0x40, (1 << 30) + 1)],
        // The region starts below zero, and the tables at the right place after all.
        vec![(0x58, 0u64.wrapping_sub(4 * 0x1000)), (0x24, 1), (0x68, tables[0] + 0x4000), (0x78, tables[1] + 0x4000)],
        vec![(0x58, tables[0]), (0x24, 0x8000_0000), (0x68, 2), (0x78, 2)],
        vec![(0x58, tables[0]), (0x24, 0xFFFF_FFFF), (0x68, 0xFFFF_FFFF), (0x78, 0)],
        vec![(0x58, tables[1]), (0x24, 1 << 16), (0x68, 0), (0x78, 1 << 16)],
        vec![(0x70, 0xFFFF_FFFE)],
        vec![(0x70, 0xFFFF_FFFF)],
        vec![(0x70, (1 << 29) - 2)],
        vec![(0x80, 0xFFFF_FFFF)],
        vec![(0x80, (1 << 28) - 1)],
        vec![(0x80, (1 << 28) + save.most[1] - 1)],
    ]
}

/// What both calls read before they walk: the header and the entries 0.
fn first_reads(save: &Save) -> Vec<(usize, usize)> {
    vec![(0, SAVE_HEADER_SIZE as usize), entry_read(save, NameKind::Folder, 0), entry_read(save, NameKind::File, 0)]
}

fn entry_read(save: &Save, kind: NameKind, number: u64) -> (usize, usize) {
    let size = [FOLDER_ENTRY_SIZE, FILE_ENTRY_SIZE][kind as usize];
    (save.entry(kind, number), size as usize)
}

/// What a listing reads, place and size, in its order.
fn listing_reads(save: &Save) -> Vec<(usize, usize)> {
    let mut reads = first_reads(save);
    reads.extend(save.listing.iter().map(|listed| entry_read(save, listed.kind, listed.number)));
    reads
}

/// A block of which the listing's last entry has bytes, and nothing else that the listing reads.
fn own_block(save: &Save) -> Option<usize> {
    let reads = listing_reads(save);
    let (last, before) = reads.split_last()?;
    (0..save.level4.len() >> SHORT_LOG)
        .find(|block| touches(*last, *block) && !before.iter().any(|read| touches(*read, *block)))
}

/// What a search in a full bucket reads, up to the file at this position of the chain.
fn chain_reads(save: &Save, position: usize) -> Vec<(usize, usize)> {
    let mut reads = first_reads(save);
    reads.push((save.buckets[1], 4));
    reads.extend(save.chain()[..=position].iter().map(|file| entry_read(save, NameKind::File, *file)));
    reads
}
