//! How each row is measured. Everything is in memory and was touched before the first turn.

use std::hint::black_box;

use crate::begun::{accepted, Begun};
use crate::boundary::Library;
use crate::calls::Calls;
use crate::counting::{self, hashed_by, Hashed};
use crate::image::{filled, fresh_of, image_of, BLOCK, TABLE_SIZE, USUAL};
use crate::names::{folder_of, name_of, NamedSave};
use crate::openssl;
use crate::plain_sha256::{Sha256, FORMS};
use crate::rows::Row;
use crate::straightforward::Straightforward;
use crate::subject::blank::Blanks;
use crate::subject::Rules;
use crate::timing::{best_turns, per_call};

// Of the crate sha256_bench, and no part of the boundary: the digest of a slice.
extern "C" {
    fn teplovist_sha256(message: *const u8, length: usize, out: *mut u8);
}

fn proved_digest(message: &[u8]) -> [u8; 32] {
    let mut out = [0; 32];
    unsafe { teplovist_sha256(message.as_ptr(), message.len(), out.as_mut_ptr()) };
    out
}

/// How many blocks of level 4 the image has, where writes go in it, and the longest of them.
pub const BLOCKS: usize = 4096;
pub const WRITTEN: usize = BLOCKS / 2 * BLOCK;
const LONGEST_WRITE: usize = 64 * BLOCK;
/// Where a single byte is in its block.
pub const INSIDE: usize = 5;

/// The hash levels of a blank image of so many blocks, 3 to 1: size and block size. Its blocks of one level are equal.
const LEVELS: [(usize, usize); 3] = [(32 * BLOCKS, BLOCK), (1024, 512), (64, 512)];
/// Its table.
const TABLE: usize = 0x12C;

/// Calls that take about a microsecond are timed so many at once, for the clock to weigh nothing.
const SHORT_CALLS: usize = 50;

pub struct World {
    straightforward: Straightforward,
    /// The fastest form of (b), and its time for a block.
    plain: Sha256,
    plain_time: f64,
    data: Vec<u8>,
    image: Vec<u8>,
    /// The same, but no hash block is verified.
    fresh: Vec<u8>,
    /// What is written there: two lots, so that each write changes what the one before left.
    written: [Vec<u8>; 2],
}

impl World {
    pub fn new() -> World {
        let data = filled(BLOCKS * BLOCK, 1);
        for length in (0..300).chain([BLOCK - 1, BLOCK, BLOCK + 1, 1 << 20]) {
            let digest = proved_digest(&data[..length]);
            assert!(FORMS.iter().all(|form| form(&data[..length]) == digest), "digests of {length} bytes differ");
        }
        let turn = |form: Sha256| digests(form, &data[..BLOCK], 10);
        let times = best_turns([&mut || turn(FORMS[0]), &mut || turn(FORMS[1]), &mut || turn(FORMS[2])]);
        let (plain, plain_time) = FORMS.into_iter().zip(times).min_by(|a, b| a.1.total_cmp(&b.1)).expect("three forms");
        World {
            straightforward: Straightforward { sha256: plain },
            plain,
            plain_time,
            image: image_of(&USUAL, &data),
            fresh: fresh_of(&USUAL, &data),
            data,
            written: [2, 3].map(|seed| filled(LONGEST_WRITE, seed)),
        }
    }

    pub fn digest(&self, length: usize, calls: usize) -> Option<Row> {
        let message = &self.data[..length];
        let [time, plain @ ..] = best_turns([
            &mut || digests(proved_digest, message, calls),
            &mut || digests(FORMS[0], message, calls),
            &mut || digests(FORMS[1], message, calls),
            &mut || digests(FORMS[2], message, calls),
        ]);
        let time_of_b = plain.into_iter().fold(f64::MAX, f64::min);
        Some(Row { time, time_of_a: None, time_of_b, asked: length, must_hash: length, a_hashes: None })
    }

    pub fn openssl(&self, help: bool) -> Option<Row> {
        let time = openssl::time(BLOCK, help)?;
        Some(Row { time, time_of_a: None, time_of_b: self.plain_time, asked: BLOCK, must_hash: BLOCK, a_hashes: None })
    }

    pub fn opening(&self) -> Option<Row> {
        let call = |calls: &dyn Calls| accepted(calls.open(black_box(&self.image)));
        let times = best_turns([
            &mut || per_call(SHORT_CALLS, || call(&Library)),
            &mut || per_call(SHORT_CALLS, || call(&self.straightforward)),
            &mut || self.hash_table(),
        ]);
        Some(row(times, 0, |calls| hashed_by(|| call(calls))))
    }

    pub fn read(&self, blocks: usize) -> Option<Row> {
        let length = blocks * BLOCK;
        let call = |calls: &dyn Calls, buffer: &mut [u8]| accepted(calls.read(black_box(&self.image), 0, buffer));
        let read = |calls: &dyn Calls| {
            let mut buffer = vec![0; length];
            call(calls, &mut buffer);
            assert!(buffer == self.data[..length], "the bytes read differ");
            buffer
        };
        let mut buffers = [read(&Library), read(&self.straightforward)];
        let [by_proved, by_a] = &mut buffers;
        let times = best_turns([
            &mut || per_call(1, || call(&Library, by_proved)),
            &mut || per_call(1, || call(&self.straightforward, by_a)),
            &mut || self.hash_blocks(blocks),
        ]);
        Some(row(times, length, |calls| hashed_by(|| drop(read(calls)))))
    }

    pub fn count(&self) -> Option<Row> {
        let call = |calls: &dyn Calls| assert_eq!(calls.count(black_box(&self.image)), (BLOCKS as u64) << 8);
        let times = best_turns([
            &mut || per_call(1, || call(&Library)),
            &mut || per_call(1, || call(&self.straightforward)),
            &mut || self.hash_blocks(BLOCKS),
        ]);
        Some(row(times, BLOCKS * BLOCK, |calls| hashed_by(|| call(calls))))
    }

    /// The same place written again and again in one session.
    pub fn write(&self, place: usize, length: usize) -> Option<Row> {
        let data = self.written.each_ref().map(|bytes| &bytes[..length]);
        self.check_agreement(&self.image, place, data[0]);
        let [mut proved, mut by_a] = self.begun(&self.image);
        let mut hash = || self.hash_blocks(length.div_ceil(BLOCK));
        let times = best_turns([&mut proved.writing(place, data), &mut by_a.writing(place, data), &mut hash]);
        Some(row(times, length, |calls| hashed_in_session(calls, &self.image, |begun| begun.write(place, data[0]))))
    }

    /// A session's first write, which moves what it touches off the live copies.
    pub fn first_write(&self, place: usize, length: usize) -> Option<Row> {
        self.first_write_to(&self.image, place, length)
    }

    /// The same where no hash block is verified, so that those above it are rebuilt.
    pub fn fresh_write(&self, place: usize, length: usize) -> Option<Row> {
        self.first_write_to(&self.fresh, place, length)
    }

    fn first_write_to(&self, image: &[u8], place: usize, length: usize) -> Option<Row> {
        let data = &self.written[0][..length];
        self.check_agreement(image, place, data);
        self.first_call(image, length, |begun| begun.write(place, data), || self.hash_blocks(length.div_ceil(BLOCK)))
    }

    /// A session's first writes: so many, each as long as the distance to the next or shorter.
    pub fn writes(&self, count: usize, length: usize, distance: usize) -> Option<Row> {
        let call = |begun: &mut Begun| {
            for index in 0..count {
                let from = index * length % (LONGEST_WRITE - length);
                begun.write(WRITTEN + index * distance, &self.written[0][from..from + length]);
            }
        };
        let touched = (count * distance).div_ceil(BLOCK);
        self.first_call(&self.image, count * length, call, || self.hash_blocks(touched))
    }

    pub fn commit(&self) -> Option<Row> {
        self.first_call(&self.image, 0, |begun| begun.commit(), || 2.0 * self.hash_table())
    }

    /// The names of a save of so many files. What must be hashed are the blocks of the header and of the tables.
    pub fn listing(&self, files: usize) -> Option<Row> {
        let save = NamedSave::new(files);
        let mut row = save.row();
        assert_eq!(save.list(&mut row), (save.names as u64) << 8);
        let [time, time_of_b] = best_turns([
            &mut || per_call(1, || assert_eq!(save.list(black_box(&mut row)), (save.names as u64) << 8)),
            &mut || self.hash_all(&save.data[..save.touched]),
        ]);
        Some(Row { time, time_of_a: None, time_of_b, asked: save.touched, must_hash: save.touched, a_hashes: None })
    }

    /// The file in the middle, by its folder and its name: the header, both entries 0, a bucket's word and an entry.
    pub fn finding(&self, files: usize) -> Option<Row> {
        let save = NamedSave::new(files);
        let wanted = files / 2;
        let (folder, name) = (folder_of(wanted) as u64, name_of(wanted));
        let call = || assert_eq!(save.find(black_box(folder), black_box(&name)), (wanted as u64) << 8);
        let touched = 5 * BLOCK;
        let [time, time_of_b] = best_turns([&mut || per_call(1, call), &mut || self.hash_all(&save.data[..touched])]);
        Some(Row { time, time_of_a: None, time_of_b, asked: touched, must_hash: touched, a_hashes: None })
    }

    /// (b)'s turn at whole blocks.
    fn hash_all(&self, blocks: &[u8]) -> f64 {
        per_call(1, || blocks.chunks(BLOCK).for_each(|block| digest_once(self.plain, block)))
    }

    /// A blank image made over another one, against clearing as many bytes and hashing its hash levels block by block.
    pub fn blank(&self) -> Option<Row> {
        let blocks = BLOCKS as u64;
        let mut images = [(); 2].map(|()| vec![1; Library.blank_length(blocks) as usize]);
        let [made, cleared] = &mut images;
        let mut make = || accepted(Library.make_blank(made, 0, blocks));
        let mut clear = || black_box(&mut *cleared).fill(0);
        let [time, clearing, hashing] =
            best_turns([&mut || per_call(1, &mut make), &mut || per_call(1, &mut clear), &mut || {
                per_call(1, || LEVELS.iter().for_each(|&(size, block)| self.hash_level(size, block)))
            }]);
        let must_hash = BLOCK + LEVELS.iter().map(|&(_, block)| block).sum::<usize>() + TABLE;
        Some(Row { time, time_of_a: None, time_of_b: clearing + hashing, asked: 0, must_hash, a_hashes: None })
    }

    /// (b)'s turn at a hash level: at its blocks, the last one with its padding.
    fn hash_level(&self, size: usize, block: usize) {
        self.data[..size.next_multiple_of(block)].chunks(block).for_each(|bytes| digest_once(self.plain, bytes));
    }

    /// A call for which a session is begun each time, untimed.
    fn first_call(
        &self,
        image: &[u8],
        asked: usize,
        call: impl Fn(&mut Begun),
        mut hash: impl FnMut() -> f64,
    ) -> Option<Row> {
        let turn = |begun: &mut Begun| {
            begun.begin();
            per_call(1, || call(begun))
        };
        let [mut proved, mut by_a] = self.begun(image);
        let times = best_turns([&mut || turn(&mut proved), &mut || turn(&mut by_a), &mut hash]);
        Some(row(times, asked, |calls| hashed_in_session(calls, image, &call)))
    }

    /// The proved library and (a), each with an image of its own.
    fn begun(&self, image: &[u8]) -> [Begun<'_>; 2] {
        [Begun::new(&Library, image), Begun::new(&self.straightforward, image)]
    }

    /// (b)'s turn at blocks of level 4.
    fn hash_blocks(&self, blocks: usize) -> f64 {
        per_call(1, || self.data[..blocks * BLOCK].chunks(BLOCK).for_each(|block| digest_once(self.plain, block)))
    }

    /// (b)'s turn at a table: at as many bytes.
    fn hash_table(&self) -> f64 {
        digests(self.plain, &self.data[..TABLE_SIZE], SHORT_CALLS)
    }

    /// The proved library, (a) and the independent rules leave the same image after each call of a session, and then
    /// read what was written.
    fn check_agreement(&self, image: &[u8], place: usize, data: &[u8]) {
        let [proved, by_a] = self.begun(image);
        let mut all = [proved, by_a, Begun::new(&Rules, image)];
        let steps: [&dyn Fn(&mut Begun); 4] =
            [&|_| (), &|begun| begun.write(place, data), &|begun| begun.commit(), &|begun| begun.begin()];
        for step in steps {
            all.iter_mut().for_each(step);
            let [proved, others @ ..] = &all;
            assert!(others.iter().all(|other| other.image == proved.image), "the images differ");
        }
        for begun in &all {
            let mut buffer = vec![0; data.len()];
            begun.read(place, &mut buffer);
            assert!(buffer == data, "what was written is not read");
        }
    }
}

fn hashed_in_session(calls: &dyn Calls, image: &[u8], call: impl Fn(&mut Begun)) -> Hashed {
    let mut begun = Begun::new(calls, image);
    hashed_by(|| call(&mut begun))
}

fn digest_once(digest: Sha256, message: &[u8]) {
    black_box(digest(black_box(message)));
}

fn digests(digest: Sha256, message: &[u8], calls: usize) -> f64 {
    per_call(calls, || digest_once(digest, message))
}

/// A call's row. What must be hashed is counted in the independent rules, and what (a) hashes in (a) itself.
fn row(times: [f64; 3], asked: usize, count: impl Fn(&dyn Calls) -> Hashed) -> Row {
    let [time, time_of_a, time_of_b] = times;
    let counting = Straightforward { sha256: counting::sha256 };
    Row {
        time,
        time_of_a: Some(time_of_a),
        time_of_b,
        asked,
        must_hash: count(&Rules).once,
        a_hashes: Some(count(&counting).with_repetitions),
    }
}
