//! Blank images: what becomes of the lent bytes for each number of blocks, what the request says of the result, and
//! sessions on it.

use super::list::List;
use super::properties::require;
use super::sample_of;
use super::tally::Tally;
use crate::generate::random::Random;
use crate::model::Version;
use crate::rules::blank::MOST_BLOCKS;
use crate::rules::descriptor::{Descriptor, Level, ENTRY};
use crate::rules::dpfs::View;
use crate::rules::extent::{number, Extent};
use crate::rules::header::{Header, Kind, PartitionPlace, HEADER, HEADER_LENGTH};
use crate::rules::opening::{open, Opened};
use crate::rules::sha256::sha256;
use crate::subject::blank::Blanks;
use crate::subject::{Rules, Subject};

/// Numbers that every run tries: small ones, powers of two and their neighbours, and both sides of the edges behind which
/// level 4 starts a page later (126, 253), a hash level has a block more (128, 256, 2048), or DPFS level 2 does (1015,
/// 2031, 3047, 4063).
const NUMBERS: [u64; 47] = [
    1, 2, 3, 4, 5, 7, 8, 9, 15, 16, 17, 31, 32, 33, 63, 64, 65, 100, 125, 126, 127, 128, 129, 253, 254, 255, 256, 257,
    511, 512, 513, 1015, 1016, 1023, 1024, 1025, 2031, 2032, 2047, 2048, 2049, 3047, 3048, 4063, 4064, 4095, 4096,
];

/// Numbers out of range, among them those that 8, 16 or 32 bits cut down to 1, and those of which the level's size, its
/// entries' or its bits' wraps to that of 1.
const OUT_OF_RANGE: [u64; 14] = [
    0,
    MOST_BLOCKS + 1,
    2 * MOST_BLOCKS,
    0x1_0001,
    0x100_0001,
    (1 << 31) + 1,
    (1 << 32) + 1,
    (1 << 51) + 1,
    (1 << 52) + 1,
    (1 << 59) + 1,
    (1 << 60) + 1,
    (1 << 63) + 1,
    u64::MAX - 1,
    u64::MAX,
];

/// What the lent bytes hold before a call.
const LENT: u8 = 0xA5;

/// Cases that every run must have tried.
pub fn run(subject: Option<&dyn Subject>, tally: &mut Tally) -> Result<(), String> {
    run_making(subject.map(|subject| subject as &dyn Blanks), tally)?;
    for (seed, blocks) in [1, 1, 2, 3, 130].into_iter().enumerate() {
        for kind in 0..2 {
            let random = &mut Random::new(2 * seed as u64 + kind);
            run_sessions(random, kind, blocks, subject, tally)
                .map_err(|complaint| format!("a session on {blocks} blocks, kind {kind}: {complaint}"))?;
        }
    }
    Ok(())
}

/// The chosen numbers in both kinds; lengths that are wrong for them; numbers out of range.
pub fn run_making(subject: Option<&dyn Blanks>, tally: &mut Tally) -> Result<(), String> {
    let mut making = Making::new(subject, tally);
    for blocks in NUMBERS {
        making.try_number(blocks)?;
    }
    for blocks in [1, 2, 126, 127, 128] {
        let right = Rules.blank_length(blocks);
        let near = [right - 1, right + 1, right - 0x1000, right + 0x1000, 2 * right, 0x200, 1];
        let others = [blocks - 1, blocks + 1].map(|other| Rules.blank_length(other));
        for length in near.into_iter().chain(others) {
            making.try_blank(Lent { kind: 0, blocks, length })?;
            making.try_blank(Lent { kind: 1, blocks, length })?;
        }
    }
    for blocks in OUT_OF_RANGE {
        let shortest = Rules.blank_length(1);
        for length in [0, 0x200, shortest - 0x2000, shortest, shortest + 0x2000] {
            making.try_blank(Lent { kind: blocks, blocks, length })?;
        }
    }
    // Of a kind only the lowest bit counts.
    for kind in [2, 3, 1 << 32, (1 << 32) + 1, u64::MAX - 1, u64::MAX] {
        making.try_blank(Lent { kind, blocks: 1, length: Rules.blank_length(1) })?;
    }
    Ok(())
}

/// Every number in range.
pub fn run_every_number(subject: Option<&dyn Subject>, tally: &mut Tally) -> Result<(), String> {
    let mut making = Making::new(subject.map(|subject| subject as &dyn Blanks), tally);
    (1..=MOST_BLOCKS).try_for_each(|blocks| making.try_number(blocks))
}

/// Any number and any length, mostly right ones; then a session.
pub fn run_blank_case(random: &mut Random, subject: Option<&dyn Subject>, tally: &mut Tally) -> Result<(), String> {
    let blocks = match random.below(20) {
        0 => random.pick(&OUT_OF_RANGE),
        1 => random.number(),
        2..=5 => random.between(1, 300),
        6 => random.between(1, MOST_BLOCKS),
        _ => random.between(1, 8),
    };
    let right = Rules.blank_length(blocks);
    let length = match random.below(10) {
        0 => random.below(0x8000),
        1 => right + random.pick(&[1, 2, 0x1000]),
        2 => right.saturating_sub(random.pick(&[1, 2, 0x1000])),
        _ => right,
    };
    let kind = random.number();
    Making::new(subject.map(|subject| subject as &dyn Blanks), tally).try_blank(Lent { kind, blocks, length })?;
    if (1..=8).contains(&blocks) && length == right {
        run_sessions(random, kind, blocks, subject, tally)?;
    }
    Ok(())
}

/// What a call gets.
#[derive(Clone, Copy, Debug)]
struct Lent {
    kind: u64,
    blocks: u64,
    length: u64,
}

/// Calls one after the other. The two images keep their memory from call to call, since it takes longer to get it than to
/// use it.
struct Making<'a> {
    subject: Option<&'a dyn Blanks>,
    tally: &'a mut Tally,
    image: Vec<u8>,
    other: Vec<u8>,
}

impl<'a> Making<'a> {
    fn new(subject: Option<&'a dyn Blanks>, tally: &'a mut Tally) -> Making<'a> {
        Making { subject, tally, image: Vec::new(), other: Vec::new() }
    }

    /// Both kinds of one number.
    fn try_number(&mut self, blocks: u64) -> Result<(), String> {
        let length = Rules.blank_length(blocks);
        self.try_blank(Lent { kind: 0, blocks, length })?;
        self.try_blank(Lent { kind: 1, blocks, length })
    }

    /// One call: 20 exactly if number or length is wrong, with nothing changed; else the blank image, whatever was there.
    fn try_blank(&mut self, lent: Lent) -> Result<(), String> {
        let Lent { kind, blocks, length } = lent;
        lend(&mut self.image, length);
        let answer = Rules.make_blank(&mut self.image, kind, blocks);
        self.tally.note("make blank", answer);
        let judged = match answer {
            0 => check_blank(&self.image, kind, blocks),
            20 => check_refused(&self.image, blocks),
            _ => Err(format!("answered {answer:#x}")),
        };
        judged.and_then(|()| self.compare(lent, answer)).map_err(|complaint| format!("{lent:x?}: {complaint}"))
    }

    /// The subject says the same length and makes the same of the same bytes.
    fn compare(&mut self, Lent { kind, blocks, length }: Lent, answer: u64) -> Result<(), String> {
        let Some(subject) = self.subject else { return Ok(()) };
        let (said, right) = (subject.blank_length(blocks), Rules.blank_length(blocks));
        require(said == right, || format!("the subject's length is {said:#x}, not {right:#x}"))?;
        lend(&mut self.other, length);
        let other_answer = subject.make_blank(&mut self.other, kind, blocks);
        require(other_answer == answer, || format!("the subject answered {other_answer:#x}, not {answer:#x}"))?;
        let differs = || self.image.iter().zip(&self.other).position(|(one, other)| one != other).unwrap_or(0);
        require(self.image == self.other, || format!("the subject's image differs at {:#x}", differs()))
    }
}

fn lend(image: &mut Vec<u8>, length: u64) {
    image.clear();
    image.resize(length as usize, LENT);
}

fn check_refused(image: &[u8], blocks: u64) -> Result<(), String> {
    require(!fits(blocks, image.len() as u64), || "it is refused".into())?;
    require(image.iter().all(|byte| *byte == LENT), || "it is refused, and yet something changed".into())
}

/// Is the number in range, and the length that of its image? Level 3 starts at 0x2000, and each half of it has the pages of
/// all entries and those of level 4.
fn fits(blocks: u64, length: u64) -> bool {
    if !(1..=MOST_BLOCKS).contains(&blocks) {
        return false;
    }
    let level3_entries = blocks;
    let level2_entries = level3_entries.div_ceil(128);
    let level1_entries = level2_entries.div_ceil(16);
    let pages = (level1_entries + level2_entries + level3_entries).div_ceil(128) + blocks;
    length == 0x2000 + 2 * 0x1000 * pages
}

/// All that the request says of the image that is made.
fn check_blank(image: &[u8], kind: u64, blocks: u64) -> Result<(), String> {
    require(fits(blocks, image.len() as u64), || "it is accepted".into())?;
    let opened = open(image).map_err(|refusal| format!("it does not open: {}", refusal.number()))?;
    check_header(&opened.header, kind, image.len())?;
    let partition = &opened.partitions[0];
    let descriptor = &partition.descriptor;
    check_levels(descriptor, blocks)?;
    require(descriptor.level3.extent.pair().end() == partition.place.area.size, || {
        "level 3's pair is not last".into()
    })?;
    check_hashes(&View::committed(image, &opened, partition))?;
    check_zeros(image, &opened)
}

fn check_header(header: &Header, kind: u64, length: usize) -> Result<(), String> {
    let table = |offset| Extent { offset, size: 0x12C };
    let expected = Header {
        kind: if kind & 1 == 0 { Kind::Disa } else { Kind::Diff },
        flag: 0,
        secondary: table(0x200),
        primary: table(0x330),
        partitions: vec![PartitionPlace {
            descriptor: table(0),
            area: Extent { offset: 0x1000, size: length as u128 - 0x1000 },
        }],
    };
    require(*header == expected, || format!("the header says {header:?}"))
}

/// Sizes and places of the levels, each said by what it is the least of.
fn check_levels(descriptor: &Descriptor, blocks: u64) -> Result<(), String> {
    let pieces = [descriptor.ivfc, descriptor.dpfs, descriptor.master];
    let places = [(0x44, 0x78), (0xBC, 0x50), (0x10C, 0x20)].map(|(offset, size)| Extent { offset, size });
    require(pieces == places, || "a piece is elsewhere".into())?;
    require(descriptor.selector == 0 && descriptor.external.is_none(), || "the selector, or external".into())?;

    let levels = descriptor.hash_levels;
    require(levels.map(|level| level.log) == [9, 9, 12, 12], || "a logarithm of IVFC".into())?;
    require(levels[3].extent.size == 0x1000 * u128::from(blocks), || "level 4's size".into())?;
    let mut place = 0;
    for (level, next) in levels.iter().zip(&levels[1..]) {
        require(level.extent.size == ENTRY * next.blocks(), || "a hash level's size".into())?;
        require(level.extent.offset == place, || "a hash level's place".into())?;
        place += level.extent.size;
    }
    require(is_next_page(levels[3].extent.offset, place), || "level 4's place".into())?;

    let Descriptor { level1, level2, level3, .. } = *descriptor;
    require((level2.log, level3.log) == (7, 12), || "a logarithm of DPFS".into())?;
    require(level3.extent.size == levels[3].extent.end(), || "DPFS level 3's size".into())?;
    require(is_least(level2.extent.size, 0x80, level3), || "DPFS level 2's size".into())?;
    require(is_least(level1.size, 4, level2), || "DPFS level 1's size".into())?;
    require(level1.offset == 0 && level2.extent.offset == level1.pair().end(), || "DPFS level 1 or 2's place".into())?;
    require(is_next_page(level3.extent.offset, level2.extent.pair().end()), || "DPFS level 3's place".into())
}

/// The next multiple of 0x1000 at or after an end.
fn is_next_page(place: u128, end: u128) -> bool {
    place.is_multiple_of(0x1000) && place >= end && place - end < 0x1000
}

/// The least multiple of a unit that has enough bits for the next level.
fn is_least(size: u128, unit: u128, next: Level) -> bool {
    size.is_multiple_of(unit) && 8 * size >= next.blocks() && 8 * (size - unit) < next.blocks()
}

/// Level 4 is zero and every block of every level is verified. All of level 4's blocks are alike, so that one is hashed.
fn check_hashes(view: &View) -> Result<(), String> {
    let level4 = view.partition.descriptor.hash_level(4);
    let block = |block| is_zero(&view.padded_block(4, block));
    require((0..level4.blocks()).all(block), || "level 4 is not zero".into())?;
    for level in 1..=3 {
        require(view.verified_blocks(level).into_iter().all(|verified| verified), || {
            format!("a block of level {level}")
        })?;
    }
    let digest = sha256(&vec![0; level4.block_size() as usize]);
    let entries = view.level_bytes(3, 0, ENTRY * level4.blocks());
    require(entries.chunks(ENTRY as usize).all(|entry| entry == digest), || "a block of level 4".into())
}

/// Bytes that are neither a field nor an entry are zero, the inactive table among them, and so are the fields that opening
/// does not judge, but for IVFC's last.
fn check_zeros(image: &[u8], opened: &Opened) -> Result<(), String> {
    let header = &image[HEADER..HEADER + HEADER_LENGTH];
    let unread = match opened.header.kind {
        Kind::Disa => [0x0C..0x10, 0x69..0x6C, 0x8C..HEADER_LENGTH],
        Kind::Diff => [0x54..HEADER_LENGTH, 0..0, 0..0],
    };
    require(unread.into_iter().all(|range| is_zero(&header[range])), || "a header byte that is not read".into())?;

    let active = opened.header.active_table().of(image);
    require(is_zero(&active[0x3A..0x44]), || "DIFI's bytes behind the selector".into())?;
    let [ivfc, dpfs] = [0x44, 0xBC];
    let paddings = [0x24, 0x3C, 0x54, 0x6C]
        .map(|place| ivfc + place)
        .into_iter()
        .chain([0x1C, 0x34, 0x4C].map(|place| dpfs + place));
    require(paddings.into_iter().all(|place| number(active, place, 4) == 0), || "padding behind a logarithm".into())?;
    require(number(active, dpfs + 0x18, 4) == 0, || "DPFS level 1's logarithm".into())?;
    require(number(active, ivfc + 0x70, 8) == 0x78, || "IVFC's field 0x70".into())?;

    let primary = opened.header.primary;
    let descriptor = &opened.partitions[0].descriptor;
    let first_copies = 0x1000 + descriptor.level3.extent.offset as usize;
    let entries_end = first_copies + descriptor.hash_level(3).extent.end() as usize;
    let gaps = [
        0..HEADER,
        HEADER + HEADER_LENGTH..primary.offset as usize,
        primary.end() as usize..first_copies,
        entries_end..image.len(),
    ];
    require(gaps.into_iter().all(|range| is_zero(&image[range])), || "a byte that is neither field nor entry".into())
}

/// Compared in pieces, which is faster than byte by byte.
fn is_zero(bytes: &[u8]) -> bool {
    const ZEROS: [u8; 0x1000] = [0; 0x1000];
    bytes.chunks(ZEROS.len()).all(|piece| *piece == ZEROS[..piece.len()])
}

/// A blank image takes sessions as any other does.
fn run_sessions(
    random: &mut Random,
    kind: u64,
    blocks: u64,
    subject: Option<&dyn Subject>,
    tally: &mut Tally,
) -> Result<(), String> {
    let mut image = vec![LENT; Rules.blank_length(blocks) as usize];
    Rules.make_blank(&mut image, kind, blocks);
    let opened = open(&image).map_err(|refusal| format!("it does not open: {}", refusal.number()))?;
    let version = Version { bytes: vec![0; 0x1000 * blocks as usize], verified: vec![true; blocks as usize] };
    let sample = sample_of(image, opened);
    require(sample.versions == [version], || "level 4 is not zero, or not verified".into())?;
    List::new(random, sample, subject, tally).run(random, 12)
}
