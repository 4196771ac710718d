//! Breaks one rule of a valid image. Each damage knows from the paper which number opening must answer; the table's
//! hash is kept right where the rule comes after refusal 5.

use super::contents::put;
use super::random::Random;
use super::shape::Wanted;
use super::valid_image;
use crate::rules::descriptor::{Level, DIFI_SIZE, DPFS_LEVELS, ENTRY, IVFC_LEVELS, SELECTOR};
use crate::rules::extent::{number, Extent};
use crate::rules::header::{Kind, B_FIELDS, HEADER, SHORTEST_IMAGE};
use crate::rules::opening::{Opened, Partition};
use crate::rules::sha256::sha256;

const HALF_RANGE: u64 = 1 << 63;

/// An image that is being damaged.
#[derive(Clone, Debug)]
pub struct Patient {
    pub image: Vec<u8>,
    /// What the image said while it was valid.
    pub opened: Opened,
    /// The partition whose fields are damaged.
    pub target: usize,
}

/// One rule to break. `apply` answers false if the image has no place for this damage.
#[derive(Clone, Copy)]
pub struct Damage {
    pub name: &'static str,
    pub number: u64,
    pub apply: fn(&mut Random, &mut Patient) -> bool,
}

/// A damaged image: which damage, and the bytes. Chooses valid images until one has a place for the damage.
pub fn damaged_image(random: &mut Random, damage: &Damage) -> Patient {
    for _ in 0..10_000 {
        let mut patient = patient(random, &Wanted::default());
        if (damage.apply)(random, &mut patient) {
            return patient;
        }
    }
    panic!("no image has a place for: {}", damage.name);
}

/// Any damage, each refusal's number as often as another's.
pub fn any_damage(random: &mut Random) -> Damage {
    let number = random.between(1, 7);
    let choices: Vec<Damage> = DAMAGES.iter().copied().filter(|damage| damage.number == number).collect();
    random.pick(&choices)
}

/// A valid image about to be damaged in one of its partitions.
pub fn patient(random: &mut Random, wanted: &Wanted) -> Patient {
    let mut wanted = wanted.clone();
    if random.chance(20) {
        wanted.spare = Some(200);
    }
    let sample = valid_image(random, &wanted);
    let target = random.below(sample.opened.partitions.len() as u64) as usize;
    Patient { image: sample.image, opened: sample.opened, target }
}

/// Gives DPFS level 2 or 3 one block more. Where its bits were full and there is room, too few bits are all that is wrong.
pub fn add_block(patient: &mut Patient, level: usize) {
    let descriptor = &patient.partition().descriptor;
    let (grown, unit) = if level == 2 { (descriptor.level2, 4) } else { (descriptor.level3, 1) };
    let size = grown.blocks() * grown.block_size() + unit;
    patient.set(patient.dpfs_level(level)[1], size as u64);
}

/// The places of the header's fields: table offsets, table size, and by partition descriptor and area.
struct HeaderFields {
    secondary: usize,
    primary: usize,
    table_size: usize,
    descriptor: Option<usize>,
    area: usize,
}

impl Patient {
    fn partition(&self) -> &Partition {
        &self.opened.partitions[self.target]
    }

    /// A DISA of one partition.
    fn has_no_b(&self) -> bool {
        self.opened.header.kind == Kind::Disa && self.opened.partitions.len() == 1
    }

    fn fields(&self) -> HeaderFields {
        match (self.opened.header.kind, self.target) {
            (Kind::Disa, 0) => {
                HeaderFields { secondary: 0x10, primary: 0x18, table_size: 0x20, descriptor: Some(0x28), area: 0x48 }
            }
            (Kind::Disa, _) => {
                HeaderFields { secondary: 0x10, primary: 0x18, table_size: 0x20, descriptor: Some(0x38), area: 0x58 }
            }
            (Kind::Diff, _) => {
                HeaderFields { secondary: 0x08, primary: 0x10, table_size: 0x18, descriptor: None, area: 0x20 }
            }
        }
    }

    /// Sets an eight-byte header field.
    fn set_header(&mut self, place: usize, value: u64) -> bool {
        put(&mut self.image, HEADER + place, &value.to_le_bytes());
        true
    }

    /// The position of the target's descriptor in the active table.
    fn descriptor_position(&self) -> usize {
        (self.opened.header.active_table().offset + self.partition().place.descriptor.offset) as usize
    }

    fn ivfc_position(&self) -> usize {
        self.descriptor_position() + self.partition().descriptor.ivfc.offset as usize
    }

    fn dpfs_position(&self) -> usize {
        self.descriptor_position() + self.partition().descriptor.dpfs.offset as usize
    }

    /// Stores bytes at a position in the active table and brings the header's hash up to date.
    fn store(&mut self, position: usize, data: &[u8]) -> bool {
        put(&mut self.image, position, data);
        self.rehash(self.opened.header.active_table());
        true
    }

    fn rehash(&mut self, table: Extent) {
        let digest = sha256(table.of(&self.image));
        put(&mut self.image, HEADER + self.opened.header.kind.hash_place(), &digest);
    }

    fn set(&mut self, position: usize, value: u64) -> bool {
        self.store(position, &value.to_le_bytes())
    }

    /// Sets the master hash's size in both places.
    fn set_master_size(&mut self, size: u64) -> bool {
        self.set(self.ivfc_position() + 8, size);
        self.set(self.descriptor_position() + 0x30, size)
    }

    /// Where DIFI has the offset of each other piece, and the piece's size.
    fn pieces(&self) -> [(usize, u128); 3] {
        let descriptor = &self.partition().descriptor;
        [(0x08, descriptor.ivfc.size), (0x18, descriptor.dpfs.size), (0x28, descriptor.master.size)]
    }

    /// Changes one of the bytes at a position in the active table to another value.
    fn spoil_byte(&mut self, random: &mut Random, position: usize, length: u64) -> bool {
        let position = position + random.below(length) as usize;
        let byte = self.image[position] ^ random.between(1, 255) as u8;
        self.store(position, &[byte])
    }

    /// The positions of offset, size and logarithm of IVFC level 1 to 4.
    fn ivfc_level(&self, level: usize) -> [usize; 3] {
        let start = self.ivfc_position() + IVFC_LEVELS[level - 1];
        [start, start + 8, start + 16]
    }

    /// The same of DPFS level 1 to 3.
    fn dpfs_level(&self, level: usize) -> [usize; 3] {
        let start = self.dpfs_position() + DPFS_LEVELS[level - 1];
        [start, start + 8, start + 16]
    }

    /// One half of DPFS level 1 to 3.
    fn half(&self, level: usize) -> Extent {
        let descriptor = &self.partition().descriptor;
        [descriptor.level1, descriptor.level2.extent, descriptor.level3.extent][level - 1]
    }

    /// Both halves of DPFS level 1 to 3.
    fn both_halves(&self, level: usize) -> Extent {
        let half = self.half(level);
        Extent { offset: half.offset, size: 2 * half.size }
    }

    /// The second half of DPFS level 1 to 3.
    fn second_half(&self, level: usize) -> Extent {
        let half = self.half(level);
        Extent { offset: half.offset + half.size, size: half.size }
    }

    /// Where the last thing in the partition ends, DPFS level `but` left out.
    fn last_end(&self, but: usize) -> u128 {
        let pairs = (1..=3).filter(|level| *level != but).map(|level| self.both_halves(level).end());
        let external = self.partition().descriptor.external;
        let external = external.map(|offset| u128::from(offset) + self.hash_level(4).extent.size);
        pairs.chain(external).max().expect("a pair is left")
    }

    fn hash_level(&self, level: usize) -> Level {
        self.partition().descriptor.hash_level(level)
    }
}

/// An offset at which something of this size does not lie in `whole`: from one byte too far to values that wrap.
fn offset_outside(random: &mut Random, whole: u128, size: u128) -> u64 {
    let whole = whole as u64;
    let size = size as u64;
    let first = whole - size.min(whole) + 1;
    random.pick(&[
        first,
        first,
        whole.max(first),
        whole + 1,
        HALF_RANGE - 1,
        HALF_RANGE,
        u64::MAX - size,
        (u64::MAX - size).wrapping_add(1), // the end wraps to 0
        (u64::MAX - size).wrapping_add(1 + whole / 2).max(first),
        u64::MAX,
        u64::MAX - 1,
    ])
}

/// An offset at which something of this size has at least one byte in common with `other`.
fn offset_overlapping(random: &mut Random, size: u128, other: Extent) -> u64 {
    let lowest = (other.offset + 1).saturating_sub(size) as u64;
    let highest = (other.end() - 1) as u64;
    match random.below(4) {
        0 => lowest,
        1 => highest,
        2 => other.offset as u64,
        _ => random.between(lowest, highest),
    }
}

/// A size whose sum with the offset wraps in eight bytes if it can, to 0 or a little above.
fn size_wrapping(random: &mut Random, offset: u128) -> u64 {
    (u64::MAX - offset as u64).saturating_add(random.pick(&[1, 2, 0x20, 0x300]))
}

fn other_than(random: &mut Random, all: &[u64], allowed: impl Fn(u64) -> bool) -> u64 {
    let bad: Vec<u64> = all.iter().copied().filter(|value| !allowed(*value)).collect();
    random.pick(&bad)
}

/// A logarithm outside `lowest` to 16: half of the time right at a limit, else far away, among them ones whose low
/// bytes are allowed.
fn bad_log(random: &mut Random, lowest: u32) -> u32 {
    if random.chance(50) {
        return random.pick(&[lowest - 1, 17]);
    }
    let low_byte_allowed = [256 + lowest, (1 << 16) + lowest, (1 << 24) + 16, (1 << 31) + 8];
    random.pick(&[&low_byte_allowed[..], &[0, 1, 31, 32, 63, 64, 255, 1 << 31, u32::MAX]].concat())
}

/// A size that is no multiple of `unit`, near the right one or far away.
fn bad_multiple(random: &mut Random, size: u128, unit: u64) -> u64 {
    let size = size as u64;
    let all = [1, size - 1, size + 1, size + unit / 2, unit - 1, unit + 1, HALF_RANGE + 1, HALF_RANGE - 1, u64::MAX];
    other_than(random, &all, |value| value % unit == 0)
}

/// Every damage, in the order of the refusals.
pub const DAMAGES: &[Damage] = &[
    // 1 to 3.
    Damage {
        name: "image too short",
        number: 1,
        apply: |random, patient| {
            let length = random.pick(&[0, 1, 0xFF, 0x100, 0x108, SHORTEST_IMAGE - 1]);
            patient.image.truncate(length);
            true
        },
    },
    Damage {
        name: "kind: one byte of the opening",
        number: 2,
        apply: |random, patient| {
            let place = HEADER + random.below(8) as usize;
            patient.image[place] ^= random.between(1, 255) as u8;
            true
        },
    },
    Damage {
        name: "kind: the other kind's version",
        number: 2,
        apply: |_, patient| {
            patient.image[HEADER + 6] ^= 7; // 3 and 4 exchanged
            true
        },
    },
    Damage {
        name: "count",
        number: 3,
        apply: |random, patient| {
            let count = random.pick(&[0u32, 3, 4, 255, 256, 0x101, 0x102, 0x10000, 0x10001, 1 << 31, u32::MAX]);
            put(&mut patient.image, HEADER + 8, &count.to_le_bytes());
            patient.opened.header.kind == Kind::Disa
        },
    },
    Damage {
        name: "flag",
        number: 3,
        apply: |random, patient| {
            let (place, length) = patient.opened.header.kind.flag_place();
            let flag = random.pick(&[2u32, 3, 0x10, 0x80, 0xFF, 0x100, 0x101, 0x1000000, u32::MAX]);
            put(&mut patient.image, HEADER + place, &flag.to_le_bytes()[..length]);
            length == 4 || flag & 0xFF > 1
        },
    },
    Damage {
        name: "a byte in a field of B where there is no B",
        number: 3,
        apply: |random, patient| {
            let place = HEADER + random.pick(&B_FIELDS) + random.below(8) as usize;
            patient.image[place] = random.between(1, 255) as u8;
            patient.has_no_b()
        },
    },
    Damage {
        name: "a likely value in a field of B where there is no B",
        number: 3,
        apply: |random, patient| {
            let place = random.pick(&B_FIELDS);
            let a = patient.partition().place;
            let values =
                [a.descriptor.end(), a.descriptor.size, a.area.end(), a.area.size, 1].map(|value| value as u64);
            let value = random.pick(&values);
            patient.set_header(place, value);
            patient.has_no_b()
        },
    },
    Damage {
        name: "count 1 over two partitions",
        number: 3,
        apply: |_, patient| {
            put(&mut patient.image, HEADER + 8, &1u32.to_le_bytes());
            patient.opened.partitions.len() == 2
        },
    },
    // 4: tables.
    Damage {
        name: "table offset outside the image",
        number: 4,
        apply: |random, patient| {
            let size = patient.opened.header.primary.size;
            let offset = offset_outside(random, patient.image.len() as u128, size);
            let place = random.pick(&[patient.fields().primary, patient.fields().secondary]);
            patient.set_header(place, offset)
        },
    },
    Damage {
        name: "table in the first 0x200 bytes",
        number: 4,
        apply: |random, patient| {
            let offset = random.pick(&[0, 1, 0xFF, 0x100, 0x1FF]);
            let place = random.pick(&[patient.fields().primary, patient.fields().secondary]);
            patient.set_header(place, offset)
        },
    },
    Damage {
        name: "tables overlap",
        number: 4,
        apply: |random, patient| {
            let offset = offset_overlapping(random, patient.opened.header.primary.size, patient.opened.header.primary);
            patient.set_header(patient.fields().secondary, offset)
        },
    },
    Damage {
        name: "table overlaps a partition",
        number: 4,
        apply: |random, patient| {
            let area = patient.partition().place.area;
            let offset = offset_overlapping(random, patient.opened.header.primary.size, area);
            let place = random.pick(&[patient.fields().primary, patient.fields().secondary]);
            patient.set_header(place, offset)
        },
    },
    Damage {
        name: "table size zero or huge",
        number: 4,
        apply: |random, patient| {
            let header = &patient.opened.header;
            let length = patient.image.len() as u64;
            let wrapping = size_wrapping(random, header.primary.offset);
            let size = random.pick(&[0, length, length + 1, HALF_RANGE, u64::MAX, wrapping]);
            patient.set_header(patient.fields().table_size, size)
        },
    },
    Damage {
        name: "table size above 0x2000 with room for it",
        number: 4,
        apply: |random, patient| {
            let size = random.pick(&[0x2001, 0x2002, 0x4000]);
            *patient = self::patient(random, &Wanted { table_size: Some(size), ..Wanted::default() });
            true
        },
    },
    Damage {
        name: "image one byte too short for what lies last in it",
        number: 4,
        apply: |_, patient| {
            let header = &patient.opened.header;
            let areas = header.partitions.iter().map(|place| place.area.end());
            let last = areas.chain([header.primary.end(), header.secondary.end()]).max().expect("two tables");
            patient.image.truncate(last as usize - 1);
            true
        },
    },
    Damage {
        name: "table one byte too short for its last descriptor",
        number: 4,
        apply: |_, patient| {
            let header = &patient.opened.header;
            let last = header.partitions.iter().map(|place| place.descriptor.end()).max().expect("a partition");
            header.kind == Kind::Disa && patient.set_header(patient.fields().table_size, last as u64 - 1)
        },
    },
    // 4: partitions.
    Damage {
        name: "partition offset outside the image",
        number: 4,
        apply: |random, patient| {
            let size = patient.partition().place.area.size;
            let offset = offset_outside(random, patient.image.len() as u128, size);
            patient.set_header(patient.fields().area, offset)
        },
    },
    Damage {
        name: "partition in the first 0x200 bytes",
        number: 4,
        apply: |random, patient| {
            let offset = random.pick(&[0, 1, 0xFF, 0x100, 0x1FF]);
            patient.set_header(patient.fields().area, offset)
        },
    },
    Damage {
        name: "partition overlaps a table",
        number: 4,
        apply: |random, patient| {
            let table = random.pick(&[patient.opened.header.primary, patient.opened.header.secondary]);
            let offset = offset_overlapping(random, patient.partition().place.area.size, table);
            patient.set_header(patient.fields().area, offset)
        },
    },
    Damage {
        name: "partitions overlap",
        number: 4,
        apply: |random, patient| {
            let partitions = &patient.opened.header.partitions;
            if partitions.len() < 2 {
                return false;
            }
            let offset =
                offset_overlapping(random, partitions[patient.target].area.size, partitions[1 - patient.target].area);
            patient.set_header(patient.fields().area, offset)
        },
    },
    Damage {
        name: "partition size zero, one byte too many, or huge",
        number: 4,
        apply: |random, patient| {
            let offset = patient.partition().place.area.offset as u64;
            let room = patient.image.len() as u64 - offset;
            let wrapping = size_wrapping(random, offset.into());
            let size = random.pick(&[0, room + 1, HALF_RANGE, u64::MAX, wrapping]);
            patient.set_header(patient.fields().area + 8, size)
        },
    },
    Damage {
        name: "count 2 over one partition",
        number: 4,
        apply: |_, patient| {
            put(&mut patient.image, HEADER + 8, &2u32.to_le_bytes());
            patient.has_no_b()
        },
    },
    // 4: descriptors in the table.
    Damage {
        name: "descriptor offset outside the table",
        number: 4,
        apply: |random, patient| {
            let Some(place) = patient.fields().descriptor else { return false };
            let size = patient.partition().place.descriptor.size;
            let offset = offset_outside(random, patient.opened.header.primary.size, size);
            patient.set_header(place, offset)
        },
    },
    Damage {
        name: "descriptor size zero, one byte too many, or huge",
        number: 4,
        apply: |random, patient| {
            let Some(place) = patient.fields().descriptor else { return false };
            let offset = patient.partition().place.descriptor.offset as u64;
            let room = patient.opened.header.primary.size as u64 - offset;
            let wrapping = size_wrapping(random, offset.into());
            let size = random.pick(&[0, room + 1, HALF_RANGE, u64::MAX, wrapping]);
            patient.set_header(place + 8, size)
        },
    },
    Damage {
        name: "descriptors overlap",
        number: 4,
        apply: |random, patient| {
            let Some(place) = patient.fields().descriptor else { return false };
            let partitions = &patient.opened.header.partitions;
            if partitions.len() < 2 {
                return false;
            }
            let other = partitions[1 - patient.target].descriptor;
            let offset = offset_overlapping(random, partitions[patient.target].descriptor.size, other);
            patient.set_header(place, offset)
        },
    },
    // 5.
    Damage {
        name: "active table changed",
        number: 5,
        apply: |random, patient| {
            let table = patient.opened.header.active_table();
            let position = table.offset as u64 + random.below(table.size as u64);
            patient.image[position as usize] ^= 1 << random.below(8);
            true
        },
    },
    Damage {
        name: "table hash changed",
        number: 5,
        apply: |random, patient| {
            let position = HEADER + patient.opened.header.kind.hash_place() + random.below(32) as usize;
            patient.image[position] ^= 1 << random.below(8);
            true
        },
    },
    // 6.
    Damage {
        name: "DIFI opening bytes",
        number: 6,
        apply: |random, patient| {
            let position = patient.descriptor_position();
            patient.spoil_byte(random, position, 8)
        },
    },
    Damage {
        name: "IVFC opening bytes",
        number: 6,
        apply: |random, patient| {
            let position = patient.ivfc_position();
            patient.spoil_byte(random, position, 8)
        },
    },
    Damage {
        name: "DPFS opening bytes",
        number: 6,
        apply: |random, patient| {
            let position = patient.dpfs_position();
            patient.spoil_byte(random, position, 8)
        },
    },
    Damage {
        name: "piece size",
        number: 6,
        apply: |random, patient| {
            let (place, right) = random.pick(&[(0x10, 0x78), (0x20, 0x50)]);
            let size = random.pick(&[0, 1, right - 1, right + 1, 2 * right, right + (1 << 32), HALF_RANGE, u64::MAX]);
            let position = patient.descriptor_position() + place;
            patient.set(position, size)
        },
    },
    Damage {
        name: "piece outside whose size is wrong too",
        number: 6,
        apply: |random, patient| {
            let (place, right) = random.pick(&patient.pieces());
            let position = patient.descriptor_position() + place;
            patient.set(position, random.pick(&[0x2000, HALF_RANGE, u64::MAX]));
            patient.set(position + 8, random.pick(&[0, right as u64 - 1, right as u64 + 1, u64::MAX]))
        },
    },
    Damage {
        name: "one piece outside, another one with wrong opening bytes",
        number: 6,
        apply: |random, patient| {
            let size = patient.partition().place.descriptor.size;
            let (outside, length) = random.pick(&patient.pieces());
            let spoiled = if outside == 0x08 { patient.dpfs_position() } else { patient.ivfc_position() };
            let position = patient.descriptor_position() + outside;
            let offset = offset_outside(random, size, length);
            patient.set(position, offset);
            patient.spoil_byte(random, spoiled, 8)
        },
    },
    Damage {
        name: "selector",
        number: 6,
        apply: |random, patient| {
            let position = patient.descriptor_position() + SELECTOR;
            let selector = random.between(2, 255) as u8;
            patient.store(position, &[selector])
        },
    },
    Damage {
        name: "IVFC logarithm",
        number: 6,
        apply: |random, patient| {
            let level = random.between(1, 4) as usize;
            let log = bad_log(random, 5);
            patient.store(patient.ivfc_level(level)[2], &log.to_le_bytes())
        },
    },
    Damage {
        name: "DPFS logarithm",
        number: 6,
        apply: |random, patient| {
            let (level, lowest) = random.pick(&[(2, 2), (3, 5)]);
            let log = bad_log(random, lowest);
            patient.store(patient.dpfs_level(level)[2], &log.to_le_bytes())
        },
    },
    Damage {
        name: "an allowed logarithm in the padding behind a wrong one",
        number: 6,
        apply: |random, patient| {
            let ivfc = [1, 2, 3, 4].map(|level| patient.ivfc_level(level)[2]);
            let dpfs = [2, 3].map(|level| patient.dpfs_level(level)[2]);
            let position = random.pick(&[&ivfc[..], &dpfs].concat());
            let allowed = number(&patient.image, position, 4) as u32;
            let wrong = random.pick(&[0, 17, 1 << 31]);
            patient.store(position, &[u32::to_le_bytes(wrong), u32::to_le_bytes(allowed)].concat())
        },
    },
    Damage {
        name: "IVFC level size zero",
        number: 6,
        apply: |random, patient| {
            let level = random.between(1, 4) as usize;
            patient.set(patient.ivfc_level(level)[1], 0)
        },
    },
    Damage {
        name: "DPFS level size zero",
        number: 6,
        apply: |random, patient| {
            let level = random.between(1, 3) as usize;
            patient.set(patient.dpfs_level(level)[1], 0)
        },
    },
    Damage {
        name: "IVFC level size no multiple of 32",
        number: 6,
        apply: |random, patient| {
            let level = random.between(1, 3) as usize;
            let size = bad_multiple(random, patient.hash_level(level).extent.size, 32);
            patient.set(patient.ivfc_level(level)[1], size)
        },
    },
    Damage {
        name: "DPFS level size no multiple of 4",
        number: 6,
        apply: |random, patient| {
            let level = random.between(1, 2) as usize;
            let size = bad_multiple(random, patient.half(level).size, 4);
            patient.set(patient.dpfs_level(level)[1], size)
        },
    },
    Damage {
        name: "unequal master hash sizes",
        number: 6,
        apply: |random, patient| {
            let right = patient.partition().descriptor.master.size as u64;
            let near = [right - 32, right - 1, right + 1, right + 32, 2 * right, right + (1 << 32)];
            let all = [&near[..], &[0, 1, 0x20, 0x40, 0x7E0, 0x800, HALF_RANGE, u64::MAX]].concat();
            let size = other_than(random, &all, |size| size == right);
            let position = random.pick(&[patient.ivfc_position() + 8, patient.descriptor_position() + 0x30]);
            patient.set(position, size)
        },
    },
    Damage {
        name: "master hash sizes equal and wrong",
        number: 6,
        apply: |random, patient| {
            let near = [0, 1, 0x1F, 0x21, 0x30, 0x3F, 0x41, 0x7DF, 0x7E1, 0x7FF, 0x801, 0x810, 0x820, 0x840];
            let far = [0x1000, 0x20 + (1 << 32), 0x800 + (1 << 32), HALF_RANGE, u64::MAX - 31, u64::MAX];
            let size = random.pick(&[&near[..], &far].concat());
            patient.set_master_size(size)
        },
    },
    // 7: pieces in the descriptor.
    Damage {
        name: "descriptor too short for DIFI",
        number: 7,
        apply: |random, patient| {
            let size = random.pick(&[1, 8, 0x38, DIFI_SIZE as u64 - 1]);
            match patient.fields().descriptor {
                Some(place) => patient.set_header(place + 8, size),
                None => {
                    // A DIFF's descriptor is the whole table.
                    let table = Extent { size: size.into(), ..patient.opened.header.active_table() };
                    patient.rehash(table);
                    patient.set_header(patient.fields().table_size, size)
                }
            }
        },
    },
    Damage {
        name: "descriptor one byte too short for its last piece",
        number: 7,
        apply: |_, patient| {
            let descriptor = &patient.partition().descriptor;
            let last = descriptor.ivfc.end().max(descriptor.dpfs.end()).max(descriptor.master.end());
            match patient.fields().descriptor {
                Some(place) => patient.set_header(place + 8, last as u64 - 1),
                None => false,
            }
        },
    },
    Damage {
        name: "piece outside the descriptor",
        number: 7,
        apply: |random, patient| {
            let size = patient.partition().place.descriptor.size;
            let (place, length) = random.pick(&patient.pieces());
            let offset = offset_outside(random, size, length);
            let position = patient.descriptor_position() + place;
            patient.set(position, offset)
        },
    },
    Damage {
        name: "piece outside with wrong contents",
        number: 7,
        apply: |random, patient| {
            let size = patient.partition().place.descriptor.size;
            let (place, length, piece) = random.pick(&[(0x08, 0x78, 0), (0x18, 0x50, 1)]);
            let contents = [patient.ivfc_position(), patient.dpfs_position()][piece];
            let offset = offset_outside(random, size, length);
            patient.spoil_byte(random, contents, 8);
            let position = patient.descriptor_position() + place;
            patient.set(position, offset)
        },
    },
    Damage {
        name: "master hash overlaps another piece",
        number: 7,
        apply: |random, patient| {
            let descriptor = &patient.partition().descriptor;
            let difi = Extent { offset: 0, size: DIFI_SIZE };
            let other = random.pick(&[difi, descriptor.ivfc, descriptor.dpfs]);
            let offset = offset_overlapping(random, descriptor.master.size, other);
            let position = patient.descriptor_position() + 0x28;
            patient.set(position, offset)
        },
    },
    Damage {
        name: "DPFS begins in the bytes of IVFC that are not judged",
        number: 7,
        apply: |random, patient| {
            let descriptor = patient.partition().descriptor.clone();
            let offset = descriptor.ivfc.end() - u128::from(random.between(1, 8));
            if offset + descriptor.dpfs.size > patient.partition().place.descriptor.size {
                return false;
            }
            let start = patient.descriptor_position();
            let dpfs = patient.image[patient.dpfs_position()..][..descriptor.dpfs.size as usize].to_vec();
            patient.store(start + offset as usize, &dpfs);
            patient.set(start + 0x18, offset as u64)
        },
    },
    Damage {
        name: "IVFC begins in the external offset of DIFI",
        number: 7,
        apply: |random, patient| {
            let descriptor = patient.partition().descriptor.clone();
            let moved = Extent { offset: u128::from(random.between(0x3C, 0x43)), ..descriptor.ivfc };
            if !moved.lies_in(patient.partition().place.descriptor.size) || !moved.disjoint(descriptor.dpfs) {
                return false;
            }
            let start = patient.descriptor_position();
            let ivfc = patient.image[patient.ivfc_position()..][..descriptor.ivfc.size as usize].to_vec();
            patient.store(start + moved.offset as usize, &ivfc);
            patient.set(start + 0x08, moved.offset as u64)
        },
    },
    // 7: levels in the partition and in DPFS level 3.
    Damage {
        name: "DPFS pair outside the partition",
        number: 7,
        apply: |random, patient| {
            let level = random.between(1, 3) as usize;
            let area = patient.partition().place.area.size;
            let half = patient.half(level);
            let offset = offset_outside(random, area, 2 * half.size);
            patient.set(patient.dpfs_level(level)[0], offset)
        },
    },
    Damage {
        name: "only the second half of a DPFS level outside the partition",
        number: 7,
        apply: |random, patient| {
            // The level goes to the very end, where one half fits and nothing else is.
            let level = random.between(1, 3) as usize;
            let area = patient.partition().place.area.size;
            let size = patient.half(level).size;
            let last = patient.last_end(level);
            let offset = area - size;
            offset >= last && patient.set(patient.dpfs_level(level)[0], offset as u64)
        },
    },
    Damage {
        name: "a DPFS level begins in the second half of another",
        number: 7,
        apply: |random, patient| {
            let (one, other) = random.pick(&[(1, 2), (1, 3), (2, 1), (2, 3), (3, 1), (3, 2)]);
            let second = patient.second_half(other);
            let offset = u128::from(random.below(second.size as u64)) + second.offset;
            patient.set(patient.dpfs_level(one)[0], offset as u64)
        },
    },
    Damage {
        name: "partition one byte too short for its last pair",
        number: 7,
        apply: |_, patient| {
            let last = patient.last_end(0);
            patient.set_header(patient.fields().area + 8, last as u64 - 1)
        },
    },
    Damage {
        name: "DPFS pairs overlap",
        number: 7,
        apply: |random, patient| {
            let (one, other) = random.pick(&[(1, 2), (1, 3), (2, 1), (2, 3), (3, 1), (3, 2)]);
            let offset = offset_overlapping(random, 2 * patient.half(one).size, patient.both_halves(other));
            patient.set(patient.dpfs_level(one)[0], offset)
        },
    },
    Damage {
        name: "DPFS level size huge",
        number: 7,
        apply: |random, patient| {
            let level = random.between(1, 3) as usize;
            let size = random.pick(&[HALF_RANGE, HALF_RANGE - 4, HALF_RANGE + 4, u64::MAX - 3, 1 << 32]);
            patient.set(patient.dpfs_level(level)[1], size)
        },
    },
    Damage {
        name: "external level 4 outside the partition",
        number: 7,
        apply: |random, patient| {
            if patient.partition().descriptor.external.is_none() {
                return false;
            }
            let offset = offset_outside(random, patient.partition().place.area.size, patient.hash_level(4).extent.size);
            let position = patient.descriptor_position() + 0x3C;
            patient.set(position, offset)
        },
    },
    Damage {
        name: "external level 4 overlaps a pair",
        number: 7,
        apply: |random, patient| {
            if patient.partition().descriptor.external.is_none() {
                return false;
            }
            let pair = patient.both_halves(random.between(1, 3) as usize);
            let offset = offset_overlapping(random, patient.hash_level(4).extent.size, pair);
            let position = patient.descriptor_position() + 0x3C;
            patient.set(position, offset)
        },
    },
    Damage {
        name: "IVFC level outside DPFS level 3",
        number: 7,
        apply: |random, patient| {
            let levels = if patient.partition().descriptor.external.is_some() { 3 } else { 4 };
            let level = random.between(1, levels) as usize;
            let offset = offset_outside(random, patient.half(3).size, patient.hash_level(level).extent.size);
            patient.set(patient.ivfc_level(level)[0], offset)
        },
    },
    Damage {
        name: "last IVFC level one byte past DPFS level 3",
        number: 7,
        apply: |_, patient| {
            let descriptor = &patient.partition().descriptor;
            let levels = if descriptor.external.is_some() { 1..=3 } else { 1..=4 };
            let last = levels.max_by_key(|level| patient.hash_level(*level).extent.end()).expect("levels");
            let offset = patient.half(3).size - patient.hash_level(last).extent.size + 1;
            patient.set(patient.ivfc_level(last)[0], offset as u64)
        },
    },
    Damage {
        name: "IVFC levels overlap",
        number: 7,
        apply: |random, patient| {
            let levels = if patient.partition().descriptor.external.is_some() { 3 } else { 4 };
            let one = random.between(1, levels) as usize;
            let other = (one + random.between(1, levels - 1) as usize - 1) % levels as usize + 1;
            let offset =
                offset_overlapping(random, patient.hash_level(one).extent.size, patient.hash_level(other).extent);
            patient.set(patient.ivfc_level(one)[0], offset)
        },
    },
    Damage {
        name: "IVFC level size huge",
        number: 7,
        apply: |random, patient| {
            let level = random.between(1, 4) as usize;
            let wrapping = size_wrapping(random, patient.hash_level(level).extent.offset) & !31;
            let size = random.pick(&[HALF_RANGE, u64::MAX - 31, HALF_RANGE - 32, 1 << 32, wrapping]);
            patient.set(patient.ivfc_level(level)[1], size)
        },
    },
    // 7: enough bits and entries.
    Damage {
        name: "DPFS level 1 has too few bits",
        number: 7,
        apply: |_, patient| {
            let blocks = patient.partition().descriptor.level2.blocks();
            let size = 4 * (blocks.div_ceil(32) - 1);
            size > 0 && patient.set(patient.dpfs_level(1)[1], size as u64)
        },
    },
    Damage {
        name: "DPFS level 2 has too few bits",
        number: 7,
        apply: |_, patient| {
            let blocks = patient.partition().descriptor.level3.blocks();
            let size = 4 * (blocks.div_ceil(32) - 1);
            size > 0 && patient.set(patient.dpfs_level(2)[1], size as u64)
        },
    },
    Damage {
        name: "IVFC level 1 to 3 has too few entries",
        number: 7,
        apply: |random, patient| {
            let level = random.between(1, 3) as usize;
            let size = ENTRY * (patient.hash_level(level + 1).blocks() - 1);
            size > 0 && patient.set(patient.ivfc_level(level)[1], size as u64)
        },
    },
    Damage {
        name: "master hash has too few entries",
        number: 7,
        apply: |_, patient| {
            let too_few = patient.hash_level(1).extent.size > patient.partition().descriptor.master.size;
            too_few && patient.store(patient.ivfc_level(1)[2], &5u32.to_le_bytes())
        },
    },
    Damage {
        name: "master hash one entry shorter than level 1 needs",
        number: 7,
        apply: |_, patient| {
            let size = ENTRY * (patient.hash_level(1).blocks() - 1);
            size > 0 && patient.set_master_size(size as u64)
        },
    },
    // Two rules broken: the earlier one decides.
    Damage {
        name: "a field of B before a later damage",
        number: 3,
        apply: |random, patient| {
            let later = random.between(4, 7);
            let damaged = damage_of(random, patient, later);
            let place = random.pick(&B_FIELDS);
            patient.set_header(place, random.number() | 1);
            damaged && patient.has_no_b() && number(&patient.image, HEADER + 8, 4) == 1
        },
    },
    Damage { name: "A's 7 before B's 6", number: 7, apply: |random, patient| two_partitions(random, patient, 7, 6) },
    Damage { name: "A's 6 before B's 7", number: 6, apply: |random, patient| two_partitions(random, patient, 6, 7) },
    Damage {
        name: "a header damage before a descriptor damage",
        number: 4,
        apply: |random, patient| damage_of(random, patient, 7) && patient.set_header(patient.fields().area, 0x1FF),
    },
    Damage {
        name: "table hash before a descriptor damage",
        number: 5,
        apply: |random, patient| {
            let number = random.pick(&[6, 7]);
            let size = number_at_table_size(patient);
            if !damage_of(random, patient, number) || number_at_table_size(patient) != size {
                return false;
            }
            let table = patient.opened.header.active_table();
            let position = table.offset as u64 + random.below(table.size as u64);
            patient.image[position as usize] ^= 1 << random.below(8);
            true
        },
    },
];

fn number_at_table_size(patient: &Patient) -> u64 {
    number(&patient.image, HEADER + patient.fields().table_size, 8)
}

/// Damages A with one number and B with another.
fn two_partitions(random: &mut Random, patient: &mut Patient, a: u64, b: u64) -> bool {
    if patient.opened.partitions.len() < 2 {
        return false;
    }
    patient.target = 1;
    if !damage_of(random, patient, b) {
        return false;
    }
    patient.target = 0;
    damage_of(random, patient, a)
}

/// Applies any single damage with this number to the patient's target.
fn damage_of(random: &mut Random, patient: &mut Patient, number: u64) -> bool {
    let choices: Vec<&Damage> =
        DAMAGES.iter().filter(|damage| damage.number == number && !damage.name.contains("before")).collect();
    let damage = random.pick(&choices);
    (damage.apply)(random, patient)
}

/// Changes an image at random, to one that may be valid or not: bytes anywhere, or fields set to striking values. The
/// table's hash is brought up to date most of the time.
pub fn mutate(random: &mut Random, patient: &mut Patient) {
    let table = patient.opened.header.active_table();
    for _ in 0..random.between(1, 3) {
        change_somewhere(random, patient, table);
    }
    if random.chance(85) {
        patient.rehash(table);
    }
}

/// A byte, or a field, of the whole image or of a part that is read often.
fn change_somewhere(random: &mut Random, patient: &mut Patient, table: Extent) {
    let (start, length) = random.pick(&[
        (0, patient.image.len()),
        (HEADER, 0x90),
        (table.offset as usize, table.size as usize),
        (patient.descriptor_position(), DIFI_SIZE as usize),
        (patient.ivfc_position(), 0x78),
        (patient.dpfs_position(), 0x50),
    ]);
    let place = start + random.below(length as u64) as usize;
    if random.chance(50) {
        patient.image[place] ^= random.between(1, 255) as u8;
        return;
    }
    let place = place.min(patient.image.len() - 8) & !3;
    let value = striking_value(random, number(&patient.image, place, 8), patient.image.len() as u64);
    put(&mut patient.image, place, &value.to_le_bytes());
}

/// A value near the old one, or at the edge of some rule.
fn striking_value(random: &mut Random, old: u64, image_length: u64) -> u64 {
    random.pick(&[
        0,
        1,
        2,
        old.wrapping_add(1),
        old.wrapping_sub(1),
        old.wrapping_add(32),
        old.wrapping_sub(32),
        old.wrapping_add(4),
        old.wrapping_mul(2),
        old / 2,
        5,
        16,
        17,
        0x200,
        0x40,
        0x800,
        0x1000,
        0x2000,
        image_length,
        HALF_RANGE,
        u64::MAX,
    ])
}

#[cfg(test)]
mod tests {
    use super::*;
    use crate::rules::opening::open;

    /// Each damage gives exactly the number of the rule that it breaks, and the image was valid before.
    #[test]
    fn each_damage_gives_its_number() {
        for (index, damage) in DAMAGES.iter().enumerate() {
            for seed in 0..300 {
                let mut random = Random::new(1000 * index as u64 + seed);
                let patient = damaged_image(&mut random, damage);
                let answer = open(&patient.image).map_err(|refusal| refusal.number()).map(|_| ());
                assert_eq!(answer, Err(damage.number), "{} with seed {seed}", damage.name);
            }
        }
    }
}
