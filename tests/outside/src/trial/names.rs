//! Calls for names inside a save: how they are chosen, and what they must give.

use super::call::untouched_buffer;
use super::properties::require;
use crate::generate::contents::put;
use crate::generate::random::Random;
use crate::model::Version;
use crate::rules::extent::number;
use crate::rules::header::Kind;
use crate::rules::names::{Name, FILE_ENTRY_SIZE, RECORD_LENGTH, SAVE_HEADER_SIZE, SAVE_OPENING};
use crate::rules::opening::Opened;
use crate::rules::refusal::{answer_code, Refusal};
use crate::subject::names::Names;

/// A call for names.
#[derive(Clone, Debug)]
pub enum NamesCall {
    /// With a row of so many bytes.
    List {
        length: usize,
    },
    Find {
        folder: u64,
        name: Name,
    },
}

impl NamesCall {
    pub fn name(&self) -> &'static str {
        match self {
            NamesCall::List { .. } => "list names",
            NamesCall::Find { .. } => "find file",
        }
    }

    pub fn row_length(&self) -> usize {
        match self {
            NamesCall::List { length } => *length,
            NamesCall::Find { .. } => 0,
        }
    }

    pub fn perform(&self, subject: &dyn Names, image: &[u8], row: &mut [u8]) -> u64 {
        match self {
            NamesCall::List { .. } => subject.list_names(image, row),
            NamesCall::Find { folder, name } => subject.find_file(image, *folder, name),
        }
    }

    /// Any call on a level 4, most of them with a folder and a name that one of its entries has if it is a save.
    pub fn choose(random: &mut Random, level4: &[u8]) -> NamesCall {
        if random.chance(50) {
            let names = random.below(20) as usize;
            let length = random.pick(&[0, names, RECORD_LENGTH * names, RECORD_LENGTH * names + 1, 5000]);
            return NamesCall::List { length };
        }
        let place = choose_file_entry(random, level4);
        let entry = level4.get(place..).and_then(|rest| rest.get(..0x14));
        let mut bytes = entry.map_or_else(|| random.bytes(0x14), <[u8]>::to_vec);
        if random.chance(15) {
            bytes[random.below(0x14) as usize] ^= 1 << random.below(8);
        }
        let folder = number(&bytes, 0, 4) + random.pick(&[0, 0, 0, 0, 0, 0, 0, 0, 0, 1 << 32]);
        NamesCall::Find { folder, name: bytes[4..].try_into().expect("16 bytes") }
    }
}

/// Where one of the first file entries would start; anywhere if level 4 is no save.
fn choose_file_entry(random: &mut Random, level4: &[u8]) -> usize {
    if level4.len() < SAVE_HEADER_SIZE as usize || &level4[..8] != SAVE_OPENING {
        return random.below(level4.len() as u64 + 1) as usize;
    }
    let table = number(level4, 0x58, 8).wrapping_add(number(level4, 0x78, 4).wrapping_mul(number(level4, 0x24, 4)));
    table.wrapping_add(random.between(1, 14) * FILE_ENTRY_SIZE as u64) as usize
}

/// A write that leaves most of a save as it is: one word, mostly of its header, its buckets or its tables.
pub fn choose_small_write(random: &mut Random, level4: &[u8]) -> (u64, Vec<u8>) {
    let any = random.below(level4.len() as u64);
    let place = match random.below(3) {
        0 => 4 * random.below(SAVE_HEADER_SIZE as u64 / 4),
        1 => (choose_file_entry(random, level4) as u64).wrapping_add(random.pick(&[0, 0x14, 0x2C])),
        _ => any / 4 * 4,
    };
    let place = if place.checked_add(4).is_some_and(|end| end <= level4.len() as u64) { place } else { 0 };
    let old = number(level4, place as usize, 4) as u32;
    let word = random.pick(&[0, 1, 2, 3, 4, 5, old.wrapping_add(1), old.wrapping_sub(1), old, old, u32::MAX]);
    (place, word.to_le_bytes().to_vec())
}

/// Is this the level 4 of a container that can hold a save, and does it begin like one?
pub fn begins_like_a_save(opened: &Opened, level4: &[u8]) -> bool {
    may_hold_a_save(opened) && level4.starts_with(SAVE_OPENING)
}

fn may_hold_a_save(opened: &Opened) -> bool {
    let partitions = &opened.partitions;
    opened.header.kind == Kind::Disa && partitions.len() == 1 && partitions[0].descriptor.external.is_none()
}

/// Checks what a call gave on an image that opens, by the reference model.
pub fn check_names(
    call: &NamesCall,
    opened: &Opened,
    version: &Version,
    answer: u64,
    row: &[u8],
) -> Result<(), String> {
    let block_size = opened.partitions[0].descriptor.hash_level(4).block_size() as usize;
    let mut expected_row = untouched_buffer(call.row_length());
    let expected = match call {
        _ if !may_hold_a_save(opened) => Err(Refusal::NotASave),
        NamesCall::List { length } => version.list_names(block_size).map(|records| {
            let stored = records.len().min(length / RECORD_LENGTH * RECORD_LENGTH);
            put(&mut expected_row, 0, &records[..stored]);
            (records.len() / RECORD_LENGTH) as u64
        }),
        NamesCall::Find { folder, name } => version.find_file(*folder, name, block_size),
    };
    let expected = answer_code(expected);
    require(answer == expected, || format!("answered {answer:#x}, not {expected:#x}"))?;
    require(row == expected_row, || "the row is wrong".into())
}
