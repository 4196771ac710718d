//! The calls for names inside a save.

use super::Rules;
use crate::rules::names::{self, Name, RECORD_LENGTH};
use crate::rules::refusal::answer_code;

pub trait Names {
    /// The answer's value is the number of all names. The row has the records that it has room for; what is left of it is
    /// not touched.
    fn list_names(&self, image: &[u8], row: &mut [u8]) -> u64;
    /// The answer's value is the file's number, or 0 for none.
    fn find_file(&self, image: &[u8], folder: u64, name: &Name) -> u64;
}

impl Names for Rules {
    fn list_names(&self, image: &[u8], row: &mut [u8]) -> u64 {
        answer_code(names::list_names(image).map(|listed| {
            for (place, name) in row.chunks_exact_mut(RECORD_LENGTH).zip(&listed) {
                place.copy_from_slice(&name.record());
            }
            listed.len() as u64
        }))
    }

    fn find_file(&self, image: &[u8], folder: u64, name: &Name) -> u64 {
        answer_code(names::find_file(image, folder, name).map(|file| file.unwrap_or(0)))
    }
}
