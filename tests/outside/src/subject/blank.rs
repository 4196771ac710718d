//! The calls for blank images.

use super::Rules;
use crate::rules::blank;
use crate::rules::header::Kind;
use crate::rules::refusal::answer_code;

pub trait Blanks {
    /// How many bytes an image for so many blocks has; 0 if the number is out of range. A plain number, not an answer.
    fn blank_length(&self, blocks: u64) -> u64;
    /// The kind counts modulo 2: DISA, DIFF.
    fn make_blank(&self, image: &mut [u8], kind: u64, blocks: u64) -> u64;
}

impl Blanks for Rules {
    fn blank_length(&self, blocks: u64) -> u64 {
        blank::blank_length(blocks).unwrap_or(0)
    }

    fn make_blank(&self, image: &mut [u8], kind: u64, blocks: u64) -> u64 {
        let kind = if kind.is_multiple_of(2) { Kind::Disa } else { Kind::Diff };
        answer_code(blank::make_blank(image, kind, blocks).map(|()| 0))
    }
}
