//! The calls for blank images.

use super::Library;
use crate::declarations::{teplovist_blank_length, teplovist_make_blank};
use crate::subject::blank::Blanks;

impl Blanks for Library {
    fn blank_length(&self, blocks: u64) -> u64 {
        unsafe { teplovist_blank_length(blocks) }
    }

    fn make_blank(&self, image: &mut [u8], kind: u64, blocks: u64) -> u64 {
        unsafe { teplovist_make_blank(image.as_mut_ptr(), image.len(), kind, blocks) }
    }
}
