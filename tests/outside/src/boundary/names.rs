//! The calls for names inside a save.

use super::Library;
use crate::declarations::{teplovist_find_file, teplovist_list_names};
use crate::rules::names::Name;
use crate::subject::names::Names;

impl Names for Library {
    fn list_names(&self, image: &[u8], row: &mut [u8]) -> u64 {
        unsafe { teplovist_list_names(image.as_ptr(), image.len(), row.as_mut_ptr(), row.len()) }
    }

    fn find_file(&self, image: &[u8], folder: u64, name: &Name) -> u64 {
        unsafe { teplovist_find_file(image.as_ptr(), image.len(), folder, name.as_ptr()) }
    }
}
