//! Names inside a save: a save of many files, and the two calls on it.

use crate::boundary::Library;
use crate::image::{put, save_of, BLOCK};
use crate::rules::extent::number;
use crate::rules::names::{
    bucket, Name, FILE_ENTRY_SIZE, FOLDER_ENTRY_SIZE, NAME_LENGTH, RECORD_LENGTH, ROOT, SAVE_HEADER_SIZE, SAVE_OPENING,
};
use crate::subject::names::Names;

/// The data block size that the header names; here the tables are aligned to it too.
const UNIT: usize = 0x200;
/// A word of a bucket.
const WORD: usize = 4;
/// How many files a folder has.
const FILES: usize = 100;
/// The first folder below the root.
const FIRST_FOLDER: usize = ROOT as usize + 1;

/// The number of the folder that a file is in.
pub fn folder_of(file: usize) -> usize {
    (file - 1) / FILES + FIRST_FOLDER
}

/// A file's name: its number, with zeros after it.
pub fn name_of(file: usize) -> Name {
    let mut name = [0; NAME_LENGTH];
    put(&mut name, 0, format!("file{file}").as_bytes());
    name
}

/// A save of so many files, all of them in folders of 100 below the root.
pub struct NamedSave {
    pub image: Vec<u8>,
    pub names: usize,
    /// How many bytes the blocks have that hold the header and the tables' entries.
    pub touched: usize,
    /// Level 4.
    pub data: Vec<u8>,
}

impl NamedSave {
    pub fn new(files: usize) -> NamedSave {
        let layout = Layout::of(files);
        let mut data = vec![0; layout.size];
        layout.put_header(&mut data);
        layout.put_folders(&mut data);
        layout.put_files(&mut data);
        layout.put_chains(&mut data);
        let touched = layout.size - layout.folder_table / BLOCK * BLOCK + BLOCK;
        NamedSave { image: save_of(&data), names: 1 + layout.folders + files, touched, data }
    }

    /// Lists the names into a row that holds them all.
    pub fn list(&self, row: &mut [u8]) -> u64 {
        Library.list_names(&self.image, row)
    }

    pub fn row(&self) -> Vec<u8> {
        vec![0; RECORD_LENGTH * self.names]
    }

    /// The entry number of a file, 0 for none.
    pub fn find(&self, folder: u64, name: &Name) -> u64 {
        Library.find_file(&self.image, folder, name)
    }
}

/// How many folders and files there are, and where their tables lie in level 4. There are as many buckets as files.
struct Layout {
    folders: usize,
    files: usize,
    folder_buckets: usize,
    file_buckets: usize,
    folder_table: usize,
    file_table: usize,
    size: usize,
}

impl Layout {
    fn of(files: usize) -> Layout {
        let folders = files / FILES;
        let folder_buckets = (SAVE_HEADER_SIZE as usize).next_multiple_of(UNIT);
        let file_buckets = folder_buckets + WORD;
        let folder_table = (file_buckets + WORD * files).next_multiple_of(UNIT);
        let file_table = folder_table + (FOLDER_ENTRY_SIZE as usize * (folders + 2)).next_multiple_of(UNIT);
        let size = (file_table + FILE_ENTRY_SIZE as usize * (files + 1)).next_multiple_of(BLOCK);
        Layout { folders, files, folder_buckets, file_buckets, folder_table, file_table, size }
    }

    /// Where an entry lies.
    fn folder(&self, number: usize) -> usize {
        self.folder_table + FOLDER_ENTRY_SIZE as usize * number
    }

    fn file(&self, number: usize) -> usize {
        self.file_table + FILE_ENTRY_SIZE as usize * number
    }

    fn put_header(&self, data: &mut [u8]) {
        put(data, 0, SAVE_OPENING);
        put_word(data, 0x24, UNIT);
        put_word(data, 0x28, self.folder_buckets);
        put_word(data, 0x30, 1);
        put_word(data, 0x38, self.file_buckets);
        put_word(data, 0x40, self.files);
        put_word(data, 0x58, self.folder_table);
        put_word(data, 0x70, self.folders);
        put_word(data, 0x78, (self.file_table - self.folder_table) / UNIT);
        put_word(data, 0x80, self.files);
    }

    /// Entry 0 has how many are in use; the root has the first of the others, which are siblings.
    fn put_folders(&self, data: &mut [u8]) {
        let end = self.folders + FIRST_FOLDER;
        put_word(data, self.folder(0), end);
        put_word(data, self.folder(ROOT as usize) + 0x18, FIRST_FOLDER);
        for number in FIRST_FOLDER..end {
            let entry = self.folder(number);
            put_word(data, entry, ROOT as usize);
            put_word(data, entry + 0x04, number);
            put_word(data, entry + 0x14, if number + 1 == end { 0 } else { number + 1 });
            put_word(data, entry + 0x1C, (number - FIRST_FOLDER) * FILES + 1);
        }
    }

    /// The files of a folder are siblings.
    fn put_files(&self, data: &mut [u8]) {
        put_word(data, self.file(0), self.files + 1);
        for number in 1..=self.files {
            let entry = self.file(number);
            put_word(data, entry, folder_of(number));
            put(data, entry + 0x04, &name_of(number));
            put_word(data, entry + 0x14, if number % FILES == 0 { 0 } else { number + 1 });
        }
    }

    /// Each file goes in front of those that its bucket has already.
    fn put_chains(&self, data: &mut [u8]) {
        for file in 1..=self.files {
            let chain = bucket(&name_of(file), folder_of(file) as u32, self.files as u32);
            let first = self.file_buckets + WORD * chain as usize;
            let next = number(data, first, WORD) as usize;
            put_word(data, self.file(file) + 0x2C, next);
            put_word(data, first, file);
        }
    }
}

fn put_word(data: &mut [u8], at: usize, value: usize) {
    put(data, at, &(value as u32).to_le_bytes());
}
