//! Where bytes go that a command hands out: a file, or standard output.

use std::fs;
use std::io::{self, Write};
use std::os::unix::fs::MetadataExt;
use std::path::{Path, PathBuf};

use super::arguments::Arguments;
use super::failure::Failure;

pub const OUTPUT: &str = "--output";

/// The file that `-o` names, if it names one. The image itself must not be it: storing there would destroy it.
pub fn output_file(arguments: &Arguments) -> Result<Option<PathBuf>, Failure> {
    match arguments.file(OUTPUT) {
        Some(path) if is_same_file(&path, arguments.image()) => {
            Err(arguments.usage(format!("{} is the image itself", path.display())))
        }
        path => Ok(path),
    }
}

fn is_same_file(one: &Path, other: &Path) -> bool {
    let identity = |path: &Path| fs::metadata(path).ok().map(|metadata| (metadata.dev(), metadata.ino()));
    identity(one).is_some_and(|found| identity(other) == Some(found))
}

pub fn store(path: &Path, bytes: &[u8]) -> Result<(), Failure> {
    fs::write(path, bytes).map_err(|error| Failure::file("write", path, &error))
}

/// For people: says where the bytes went, or hands them out.
pub fn write_bytes_or_place(out: &mut dyn Write, bytes: &[u8], file: Option<&Path>) -> io::Result<()> {
    match file {
        Some(path) => writeln!(out, "{}: {} bytes", path.display(), bytes.len()),
        None => out.write_all(bytes),
    }
}
