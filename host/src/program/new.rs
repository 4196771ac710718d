//! `new`: a blank image in a file.

use std::fs::File;
use std::io::{self, ErrorKind, Write};
use std::path::{Path, PathBuf};

use teplovist::{create, lock_exclusively, replace, Error, Image, Kind, ReplaceError};

use super::answer::Answer;
use super::arguments::{shown, Arguments, Form};
use super::command::{Command, Outcome};
use super::committing::forget_last_commit;
use super::failure::Failure;
use super::json::{Json, Member};

const KIND: &str = "--kind";
const BLOCKS: &str = "--blocks";
const FORCE: &str = "--force";

pub const COMMAND: Command = Command {
    form: Form { name: "new", words: 1..=1, options: &[KIND, BLOCKS], flags: &[FORCE] },
    usage: "IMAGE --kind disa|diff --blocks N [--force]",
    summary: "makes a blank image: one partition of N blocks of 4096 zero bytes, all verified",
    details: "\
There are 1 to 4096 blocks. The file is written under another name beside it, synced and then renamed, so that
it is there whole or not at all. A file that is there already stays, unless --force is said.

examples:
  teplovist new my.img --kind disa --blocks 16
  teplovist new extra.img --kind diff --blocks 1 --force",
    run,
};

struct Made {
    path: PathBuf,
    kind: Kind,
    blocks: u64,
    length: u64,
}

fn run(arguments: &Arguments) -> Outcome {
    let kind = kind(arguments)?;
    let blocks = arguments.required_number(BLOCKS)?;
    let path = arguments.image();
    let image = Image::blank(kind, blocks)?.into_inner();
    store_image(path, &image, arguments.has(FORCE))?;
    Ok(Box::new(Made { path: path.into(), kind, blocks, length: image.len() as u64 }))
}

fn kind(arguments: &Arguments) -> Result<Kind, Failure> {
    let value = arguments.option(KIND).ok_or_else(|| arguments.usage(format!("{KIND} is missing")))?;
    match value.to_str().map(str::to_ascii_lowercase).as_deref() {
        Some("disa") => Ok(Kind::Disa),
        Some("diff") => Ok(Kind::Diff),
        _ => Err(arguments.usage(format!("{KIND} is disa or diff, not {}", shown(value)))),
    }
}

fn already_there(path: &Path) -> Failure {
    Failure::Unchanged(format!("{} is there already: --force replaces it", path.display()))
}

/// Puts the image in place. One that is replaced must not be in use: whoever has it open would go on with a file
/// without a name.
fn store_image(path: &Path, image: &[u8], force: bool) -> Result<(), Failure> {
    let _lock = if force { lock_existing(path)? } else { None };
    if force {
        forget_last_commit(path)?;
    }
    let stored = if force { replace(path, image) } else { create(path, image) };
    stored.map_err(|error| match error {
        ReplaceError::Unchanged(error) if error.kind() == ErrorKind::AlreadyExists => already_there(path),
        ReplaceError::Unchanged(error) => Failure::file("make", path, &error),
        ReplaceError::Unsynced(_) => Failure::Uncertain(format!("{}: {error}", path.display())),
    })
}

/// The exclusive lock of a file, if it is there.
fn lock_existing(path: &Path) -> Result<Option<File>, Failure> {
    match lock_exclusively(path) {
        Err(Error::Io { source, .. }) if source.kind() == ErrorKind::NotFound => Ok(None),
        locked => Ok(Some(locked?)),
    }
}

impl Answer for Made {
    fn plain(&self, out: &mut dyn Write) -> io::Result<()> {
        let Made { path, kind, blocks, length } = self;
        let blocks_word = if *blocks == 1 { "block" } else { "blocks" };
        writeln!(out, "{}: a blank {kind} of {blocks} {blocks_word}, {length} bytes", path.display())
    }

    fn members(&self) -> Vec<Member> {
        vec![
            ("file", Json::text(self.path.to_string_lossy())),
            ("kind", Json::text(self.kind.to_string())),
            ("blocks", self.blocks.into()),
            ("length", self.length.into()),
        ]
    }

    fn has_changed_an_image(&self) -> bool {
        true
    }
}
