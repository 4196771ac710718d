//! `write`: bytes to a place, one session, committed.

use std::ffi::OsStr;
use std::fs::File;
use std::io::{self, Read, Write};
use std::path::Path;

use teplovist::boundary::MAX_IMAGE;
use teplovist::{ImageFile, Partition};

use super::answer::Answer;
use super::arguments::{Arguments, Form};
use super::command::{Command, Outcome};
use super::committing::{commit_session, Landed};
use super::failure::Failure;
use super::json::{Json, Member};
use super::opening::{choose_partition, named_partition, PARTITION};
use super::signing::{signing, KEY_FILE, SIGNER};

const AT: &str = "--at";

pub const COMMAND: Command = Command {
    form: Form { name: "write", words: 1..=2, options: &[PARTITION, AT, KEY_FILE, SIGNER], flags: &[] },
    usage: "IMAGE [--partition A|B] --at N [FILE] [--key-file FILE --signer WHO]",
    summary: "bytes of a file or of standard input to a place of level 4: one session, committed",
    details: "\
The commit is all or nothing: if power fails, the image has its old state or the new one. The partition must be
named where there are two. A block that is not verified must be covered in full, else it is refused (10).
With a key and a signer the commit is signed; the old signature is not looked at. Without them a signed image's
signature fits no more: sign it again. `revert` takes the commit back.

An external level 4 (describe says so) is written in place: there a power failure may leave any part of the
written bytes, and `revert` does not bring the old ones back.

examples:
  teplovist write my.img --at 0x100 hello.txt
  echo hello | teplovist write my.img --at 0x100
  teplovist write my.img --at 0 save.bin --key-file my.key --signer card",
    run,
};

struct Written {
    partition: Partition,
    at: u64,
    length: u64,
    external: bool,
    landed: Landed,
}

fn run(arguments: &Arguments) -> Outcome {
    let named = named_partition(arguments)?;
    let at = arguments.required_number(AT)?;
    let signing = signing(arguments)?;
    // The bytes come first: nobody should wait for the image's lock while they are typed.
    let bytes = read_data(arguments.word(1))?;
    let mut file = ImageFile::open_to_write(arguments.image())?;
    let description = file.image()?.open()?;
    let partition = choose_partition(arguments, named, &description)?;
    let external = description.partition(partition).is_some_and(|layout| layout.external.is_some());
    let landed =
        commit_session(arguments.image(), &mut file, signing.as_ref(), |file| file.write(partition, at, &bytes))?;
    Ok(Box::new(Written { partition, at, length: bytes.len() as u64, external, landed }))
}

/// All of a file or of standard input, up to more than any level 4 holds: the library then refuses it.
fn read_data(name: Option<&OsStr>) -> Result<Vec<u8>, Failure> {
    let limit = MAX_IMAGE as u64 + 1;
    let mut bytes = Vec::new();
    match name.filter(|name| *name != "-").map(Path::new) {
        Some(path) => File::open(path)
            .and_then(|file| file.take(limit).read_to_end(&mut bytes))
            .map_err(|error| Failure::file("read", path, &error))?,
        None => (io::stdin().lock().take(limit).read_to_end(&mut bytes))
            .map_err(|error| Failure::Unchanged(format!("cannot read standard input: {error}")))?,
    };
    Ok(bytes)
}

impl Answer for Written {
    fn plain(&self, out: &mut dyn Write) -> io::Result<()> {
        let Written { partition, at, length, .. } = self;
        writeln!(out, "{length} bytes written at {at:#x} of {partition}; {}", self.landed)?;
        if self.external {
            writeln!(out, "level 4 is external, written in place: a revert does not bring its old bytes back")?;
        }
        Ok(())
    }

    fn members(&self) -> Vec<Member> {
        let mut members = vec![
            ("partition", Json::text(self.partition.to_string())),
            ("at", self.at.into()),
            ("length", self.length.into()),
            ("external", self.external.into()),
        ];
        members.extend(self.landed.members());
        members
    }

    fn has_changed_an_image(&self) -> bool {
        true
    }
}
