//! `read`: bytes of a partition's level 4.

use std::io::{self, Write};
use std::path::PathBuf;

use teplovist::Partition;

use super::answer::Answer;
use super::arguments::{Arguments, Form};
use super::command::{Command, Outcome};
use super::hex::hex;
use super::json::{Json, Member};
use super::opening::{choose_partition, named_partition, open_to_read, PARTITION};
use super::output::{output_file, store, write_bytes_or_place, OUTPUT};
use super::signing::{KEY_FILE, SIGNER};

const AT: &str = "--at";
const LENGTH: &str = "--length";

pub const COMMAND: Command = Command {
    form: Form { name: "read", words: 1..=1, options: &[PARTITION, AT, LENGTH, OUTPUT, KEY_FILE, SIGNER], flags: &[] },
    usage: "IMAGE [--partition A|B] [--at N] [--length N] [-o FILE] [--key-file FILE --signer WHO]",
    summary: "bytes of a partition's level 4, to standard output or a file; only verified ones",
    details: "\
Without --at it reads from the start, without --length to the end. The partition must be named where there are
two. If a block that it touches is not verified it is refused (10), and no byte is handed out.

examples:
  teplovist read my.img --at 0x100 --length 6
  teplovist read samples/disa-two.img --partition B -o b.bin
  teplovist read my.img --at 0 --length 16 | xxd",
    run,
};

struct Bytes {
    partition: Partition,
    at: u64,
    bytes: Vec<u8>,
    file: Option<PathBuf>,
}

fn run(arguments: &Arguments) -> Outcome {
    let named = named_partition(arguments)?;
    let (at, length) = (arguments.number(AT)?.unwrap_or(0), arguments.number(LENGTH)?);
    let path = output_file(arguments)?;
    let (file, description) = open_to_read(arguments)?;
    let partition = choose_partition(arguments, named, &description)?;
    let size = description.partition(partition).map_or(0, |layout| layout.level4().size);
    let length = length.unwrap_or_else(|| size.saturating_sub(at));
    // A buffer that is longer than level 4 by one byte is refused as any longer one is, and there is memory for it.
    let mut bytes = vec![0; length.min(size + 1) as usize];
    file.image()?.read(partition, at, &mut bytes)?;
    if let Some(path) = &path {
        store(path, &bytes)?;
    }
    Ok(Box::new(Bytes { partition, at, bytes, file: path }))
}

impl Answer for Bytes {
    fn plain(&self, out: &mut dyn Write) -> io::Result<()> {
        write_bytes_or_place(out, &self.bytes, self.file.as_deref())
    }

    fn members(&self) -> Vec<Member> {
        let file = self.file.as_ref().map(|path| Json::text(path.to_string_lossy()));
        let bytes = if file.is_none() { Json::Text(hex(&self.bytes)) } else { Json::Null };
        vec![
            ("partition", Json::text(self.partition.to_string())),
            ("at", self.at.into()),
            ("length", (self.bytes.len() as u64).into()),
            ("bytes", bytes),
            ("file", file.into()),
        ]
    }
}
