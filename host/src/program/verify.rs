//! `verify`: the fault list.

use std::io::{self, Write};

use teplovist::{Fault, Partition};

use super::answer::Answer;
use super::arguments::{Arguments, Form};
use super::command::{Command, Outcome};
use super::failure::Status;
use super::json::{Json, Member};
use super::opening::open_to_read;
use super::signing::{KEY_FILE, SIGNER};

pub const COMMAND: Command = Command {
    form: Form { name: "verify", words: 1..=1, options: &[KEY_FILE, SIGNER], flags: &[] },
    usage: "IMAGE [--key-file FILE --signer WHO]",
    summary: "the fault list: every block that is not verified; exit status 1 if there is one",
    details: "\
Levels 1 to 3 hold the hashes of the level below, level 4 the data. Below a hash block that is not verified each
block is a fault. A block that was never written is one too: that is no damage. With a key and a signer the
signature is checked first; if it is not right the image is refused.

examples:
  teplovist verify samples/disa-two.img
  teplovist verify my.img && echo whole
  teplovist verify my.img --key-file my.key --signer card",
    run,
};

struct Verdict {
    faults: Vec<Fault>,
}

fn run(arguments: &Arguments) -> Outcome {
    let (file, _) = open_to_read(arguments)?;
    Ok(Box::new(Verdict { faults: file.image()?.faults()? }))
}

impl Answer for Verdict {
    fn plain(&self, out: &mut dyn Write) -> io::Result<()> {
        for run in self.faults.chunk_by(is_next) {
            let (first, last) = (run[0], run[run.len() - 1]);
            write!(out, "{} level {} ", partition_name(first), first.level)?;
            match first.block == last.block {
                true => writeln!(out, "block {}", first.block)?,
                false => writeln!(out, "blocks {} to {}", first.block, last.block)?,
            }
        }
        match self.faults.len() {
            0 => writeln!(out, "no fault: every block of levels 1 to 4 is verified"),
            1 => writeln!(out, "1 fault"),
            count => writeln!(out, "{count} faults"),
        }
    }

    fn members(&self) -> Vec<Member> {
        let faults = self.faults.iter().map(|fault| {
            Json::Object(vec![
                ("partition", Json::text(partition_name(*fault))),
                ("level", fault.level.into()),
                ("block", fault.block.into()),
            ])
        });
        vec![("faults", Json::List(faults.collect()))]
    }

    fn status(&self) -> Status {
        if self.faults.is_empty() {
            Status::Done
        } else {
            Status::No
        }
    }
}

/// Faults side by side are shown to people as one line.
fn is_next(one: &Fault, other: &Fault) -> bool {
    (one.partition, one.level, one.block + 1) == (other.partition, other.level, other.block)
}

fn partition_name(fault: Fault) -> String {
    let partition = if fault.partition == Partition::A.number() { Partition::A } else { Partition::B };
    partition.to_string()
}
