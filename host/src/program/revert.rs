//! `revert`: one step back.

use std::io::{self, Write};

use teplovist::{memory, ImageFile, Session};

use super::answer::{warn, Answer};
use super::arguments::{Arguments, Form};
use super::command::{Command, Outcome};
use super::committing::{landed, Landed};
use super::json::Member;
use super::signing::{signing, KEY_FILE, SIGNER};

pub const COMMAND: Command = Command {
    form: Form { name: "revert", words: 1..=1, options: &[KEY_FILE, SIGNER], flags: &[] },
    usage: "IMAGE [--key-file FILE --signer WHO]",
    summary: "takes the last commit back, as long as nothing else has changed the image",
    details: "\
What it goes by is kept beside the image, in IMAGE.session. If that is not there, or does not fit the image, it
is refused (21). One step is all: the commit before it cannot be taken back too. With a key and a signer the image
is signed again; without them a signature fits no more.

examples:
  teplovist revert my.img
  teplovist revert my.img --key-file my.key --signer card",
    run,
};

struct Reverted(Landed);

fn run(arguments: &Arguments) -> Outcome {
    let signing = signing(arguments)?;
    let path = arguments.image();
    let mut file = ImageFile::open_to_write(path)?;
    file.set_session(memory::recall(path));
    match &signing {
        Some(signing) => file.revert_signed(&signing.key, &signing.signer)?,
        None => file.revert()?,
    }
    // It fits no more: left there it would be refused, so that a failure here does no harm.
    if let Err(error) = memory::remember(path, &Session::new()) {
        warn(&format!("reverted, but the memory of the commit could not be removed: {error}"));
    }
    Ok(Box::new(Reverted(landed(&file, signing.as_ref(), false)?)))
}

impl Answer for Reverted {
    fn plain(&self, out: &mut dyn Write) -> io::Result<()> {
        let Landed { table, signed, .. } = self.0;
        writeln!(out, "reverted{}; the {table} table is active", if signed { ", signed" } else { "" })
    }

    fn members(&self) -> Vec<Member> {
        self.0.members()
    }

    fn has_changed_an_image(&self) -> bool {
        true
    }
}
