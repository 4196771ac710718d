//! `sign`: a session without a write, committed with a signature; or what an outside box would sign.

use std::io::{self, Write};

use teplovist::boundary::DIGEST_SIZE;
use teplovist::ImageFile;

use super::answer::Answer;
use super::arguments::{Arguments, Form};
use super::command::{Command, Outcome};
use super::committing::{commit_session, Landed};
use super::hex::hex;
use super::json::{Json, Member};
use super::signing::{signer, signing, KEY_FILE, SIGNER};

const DIGEST: &str = "--digest";

pub const COMMAND: Command = Command {
    form: Form { name: "sign", words: 1..=1, options: &[KEY_FILE, SIGNER], flags: &[DIGEST] },
    usage: "IMAGE --signer WHO (--key-file FILE | --digest)",
    summary: "signs an image with a key from a file, or prints the digest that is to be signed",
    details: "\
WHO is one of card, title:ID, system:ID (they sign a DISA), quota:ID, device:ID:FILE:FOLDER, database:ID (a DIFF).
The key file holds 16 raw bytes or 32 hexadecimal digits; a key is never taken from the command line, where others
can see it. Signing is a session without a write: the data stays, and the header lands with the signature in one
piece. --digest changes nothing: it prints the SHA-256 that a signing box elsewhere would make an AES-CMAC of.

examples:
  teplovist sign my.img --key-file my.key --signer title:0x0004000000033500
  teplovist verify my.img --key-file my.key --signer title:0x0004000000033500
  teplovist sign my.img --digest --signer card",
    run,
};

struct Signed(Landed);

struct ToBeSigned {
    digest: [u8; DIGEST_SIZE],
}

fn run(arguments: &Arguments) -> Outcome {
    if arguments.has(DIGEST) {
        return digest(arguments);
    }
    let Some(signing) = signing(arguments)? else {
        return Err(arguments.usage("who signs, and with which key? Say --signer and --key-file"));
    };
    let mut file = ImageFile::open_to_write(arguments.image())?;
    let landed = commit_session(arguments.image(), &mut file, Some(&signing), |_| Ok(()))?;
    Ok(Box::new(Signed(landed)))
}

fn digest(arguments: &Arguments) -> Outcome {
    if arguments.option(KEY_FILE).is_some() {
        return Err(arguments.usage(format!("{DIGEST} signs nothing, so it takes no {KEY_FILE}")));
    }
    let Some(signer) = signer(arguments)? else {
        return Err(arguments.usage(format!("who would sign? Say {SIGNER}")));
    };
    let file = ImageFile::open(arguments.image())?;
    Ok(Box::new(ToBeSigned { digest: file.image()?.signing_digest(&signer)? }))
}

impl Answer for Signed {
    fn plain(&self, out: &mut dyn Write) -> io::Result<()> {
        writeln!(out, "{}", self.0)
    }

    fn members(&self) -> Vec<Member> {
        self.0.members()
    }

    fn has_changed_an_image(&self) -> bool {
        true
    }
}

impl Answer for ToBeSigned {
    fn plain(&self, out: &mut dyn Write) -> io::Result<()> {
        writeln!(out, "{}", hex(&self.digest))
    }

    fn members(&self) -> Vec<Member> {
        vec![("digest", Json::Text(hex(&self.digest)))]
    }
}
