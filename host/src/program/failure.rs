//! Why a command did not do what it was asked to, and the exit status that says so.

use std::fmt::{self, Display, Formatter};
use std::io;
use std::path::Path;

use teplovist::{Error, Refusal};

use super::json::Json;

/// Exit statuses; PROGRAM.md lists them.
#[derive(Clone, Copy, Debug, PartialEq, Eq)]
pub enum Status {
    Done = 0,
    /// The question was answered, by no: there are faults, or there is no such name.
    No = 1,
    WrongUsage = 2,
    Refused = 3,
    /// An input or output error; the image is as it was.
    Unchanged = 4,
    /// A store failed so that the image may have changed: the header may or may not have landed, or only part of the
    /// bytes that are written in place to an external level 4; or a new image has its name, but may not keep it.
    Uncertain = 5,
}

#[derive(Debug)]
pub enum Failure {
    /// What is wrong, and the command whose help shows how it is done.
    Usage {
        command: Option<&'static str>,
        words: String,
    },
    Refused(Refusal),
    Unchanged(String),
    Uncertain(String),
}

impl Failure {
    pub fn usage(command: &'static str, words: impl Into<String>) -> Failure {
        Failure::Usage { command: Some(command), words: words.into() }
    }

    /// A file could not be read or written: another one than the image, or the image before anything of it changed.
    pub fn file(what: &str, path: &Path, error: &io::Error) -> Failure {
        Failure::Unchanged(format!("cannot {what} {}: {error}", path.display()))
    }

    pub fn status(&self) -> Status {
        match self {
            Failure::Usage { .. } => Status::WrongUsage,
            Failure::Refused(_) => Status::Refused,
            Failure::Unchanged(_) => Status::Unchanged,
            Failure::Uncertain(_) => Status::Uncertain,
        }
    }

    /// The member of the JSON object that says what went wrong.
    pub fn member(&self) -> (&'static str, Json) {
        match self {
            Failure::Refused(refusal) => ("refusal", refusal_object(*refusal)),
            other => {
                let status = ("status", Json::Number(other.status() as u64));
                ("error", Json::Object(vec![status, ("words", Json::text(other.to_string()))]))
            }
        }
    }
}

fn refusal_object(refusal: Refusal) -> Json {
    let block = match refusal {
        Refusal::Unverified { block } => Some(block),
        _ => None,
    };
    Json::Object(vec![
        ("number", u64::from(refusal.number()).into()),
        ("words", Json::text(refusal.to_string())),
        ("block", block.into()),
    ])
}

/// One line, without the program's name.
impl Display for Failure {
    fn fmt(&self, out: &mut Formatter) -> fmt::Result {
        match self {
            Failure::Usage { command: Some(command), words } => {
                write!(out, "{command}: {words} (teplovist help {command} shows examples)")
            }
            Failure::Usage { command: None, words } => write!(out, "{words} (teplovist help lists the commands)"),
            Failure::Refused(refusal) => write!(out, "refused {}: {refusal}", refusal.number()),
            Failure::Unchanged(words) | Failure::Uncertain(words) => out.write_str(words),
        }
    }
}

impl From<Refusal> for Failure {
    fn from(refusal: Refusal) -> Failure {
        Failure::Refused(refusal)
    }
}

impl From<Error> for Failure {
    fn from(error: Error) -> Failure {
        match error {
            Error::Refused(refusal) => Failure::Refused(refusal),
            Error::Header(_) | Error::InPlace(_) | Error::Reopen => Failure::Uncertain(error.to_string()),
            Error::Io { .. } | Error::Locked { .. } | Error::Before(_) => Failure::Unchanged(error.to_string()),
        }
    }
}
