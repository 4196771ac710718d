//! What can go wrong with an image in a file.

use std::fmt;
use std::io;
use std::path::PathBuf;

use crate::Refusal;

/// Why a call on an [`ImageFile`](crate::ImageFile) failed, and what that says of the file. Nothing is tried again by
/// itself.
///
/// ```
/// use teplovist::{Error, Refusal};
///
/// /// What to tell the person who saves.
/// fn outcome(saved: Result<(), Error>) -> &'static str {
///     match saved {
///         Ok(()) => "saved",
///         Err(Error::Header(_) | Error::Reopen) => "saved or not: open it again and look",
///         Err(Error::InPlace(_)) => "not saved, and the old data may be damaged: save it again",
///         Err(_) => "not saved: the old save is still there",
///     }
/// }
///
/// assert_eq!(outcome(Err(Refusal::OutOfRange.into())), "not saved: the old save is still there");
/// ```
#[derive(Debug)]
pub enum Error {
    /// The library refused the call: neither the file nor what is committed in it has changed.
    Refused(Refusal),
    /// The file could not be opened or read.
    Io { what: &'static str, path: PathBuf, source: io::Error },
    /// Somebody else has locked the file.
    Locked { path: PathBuf },
    /// A store failed before the header's: the file still holds the old state, every committed byte of it.
    Before(io::Error),
    /// A store failed before the header's, and some of the bytes lie in an external level 4, which is written in place.
    /// The header is the old one; blocks that the session wrote to may not verify until they are written again.
    InPlace(io::Error),
    /// The header's own store or its sync failed: the file holds the old state or the new one, whole. To know which,
    /// open it again.
    Header(io::Error),
    /// An earlier error left it open what the file holds, so that this value answers no more.
    Reopen,
}

impl fmt::Display for Error {
    fn fmt(&self, to: &mut fmt::Formatter) -> fmt::Result {
        match self {
            Error::Refused(refusal) => write!(to, "{refusal}"),
            Error::Io { what, path, source } => write!(to, "cannot {what} {}: {source}", path.display()),
            Error::Locked { path } => write!(to, "somebody else has {} open: try again later", path.display()),
            Error::Before(source) => {
                write!(to, "nothing was saved, the file still holds the old state: {source}")
            }
            Error::InPlace(source) => write!(
                to,
                "nothing was committed, but blocks written to in the external level 4 may not verify: {source}"
            ),
            Error::Header(source) => write!(
                to,
                "the header may or may not have been stored, open the file again to see which state it holds: {source}"
            ),
            Error::Reopen => write!(to, "an earlier store failed: open the file again to see which state it holds"),
        }
    }
}

impl std::error::Error for Error {
    fn source(&self) -> Option<&(dyn std::error::Error + 'static)> {
        match self {
            Error::Refused(refusal) => Some(refusal),
            Error::Io { source, .. } | Error::Before(source) | Error::InPlace(source) | Error::Header(source) => {
                Some(source)
            }
            Error::Locked { .. } | Error::Reopen => None,
        }
    }
}

impl From<Refusal> for Error {
    fn from(refusal: Refusal) -> Error {
        Error::Refused(refusal)
    }
}
