//! What a revert needs to remember, kept in a small file beside the image: its path with `.session` at the end.
//!
//! It is only memory. If it is lost there is nothing to step back to, and if it is of another commit than the last one the
//! library finds that it does not fit the header and refuses. Nothing that is committed depends on it, so it is written
//! after the commit; but it must be gone before the next commit stores anything (see [`remember`]).

use std::fs;
use std::io::{self, ErrorKind};
use std::path::{Path, PathBuf};

use crate::boundary::SESSION_SIZE;
use crate::replace::{replace, sync_folder_of, with_suffix};
use crate::Session;

/// Where the memory of an image is kept. An image that has two names, by a link, has two memories: each is judged by
/// the library.
pub fn path_of(image: &Path) -> PathBuf {
    with_suffix(image, ".session")
}

/// The session that was remembered: a fresh one if there is no memory, or if what is there is none. A begun session is
/// none: what it staged was never in the file.
pub fn recall(image: &Path) -> Session {
    read_memory(&path_of(image)).filter(|session| !session.is_begun()).unwrap_or_default()
}

fn read_memory(path: &Path) -> Option<Session> {
    if !may_hold_memory(path).ok()? {
        return None;
    }
    Some(Session::from_bytes(fs::read(path).ok()?.try_into().ok()?))
}

/// Whether a file of the right length is there. It is not opened: what cannot be read may still be a memory, and to
/// open a pipe would wait for ever. A name that is too long is no file's.
fn may_hold_memory(path: &Path) -> io::Result<bool> {
    match fs::metadata(path) {
        Ok(metadata) => Ok(metadata.is_file() && metadata.len() == SESSION_SIZE as u64),
        Err(error) if matches!(error.kind(), ErrorKind::NotFound | ErrorKind::InvalidFilename) => Ok(false),
        Err(error) => Err(error),
    }
}

/// Remembers a session, whole or not at all. A session that has nothing to remember leaves no memory behind, not even
/// one that cannot be read; what is no memory stays.
///
/// A commit's stores go to where the state before the last commit still lies. So whoever keeps a memory forgets it, by
/// a fresh session, before the next commit: if that one stops half way, the header may still be the remembered one, but
/// what lies behind is not. If forgetting fails, nothing must be stored.
///
/// ```
/// use teplovist::{memory, Image, Kind, Session};
///
/// let folder = std::env::temp_dir().join(format!("teplovist-memory-{}", std::process::id()));
/// std::fs::create_dir_all(&folder)?;
/// let path = folder.join("save.img");
/// let mut image = Image::blank(Kind::Disa, 1)?;
/// let mut session = Session::new();
/// image.begin(&mut session)?;
/// image.commit(&mut session)?;
///
/// memory::remember(&path, &session)?;
/// assert_eq!(memory::recall(&path), session);
/// memory::remember(&path, &Session::new())?;
/// assert_eq!(memory::recall(&path), Session::new());
/// assert!(!memory::path_of(&path).exists());
/// # std::fs::remove_dir_all(&folder)?;
/// # Ok::<(), Box<dyn std::error::Error>>(())
/// ```
pub fn remember(image: &Path, session: &Session) -> io::Result<()> {
    let path = path_of(image);
    if *session != Session::new() {
        return Ok(replace(&path, session.as_bytes())?);
    }
    if may_hold_memory(&path)? {
        fs::remove_file(&path)?;
        sync_folder_of(&path)?;
    }
    Ok(())
}
