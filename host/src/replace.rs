//! Whole files that are there at once or not at all.

use std::ffi::OsString;
use std::fmt::{self, Display, Formatter};
use std::fs::{self, File};
use std::io::{self, ErrorKind, Write};
use std::path::{Path, PathBuf};

/// The same path with something at its end.
pub(crate) fn with_suffix(path: &Path, suffix: &str) -> PathBuf {
    let mut name: OsString = path.as_os_str().to_owned();
    name.push(suffix);
    name.into()
}

/// Why a file was not put in place, there to stay.
#[derive(Debug)]
pub enum ReplaceError {
    /// It failed before the file had its name: whoever looks sees what was there before. The temporary file is removed,
    /// unless that fails too.
    Unchanged(io::Error),
    /// The file has its name, whole, and what it replaced is gone; but its folder could not be synced, so that after a
    /// power failure it may be as it was before.
    Unsynced(io::Error),
}

impl Display for ReplaceError {
    fn fmt(&self, to: &mut Formatter) -> fmt::Result {
        match self {
            ReplaceError::Unchanged(source) => write!(to, "{source}"),
            ReplaceError::Unsynced(source) => write!(
                to,
                "the new file is in its place, but a power failure may undo that, as its folder was not synced: {source}"
            ),
        }
    }
}

impl std::error::Error for ReplaceError {
    fn source(&self) -> Option<&(dyn std::error::Error + 'static)> {
        match self {
            ReplaceError::Unchanged(source) | ReplaceError::Unsynced(source) => Some(source),
        }
    }
}

/// For whoever need not tell the two apart. The words stay.
impl From<ReplaceError> for io::Error {
    fn from(error: ReplaceError) -> io::Error {
        match error {
            ReplaceError::Unchanged(source) => source,
            ReplaceError::Unsynced(ref source) => io::Error::new(source.kind(), error),
        }
    }
}

/// Writes a file under a temporary name beside it, syncs it, renames it and syncs its folder: whoever looks sees the
/// old file, if there was one, or the new one, whole, and so it is after a power failure. [`ReplaceError`] says which of
/// them it is after a failure.
///
/// ```
/// # let folder = std::env::temp_dir().join(format!("teplovist-replace-{}", std::process::id()));
/// # std::fs::create_dir_all(&folder)?;
/// let path = folder.join("save.img");
/// teplovist::replace(&path, b"old")?;
/// teplovist::replace(&path, b"new")?;
/// assert_eq!(std::fs::read(&path)?, b"new");
/// assert_eq!(std::fs::read_dir(&folder)?.count(), 1);
/// # std::fs::remove_dir_all(&folder)?;
/// # Ok::<(), std::io::Error>(())
/// ```
pub fn replace(path: &Path, bytes: &[u8]) -> Result<(), ReplaceError> {
    put_in_place(path, bytes, |temporary| fs::rename(temporary, path))
}

/// The same for a file that is not there yet: where there is one it stays, and the error is
/// [`ReplaceError::Unchanged`] with [`ErrorKind::AlreadyExists`].
///
/// ```
/// # let folder = std::env::temp_dir().join(format!("teplovist-create-{}", std::process::id()));
/// # std::fs::create_dir_all(&folder)?;
/// let path = folder.join("save.img");
/// teplovist::create(&path, b"mine")?;
/// assert!(teplovist::create(&path, b"other").is_err());
/// assert_eq!(std::fs::read(&path)?, b"mine");
/// assert_eq!(std::fs::read_dir(&folder)?.count(), 1);
/// # std::fs::remove_dir_all(&folder)?;
/// # Ok::<(), std::io::Error>(())
/// ```
pub fn create(path: &Path, bytes: &[u8]) -> Result<(), ReplaceError> {
    put_in_place(path, bytes, |temporary| rename_if_free(temporary, path))
}

/// What comes before the file has its name, and what makes the name stay.
fn put_in_place(path: &Path, bytes: &[u8], rename: impl FnOnce(&Path) -> io::Result<()>) -> Result<(), ReplaceError> {
    write_and_rename(path, bytes, rename).map_err(ReplaceError::Unchanged)?;
    sync_folder_of(path).map_err(ReplaceError::Unsynced)
}

/// Writes the temporary file and has it renamed.
fn write_and_rename(path: &Path, bytes: &[u8], rename: impl FnOnce(&Path) -> io::Result<()>) -> io::Result<()> {
    let (temporary, file) = create_temporary(path)?;
    let done = write_synced(file, bytes).and_then(|()| rename(&temporary));
    if done.is_err() {
        // The first error is the one to report, and a file that cannot be removed harms nobody.
        let _ = fs::remove_file(&temporary);
    }
    done
}

/// A link never takes the place of another file, as a rename would; but not every medium has links.
fn rename_if_free(temporary: &Path, path: &Path) -> io::Result<()> {
    match fs::hard_link(temporary, path) {
        Err(error) if matches!(error.kind(), ErrorKind::PermissionDenied | ErrorKind::Unsupported) => {
            look_and_rename(temporary, path)
        }
        linked => {
            linked?;
            // The file has its name now; that the other one cannot be removed harms nobody.
            let _ = fs::remove_file(temporary);
            Ok(())
        }
    }
}

/// The next best: a file that comes up between the look and the rename is lost.
fn look_and_rename(temporary: &Path, path: &Path) -> io::Result<()> {
    if fs::symlink_metadata(path).is_ok() {
        return Err(ErrorKind::AlreadyExists.into());
    }
    fs::rename(temporary, path)
}

/// A file of its own under the first free name: two processes never share one, and none that is left from a failure is
/// in the way.
fn create_temporary(path: &Path) -> io::Result<(PathBuf, File)> {
    let mut number = 0u64;
    loop {
        let temporary = with_suffix(path, &format!(".new{number}"));
        match File::create_new(&temporary) {
            Err(error) if error.kind() == ErrorKind::AlreadyExists => number += 1,
            created => return created.map(|file| (temporary, file)),
        }
    }
}

fn write_synced(mut file: File, bytes: &[u8]) -> io::Result<()> {
    file.write_all(bytes)?;
    file.sync_all()
}

/// A name is there to stay, or gone for good, once its folder is synced.
pub(crate) fn sync_folder_of(path: &Path) -> io::Result<()> {
    let folder = match path.parent() {
        Some(folder) if folder != Path::new("") => folder,
        _ => Path::new("."),
    };
    File::open(folder)?.sync_all()
}

#[cfg(test)]
mod tests {
    use super::*;

    /// The file has its name, and then its folder is gone from where it is looked for to be synced.
    #[test]
    fn a_folder_that_cannot_be_synced() {
        let folder = std::env::temp_dir().join(format!("teplovist-unsynced-{}", std::process::id()));
        let moved = with_suffix(&folder, "-moved");
        fs::create_dir_all(&folder).expect("there is room for a folder");
        let path = folder.join("path");
        let rename_and_move_folder = |temporary: &Path| {
            fs::rename(temporary, &path)?;
            fs::rename(&folder, &moved)
        };
        let error = put_in_place(&path, b"new", rename_and_move_folder).expect_err("there is nothing to sync");
        assert!(matches!(error, ReplaceError::Unsynced(_)), "{error}");
        assert_eq!(fs::read(moved.join("path")).expect("the file has its name"), b"new");
        let error = io::Error::from(error);
        assert_eq!(error.kind(), ErrorKind::NotFound);
        assert!(error.to_string().contains("a power failure may undo that"), "{error}");
        fs::remove_dir_all(&moved).expect("the folder is there");
    }

    #[test]
    fn a_file_that_does_not_get_its_name() {
        let folder = std::env::temp_dir().join(format!("teplovist-unchanged-{}", std::process::id()));
        let path = folder.join("path");
        fs::create_dir_all(&path).expect("there is room for a folder");
        let error = replace(&path, b"new").expect_err("a file never takes a folder's place");
        assert!(matches!(error, ReplaceError::Unchanged(_)), "{error}");
        assert_eq!(fs::read_dir(&folder).expect("the folder is there").count(), 1);
        fs::remove_dir_all(&folder).expect("the folder is there");
    }

    /// What is done on a medium without links, which a test cannot count on.
    #[test]
    fn a_name_that_is_taken_without_links() {
        let folder = std::env::temp_dir().join(format!("teplovist-without-links-{}", std::process::id()));
        fs::create_dir_all(&folder).expect("there is room for a folder");
        let (new, path) = (folder.join("new"), folder.join("path"));
        fs::write(&new, "first").expect("there is room for a file");
        look_and_rename(&new, &path).expect("nothing is in the way");
        fs::write(&new, "second").expect("there is room for a file");
        let error = look_and_rename(&new, &path).expect_err("the name is taken");
        assert_eq!(error.kind(), ErrorKind::AlreadyExists);
        assert_eq!(fs::read(&path).expect("the file is there"), b"first");
        fs::remove_dir_all(&folder).expect("the folder is there");
    }
}
