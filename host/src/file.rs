//! An image in a file, whose commit keeps the library's premise: the header lands last, whole or not at all.

use std::fs::{self, File, OpenOptions, TryLockError};
use std::io;
use std::os::unix::fs::FileExt;
use std::path::Path;

use crate::boundary::MAX_IMAGE;
use crate::plan::{plan, Run};
use crate::{Disk, Error, FileDisk, Image, Key, Partition, Refusal, Session, Signer};

/// An image in a file, locked as long as this value lives: shared to read, exclusive to write.
///
/// The file is read once. A session works on a copy in memory; begin, write and abandon never touch the file. A commit
/// or a revert stores every changed byte past the first sector, syncs, stores the header (with a signature: the whole
/// first sector) by one write, syncs again, and only then gives `Ok`.
///
/// ```
/// use teplovist::{Image, ImageFile, Kind, Partition};
///
/// # let folder = std::env::temp_dir().join(format!("teplovist-file-{}", std::process::id()));
/// # std::fs::create_dir_all(&folder)?;
/// let path = folder.join("save.img");
/// std::fs::write(&path, Image::blank(Kind::Disa, 4)?.bytes())?;
///
/// let mut file = ImageFile::open_to_write(&path)?;
/// file.begin()?;
/// file.write(Partition::A, 0x1234, b"saved")?;
/// file.commit()?;
/// drop(file); // lets the lock go
///
/// let mut bytes = [0; 5];
/// ImageFile::open(&path)?.image()?.read(Partition::A, 0x1234, &mut bytes)?;
/// assert_eq!(&bytes, b"saved");
/// # std::fs::remove_dir_all(&folder)?;
/// # Ok::<(), Box<dyn std::error::Error>>(())
/// ```
#[derive(Debug)]
pub struct ImageFile<D: Disk = FileDisk> {
    disk: D,
    /// What the file holds, but for `doubtful`.
    stored: Vec<u8>,
    /// The copy that a begun session works on; none while the session is idle.
    staged: Option<Vec<u8>>,
    session: Session,
    /// Runs that a failed commit was to store: the file may hold anything there. See `fall_back`.
    doubtful: Vec<Run>,
    /// What the file holds is not known any more.
    lost: bool,
}

impl ImageFile {
    /// Opens an image to read. Fails with [`Error::Locked`] while somebody has it open to write.
    pub fn open(path: impl AsRef<Path>) -> Result<ImageFile, Error> {
        let path = path.as_ref();
        let file = open_regular(path, OpenOptions::new().read(true))?;
        lock(path, file.try_lock_shared())?;
        ImageFile::read_from(file, path, false)
    }

    /// Opens an image to read and write. Fails with [`Error::Locked`] while anybody else has it open.
    ///
    /// ```
    /// use teplovist::{Error, Image, ImageFile, Kind};
    ///
    /// # let folder = std::env::temp_dir().join(format!("teplovist-lock-{}", std::process::id()));
    /// # std::fs::create_dir_all(&folder)?;
    /// let path = folder.join("save.img");
    /// std::fs::write(&path, Image::blank(Kind::Disa, 1)?.bytes())?;
    /// let readers = (ImageFile::open(&path)?, ImageFile::open(&path)?);
    /// assert!(matches!(ImageFile::open_to_write(&path), Err(Error::Locked { .. })));
    /// drop(readers);
    /// let writer = ImageFile::open_to_write(&path)?;
    /// assert!(matches!(ImageFile::open(&path), Err(Error::Locked { .. })));
    /// # std::fs::remove_dir_all(&folder)?;
    /// # Ok::<(), Box<dyn std::error::Error>>(())
    /// ```
    pub fn open_to_write(path: impl AsRef<Path>) -> Result<ImageFile, Error> {
        let path = path.as_ref();
        let file = open_regular(path, OpenOptions::new().read(true).write(true))?;
        lock(path, file.try_lock())?;
        // A writer that was killed may have left a header that is in the system's cache, but not on the disk yet. It is
        // read below, and a session overwrites what was live before it; so it has to be there to stay first.
        file.sync_data().map_err(|source| Error::Io { what: "sync", path: path.to_owned(), source })?;
        ImageFile::read_from(file, path, true)
    }

    /// Reads a locked file whole. One that is cut while it is read is an error here; one that is cut or grows later is
    /// found before anything is stored to it (`FileDisk`).
    fn read_from(file: File, path: &Path, writable: bool) -> Result<ImageFile, Error> {
        let failed = |source| Error::Io { what: "read", path: path.to_owned(), source };
        let length = file.metadata().map_err(failed)?.len();
        if length > MAX_IMAGE as u64 {
            // The library would say the same, but so much need not be read.
            return Err(Refusal::Length.into());
        }
        let mut bytes = vec![0; length as usize];
        file.read_exact_at(&mut bytes, 0).map_err(failed)?;
        Ok(ImageFile::on_disk(FileDisk::new(file, length, writable), bytes))
    }
}

/// The lock that [`ImageFile::open_to_write`] takes, on a file that may hold anything: for whoever replaces it. It is
/// held as long as the file is open.
pub fn lock_exclusively(path: &Path) -> Result<File, Error> {
    let file = open_regular(path, OpenOptions::new().read(true))?;
    lock(path, file.try_lock())?;
    Ok(file)
}

/// Opens what a path names, which must be a regular file: opening a pipe might wait for ever, and a device is no file
/// of fixed length. Links are followed.
fn open_regular(path: &Path, options: &OpenOptions) -> Result<File, Error> {
    let failed = |source| Error::Io { what: "open", path: path.to_owned(), source };
    if !fs::metadata(path).map_err(failed)?.is_file() {
        return Err(failed(io::Error::new(io::ErrorKind::InvalidInput, "it is no regular file")));
    }
    options.open(path).map_err(failed)
}

/// Nobody waits for a lock: whoever opened one image twice would wait for ever.
fn lock(path: &Path, tried: Result<(), TryLockError>) -> Result<(), Error> {
    tried.map_err(|error| match error {
        TryLockError::WouldBlock => Error::Locked { path: path.to_owned() },
        TryLockError::Error(source) => Error::Io { what: "lock", path: path.to_owned(), source },
    })
}

impl<D: Disk> ImageFile<D> {
    /// An image on any disk that holds these bytes, there to stay.
    pub fn on_disk(disk: D, bytes: Vec<u8>) -> ImageFile<D> {
        ImageFile { disk, stored: bytes, staged: None, session: Session::new(), doubtful: Vec::new(), lost: false }
    }

    /// The image as the file holds it, for all calls that only look.
    pub fn image(&self) -> Result<Image<&[u8]>, Error> {
        self.known()?;
        Ok(Image::new(&self.stored))
    }

    /// The session, to be remembered after a commit.
    pub fn session(&self) -> &Session {
        &self.session
    }

    /// Takes up a session that was remembered, so that its last commit can be reverted; the library judges whether it
    /// fits. What the session before it staged is dropped.
    pub fn set_session(&mut self, session: Session) {
        self.session = session;
        self.staged = None;
    }

    /// Starts a session, in memory.
    pub fn begin(&mut self) -> Result<(), Error> {
        self.on_staged(|image, session| image.begin(session))
    }

    /// Stages bytes from a place of a partition's level 4 on, in memory.
    pub fn write(&mut self, partition: Partition, place: u64, data: &[u8]) -> Result<(), Error> {
        self.on_staged(|image, session| image.write(session, partition, place, data))
    }

    /// Reads what the session has staged.
    pub fn read_staged(&self, partition: Partition, place: u64, buffer: &mut [u8]) -> Result<(), Error> {
        self.known()?;
        let staged = self.staged.as_ref().unwrap_or(&self.stored);
        Ok(Image::new(staged).read_staged(&self.session, partition, place, buffer)?)
    }

    /// Ends the session: what it staged is forgotten, of an external level 4 too, since none of it was stored.
    pub fn abandon(&mut self) -> Result<(), Error> {
        self.known()?;
        self.session.abandon()?;
        self.staged = None;
        Ok(())
    }

    /// Makes what is staged the committed data, in the file. A signature that the image had no longer fits.
    pub fn commit(&mut self) -> Result<(), Error> {
        self.landed(|image, session| image.commit(session))
    }

    /// The same with the signature of a signer under a key.
    pub fn commit_signed(&mut self, key: &Key, signer: &Signer) -> Result<(), Error> {
        self.landed(|image, session| image.commit_signed(session, key, signer))
    }

    /// One step back: restores the header before the session's last commit, in the file.
    pub fn revert(&mut self) -> Result<(), Error> {
        self.landed(|image, session| image.revert(session))
    }

    /// The same with the signature of a signer under a key.
    pub fn revert_signed(&mut self, key: &Key, signer: &Signer) -> Result<(), Error> {
        self.landed(|image, session| image.revert_signed(session, key, signer))
    }

    fn known(&self) -> Result<(), Error> {
        if self.lost {
            return Err(Error::Reopen);
        }
        Ok(())
    }

    /// The copy for a call that changes an image: the one that the session works on, or a fresh one.
    fn take_staged(&mut self) -> Vec<u8> {
        self.staged.take().unwrap_or_else(|| self.stored.clone())
    }

    /// Makes a call that stages something. Its copy is kept as long as the session is begun.
    fn on_staged(&mut self, call: impl FnOnce(&mut Staged, &mut Session) -> Result<(), Refusal>) -> Result<(), Error> {
        self.known()?;
        let mut staged = Image::new(self.take_staged());
        let answer = call(&mut staged, &mut self.session);
        self.staged = self.session.is_begun().then(|| staged.into_inner());
        Ok(answer?)
    }

    /// Makes a call that changes what is committed: in memory first, and if it is accepted there, in the file.
    fn landed(&mut self, call: impl FnOnce(&mut Staged, &mut Session) -> Result<(), Refusal>) -> Result<(), Error> {
        self.known()?;
        let mut image = Image::new(self.take_staged());
        let mut session = self.session.clone();
        if let Err(refusal) = call(&mut image, &mut session) {
            self.staged = self.session.is_begun().then(|| image.into_inner());
            return Err(refusal.into());
        }
        self.store(image.into_inner(), session)
    }

    /// The order that the library's promise rests on: all else, a sync, the front by one write, a sync.
    fn store(&mut self, after: Vec<u8>, session: Session) -> Result<(), Error> {
        // Unless everything lands, the session is over and remembers nothing.
        self.session = Session::new();
        let planned = plan(&self.stored, &after);
        if let Err(source) = self.store_runs(&planned.runs, &after) {
            return Err(self.fall_back(planned.runs, source));
        }
        if let Err(source) = self.store_front(planned.front, &after) {
            self.lost = true;
            return Err(Error::Header(source));
        }
        self.stored = after;
        self.session = session;
        Ok(())
    }

    fn store_runs(&mut self, runs: &[Run], after: &[u8]) -> io::Result<()> {
        for run in self.doubtful.iter().chain(runs) {
            self.disk.write_at(run.place as u64, &after[run.range()])?;
        }
        self.disk.sync()?;
        self.doubtful.clear();
        Ok(())
    }

    /// One write, within the first sector.
    fn store_front(&mut self, front: Option<Run>, after: &[u8]) -> io::Result<()> {
        let Some(front) = front else { return Ok(()) };
        self.disk.write_at(front.place as u64, &after[front.range()])?;
        self.disk.sync()
    }

    /// After a failure before the header's store: the old state is still what the file holds and what memory shows, and
    /// the session is idle and remembers nothing. Any of the runs may have landed, in part or not at all. They lie in
    /// free bytes, on which nothing committed rests, but the next commit must not take them for stored: it stores them
    /// all again, with its own bytes, whether they changed or not. It only does so when the caller asks for a commit;
    /// nothing is tried again by itself.
    ///
    /// Bytes of an external level 4 are not free. If some of the runs lie there, memory no longer shows what the file
    /// holds.
    fn fall_back(&mut self, runs: Vec<Run>, source: io::Error) -> Error {
        self.lost = self.reach_external(&runs);
        self.doubtful.extend(runs);
        if self.lost {
            Error::InPlace(source)
        } else {
            Error::Before(source)
        }
    }

    /// Whether some of the runs lie in an external level 4.
    fn reach_external(&self, runs: &[Run]) -> bool {
        Image::new(&self.stored).open().is_ok_and(|description| {
            let mut external = description.partitions().filter_map(|(_, layout)| layout.external_extent());
            external.any(|extent| runs.iter().any(|run| run.overlaps(extent)))
        })
    }
}

/// The image that a call of the library works on.
type Staged = Image<Vec<u8>>;
