//! What an image is stored on: positioned writes, and a sync.

use std::fs::File;
use std::io;
use std::os::unix::fs::FileExt;

/// A medium that holds an image. [`FileDisk`] is a file; tests have one that loses power.
///
/// What is assumed of it: bytes that were written before a `sync` which gave `Ok` are there whatever happens later, and
/// a write within one sector of 512 bytes lands whole or not at all. Nothing is assumed of writes that no sync followed
/// yet.
///
/// ```
/// use std::io;
/// use teplovist::{Disk, Image, ImageFile, Kind, Partition};
///
/// /// Memory that never fails.
/// struct Ram(Vec<u8>);
///
/// impl Disk for Ram {
///     fn write_at(&mut self, place: u64, bytes: &[u8]) -> io::Result<()> {
///         let place = place as usize;
///         self.0[place..place + bytes.len()].copy_from_slice(bytes);
///         Ok(())
///     }
///
///     fn sync(&mut self) -> io::Result<()> {
///         Ok(())
///     }
/// }
///
/// let bytes = Image::blank(Kind::Disa, 1)?.into_inner();
/// let mut ram = Ram(bytes.clone());
/// let mut file = ImageFile::on_disk(&mut ram, bytes);
/// file.begin()?;
/// file.write(Partition::A, 0, b"saved")?;
/// file.commit()?;
///
/// let mut bytes = [0; 5];
/// Image::new(ram.0).read(Partition::A, 0, &mut bytes)?;
/// assert_eq!(&bytes, b"saved");
/// # Ok::<(), teplovist::Error>(())
/// ```
pub trait Disk {
    /// Stores bytes from a place on, by one write. After an error any of them may have landed.
    fn write_at(&mut self, place: u64, bytes: &[u8]) -> io::Result<()>;

    /// Gives `Ok` only once everything that was written is there to stay.
    fn sync(&mut self) -> io::Result<()>;
}

/// A disk that is lent.
impl<D: Disk + ?Sized> Disk for &mut D {
    fn write_at(&mut self, place: u64, bytes: &[u8]) -> io::Result<()> {
        (**self).write_at(place, bytes)
    }

    fn sync(&mut self) -> io::Result<()> {
        (**self).sync()
    }
}

/// A file that is locked as long as this value lives. Its length never changes.
#[derive(Debug)]
pub struct FileDisk {
    file: File,
    length: u64,
    writable: bool,
}

impl FileDisk {
    /// A file that its caller has locked, and has found to be so long.
    pub(crate) fn new(file: File, length: u64, writable: bool) -> FileDisk {
        FileDisk { file, length, writable }
    }

    /// Whoever does not ask for locks may have cut the file, or made it longer, since it was read. A write past its end
    /// would make it grow, with a hole in it; so nothing is stored to a file that has another length than the image.
    fn check(&self) -> io::Result<()> {
        if !self.writable {
            return Err(io::Error::new(io::ErrorKind::PermissionDenied, "the file was opened to read"));
        }
        let length = self.file.metadata()?.len();
        if length != self.length {
            let message = format!("the file is {length} bytes long now, and was {} when it was read", self.length);
            return Err(io::Error::other(message));
        }
        Ok(())
    }
}

impl Disk for FileDisk {
    /// One `pwrite`. Neither what it leaves out nor an interruption is tried again: after either, what the file holds
    /// is for the caller to judge.
    fn write_at(&mut self, place: u64, bytes: &[u8]) -> io::Result<()> {
        self.check()?;
        let stored = self.file.write_at(bytes, place)?;
        if stored != bytes.len() {
            return Err(io::Error::new(
                io::ErrorKind::WriteZero,
                format!("only {stored} of {} bytes were stored", bytes.len()),
            ));
        }
        Ok(())
    }

    /// One `fdatasync`, which the standard library asks for again where it was interrupted: nothing is lost by that, and
    /// an error of the medium is reported.
    fn sync(&mut self) -> io::Result<()> {
        self.check()?;
        self.file.sync_data()
    }
}
