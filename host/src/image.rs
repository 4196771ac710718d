//! An image in memory, and every call of the library on it.
//!
//! What makes the calls safe: a slice lends its pointer with its own length for the call alone, is never null and never
//! longer than `isize::MAX`; fixed arrays have the lengths that the boundary asks for; and Rust's references keep two
//! arguments from overlapping and a call that changes an image alone with it.

use crate::boundary::{self, BLOCK_SIZE, DESCRIPTION_LENGTH, DIGEST_SIZE, NAME_RECORD, NAME_SIZE};
use crate::refusal::settled;
use crate::{Description, Fault, Key, Kind, Name, Partition, Refusal, Session, Signer};

/// How long a row is lent first: long enough for most lists, so that most are made once.
const FIRST_ROW: usize = 64;

/// A list that the library makes into a row, where it tells how many records there are in all.
fn filled_row<T: Copy>(empty: T, fill: impl Fn(&mut [T]) -> Result<u64, Refusal>) -> Result<Vec<T>, Refusal> {
    let mut row = vec![empty; FIRST_ROW];
    let all = fill(&mut row)? as usize;
    if all > row.len() {
        row.resize(all, empty);
        fill(&mut row)?;
    }
    row.truncate(all);
    Ok(row)
}

/// An image over bytes that are lent or owned: `&[u8]`, `&mut [u8]`, `Vec<u8>` and whatever else lends a slice. Any
/// bytes do; each call opens them first and is refused if they are no image. Calls that change the image need bytes
/// that can be changed.
///
/// The calls work on memory alone. [`ImageFile`](crate::ImageFile) is an image in a file.
///
/// ```
/// use teplovist::{Image, Kind, Partition, Session};
///
/// let mut image = Image::blank(Kind::Disa, 4)?;
/// let mut session = Session::new();
/// image.begin(&mut session)?;
/// image.write(&mut session, Partition::A, 0x1234, b"saved")?;
///
/// let mut bytes = [0; 5];
/// image.read(Partition::A, 0x1234, &mut bytes)?;
/// assert_eq!(&bytes, &[0; 5]); // nothing is committed yet
///
/// image.commit(&mut session)?;
/// image.read(Partition::A, 0x1234, &mut bytes)?;
/// assert_eq!(&bytes, b"saved");
/// # Ok::<(), teplovist::Refusal>(())
/// ```
#[derive(Clone, Debug, PartialEq, Eq)]
pub struct Image<B> {
    bytes: B,
}

impl<B> Image<B> {
    /// An image of these bytes, whatever they are.
    pub fn new(bytes: B) -> Image<B> {
        Image { bytes }
    }

    /// The bytes back.
    pub fn into_inner(self) -> B {
        self.bytes
    }
}

/// The calls that only look.
impl<B: AsRef<[u8]>> Image<B> {
    /// The bytes as they are.
    pub fn bytes(&self) -> &[u8] {
        self.bytes.as_ref()
    }

    /// Opens the image, and tells where everything lies.
    ///
    /// ```
    /// use teplovist::{Image, Refusal};
    ///
    /// assert_eq!(Image::new([0; 0x200]).open(), Err(Refusal::Format));
    /// ```
    pub fn open(&self) -> Result<Description, Refusal> {
        let image = self.bytes();
        let mut numbers = [0; DESCRIPTION_LENGTH];
        settled(unsafe { boundary::teplovist_open(image.as_ptr(), image.len(), numbers.as_mut_ptr()) })?;
        Ok(Description::from_numbers(&numbers))
    }

    /// The same of an image that must have the signature of a signer under a key.
    pub fn open_signed(&self, key: &Key, signer: &Signer) -> Result<Description, Refusal> {
        let image = self.bytes();
        let signer = signer.numbers();
        let mut numbers = [0; DESCRIPTION_LENGTH];
        settled(unsafe {
            boundary::teplovist_open_signed(
                image.as_ptr(),
                image.len(),
                key.as_ptr(),
                signer.as_ptr(),
                numbers.as_mut_ptr(),
            )
        })?;
        Ok(Description::from_numbers(&numbers))
    }

    /// Reads what is committed, from a place of a partition's level 4 on: fills the whole buffer, or changes none of
    /// it.
    ///
    /// ```
    /// use teplovist::{Image, Kind, Partition, Refusal};
    ///
    /// let image = Image::blank(Kind::Diff, 1)?;
    /// let mut buffer = [1; 2];
    /// assert_eq!(image.read(Partition::A, 0xFFF, &mut buffer), Err(Refusal::OutOfRange));
    /// assert_eq!(image.read(Partition::B, 0, &mut buffer), Err(Refusal::NoPartition));
    /// assert_eq!(buffer, [1; 2]);
    /// image.read(Partition::A, 0xFFE, &mut buffer)?;
    /// assert_eq!(buffer, [0; 2]);
    /// # Ok::<(), Refusal>(())
    /// ```
    pub fn read(&self, partition: Partition, place: u64, buffer: &mut [u8]) -> Result<(), Refusal> {
        let image = self.bytes();
        settled(unsafe {
            boundary::teplovist_read_committed(
                image.as_ptr(),
                image.len(),
                partition.number(),
                place,
                buffer.as_mut_ptr(),
                buffer.len(),
            )
        })
        .map(drop)
    }

    /// Reads what a session has staged.
    pub fn read_staged(
        &self,
        session: &Session,
        partition: Partition,
        place: u64,
        buffer: &mut [u8],
    ) -> Result<(), Refusal> {
        let image = self.bytes();
        settled(unsafe {
            boundary::teplovist_read_staged(
                image.as_ptr(),
                image.len(),
                session.as_bytes().as_ptr(),
                partition.number(),
                place,
                buffer.as_mut_ptr(),
                buffer.len(),
            )
        })
        .map(drop)
    }

    /// Whether a block of a partition's level 4 is verified, as it is committed.
    ///
    /// ```
    /// use teplovist::{Fault, Image, Kind, Partition, Session};
    ///
    /// let mut image = Image::blank(Kind::Disa, 2)?;
    /// let mut session = Session::new();
    /// image.begin(&mut session)?;
    /// image.write(&mut session, Partition::A, 0x1000, b"marked")?;
    /// image.commit(&mut session)?;
    /// assert_eq!(image.count_verified(Partition::A)?, 2);
    ///
    /// let mut bytes = image.into_inner();
    /// let place = bytes.windows(6).position(|window| window == b"marked").expect("it was written");
    /// bytes[place] = b'M';
    /// let image = Image::new(bytes);
    /// assert!(image.is_verified(Partition::A, 0)?);
    /// assert!(!image.is_verified(Partition::A, 1)?);
    /// assert_eq!(image.faults()?, [Fault { partition: 0, level: 4, block: 1 }]);
    /// # Ok::<(), teplovist::Refusal>(())
    /// ```
    pub fn is_verified(&self, partition: Partition, block: u64) -> Result<bool, Refusal> {
        let image = self.bytes();
        settled(unsafe { boundary::teplovist_verified(image.as_ptr(), image.len(), partition.number(), block) })
            .map(|value| value != 0)
    }

    /// How many blocks of a partition's level 4 are verified, as they are committed.
    pub fn count_verified(&self, partition: Partition) -> Result<u64, Refusal> {
        let image = self.bytes();
        settled(unsafe { boundary::teplovist_count_verified(image.as_ptr(), image.len(), partition.number()) })
    }

    /// The fault list: every block of levels 1 to 4 of every partition that is not verified, as they are committed.
    /// Partition A comes first, then the levels from 1 up, then the blocks by number.
    pub fn faults(&self) -> Result<Vec<Fault>, Refusal> {
        filled_row(Fault::default(), |row| self.faults_into(row))
    }

    /// Fills a row with the first faults, as far as it goes, and tells how many there are in all.
    pub fn faults_into(&self, row: &mut [Fault]) -> Result<u64, Refusal> {
        let image = self.bytes();
        settled(unsafe { boundary::teplovist_faults(image.as_ptr(), image.len(), row.as_mut_ptr(), row.len()) })
    }

    /// The folders and files of a save: a folder, its files, then each of its subfolders in the same way. The walk
    /// needs up to 1.5 MB of stack.
    ///
    /// ```
    /// use teplovist::{Image, Kind, Refusal};
    ///
    /// let image = Image::blank(Kind::Disa, 1)?;
    /// assert_eq!(image.names(), Err(Refusal::NoSave)); // level 4 is all zero
    /// # Ok::<(), Refusal>(())
    /// ```
    pub fn names(&self) -> Result<Vec<Name>, Refusal> {
        let records = filled_row([0; NAME_RECORD], |row| self.name_records_into(row))?;
        Ok(records.iter().map(Name::from_record).collect())
    }

    fn name_records_into(&self, row: &mut [[u8; NAME_RECORD]]) -> Result<u64, Refusal> {
        let image = self.bytes();
        let row = row.as_flattened_mut();
        settled(unsafe { boundary::teplovist_list_names(image.as_ptr(), image.len(), row.as_mut_ptr(), row.len()) })
    }

    /// The number of the file that has a name in the folder with that number. The name is compared in all its bytes.
    pub fn find_file(&self, folder: u64, name: &[u8; NAME_SIZE]) -> Result<Option<u32>, Refusal> {
        let image = self.bytes();
        let found =
            settled(unsafe { boundary::teplovist_find_file(image.as_ptr(), image.len(), folder, name.as_ptr()) })?;
        // An entry's number has 32 bits; 0 is no entry's.
        Ok((found != 0).then_some(found as u32))
    }

    /// The block whose SHA-256 is signed, for a signer that signs elsewhere. The header is taken as it is: the image
    /// need not open.
    pub fn signing_block(&self, signer: &Signer) -> Result<Vec<u8>, Refusal> {
        let image = self.bytes();
        let signer = signer.numbers();
        let mut block = vec![0; BLOCK_SIZE];
        let length = settled(unsafe {
            boundary::teplovist_signing_block(image.as_ptr(), image.len(), signer.as_ptr(), block.as_mut_ptr())
        })?;
        block.truncate(length as usize);
        Ok(block)
    }

    /// The SHA-256 of that block.
    ///
    /// ```
    /// use teplovist::{Digest, Image, Kind, Signer};
    ///
    /// let image = Image::blank(Kind::Diff, 1)?;
    /// let signer = Signer::Device { id: 0x123, file: 3, folder: 1 };
    /// let block = image.signing_block(&signer)?;
    /// assert_eq!(&block[..8], b"CTR-EXT0");
    /// let mut digest = Digest::new();
    /// digest.feed(&block)?;
    /// assert_eq!(image.signing_digest(&signer)?, digest.finish()?);
    /// # Ok::<(), teplovist::Refusal>(())
    /// ```
    pub fn signing_digest(&self, signer: &Signer) -> Result<[u8; DIGEST_SIZE], Refusal> {
        let image = self.bytes();
        let signer = signer.numbers();
        let mut digest = [0; DIGEST_SIZE];
        settled(unsafe {
            boundary::teplovist_signing_digest(image.as_ptr(), image.len(), signer.as_ptr(), digest.as_mut_ptr())
        })?;
        Ok(digest)
    }
}

/// The calls that change the image.
impl<B: AsRef<[u8]> + AsMut<[u8]>> Image<B> {
    /// Starts a session. The last commit in it is then forgotten: it can be reverted no more.
    pub fn begin(&mut self, session: &mut Session) -> Result<(), Refusal> {
        let image = self.bytes.as_mut();
        settled(unsafe {
            boundary::teplovist_begin(image.as_mut_ptr(), image.len(), session.as_mut_bytes().as_mut_ptr())
        })
        .map(drop)
    }

    /// Stages bytes from a place of a partition's level 4 on. What is committed does not change, but for an external
    /// level 4 (see [`PartitionLayout::external`](crate::PartitionLayout::external)): that is written in place, and
    /// abandoning brings nothing back.
    ///
    /// ```
    /// use teplovist::{Image, Kind, Partition, Refusal, Session};
    ///
    /// let mut image = Image::blank(Kind::Disa, 1)?;
    /// let mut session = Session::new();
    /// assert_eq!(image.write(&mut session, Partition::A, 0, b"early"), Err(Refusal::SessionState));
    /// image.begin(&mut session)?;
    /// image.write(&mut session, Partition::A, 0, b"staged")?;
    /// let mut bytes = [0; 6];
    /// image.read_staged(&session, Partition::A, 0, &mut bytes)?;
    /// assert_eq!(&bytes, b"staged");
    /// # Ok::<(), Refusal>(())
    /// ```
    pub fn write(
        &mut self,
        session: &mut Session,
        partition: Partition,
        place: u64,
        data: &[u8],
    ) -> Result<(), Refusal> {
        let image = self.bytes.as_mut();
        settled(unsafe {
            boundary::teplovist_write(
                image.as_mut_ptr(),
                image.len(),
                session.as_mut_bytes().as_mut_ptr(),
                partition.number(),
                place,
                data.as_ptr(),
                data.len(),
            )
        })
        .map(drop)
    }

    /// Makes what is staged the committed data, by a store of the header alone. A signature that the image had no
    /// longer fits.
    pub fn commit(&mut self, session: &mut Session) -> Result<(), Refusal> {
        let image = self.bytes.as_mut();
        settled(unsafe {
            boundary::teplovist_commit(image.as_mut_ptr(), image.len(), session.as_mut_bytes().as_mut_ptr())
        })
        .map(drop)
    }

    /// The same with the signature of a signer under a key.
    pub fn commit_signed(&mut self, session: &mut Session, key: &Key, signer: &Signer) -> Result<(), Refusal> {
        let image = self.bytes.as_mut();
        let signer = signer.numbers();
        settled(unsafe {
            boundary::teplovist_commit_signed(
                image.as_mut_ptr(),
                image.len(),
                session.as_mut_bytes().as_mut_ptr(),
                key.as_ptr(),
                signer.as_ptr(),
            )
        })
        .map(drop)
    }

    /// One step back: restores the header before the last commit in this session, as long as nobody began another
    /// since.
    ///
    /// ```
    /// use teplovist::{Image, Kind, Partition, Refusal, Session};
    ///
    /// let mut image = Image::blank(Kind::Disa, 1)?;
    /// let mut session = Session::new();
    /// image.begin(&mut session)?;
    /// image.write(&mut session, Partition::A, 0, b"regretted")?;
    /// image.commit(&mut session)?;
    ///
    /// image.revert(&mut session)?;
    /// let mut bytes = [1; 9];
    /// image.read(Partition::A, 0, &mut bytes)?;
    /// assert_eq!(bytes, [0; 9]);
    /// assert_eq!(image.revert(&mut session), Err(Refusal::NothingToRevert));
    /// # Ok::<(), Refusal>(())
    /// ```
    pub fn revert(&mut self, session: &mut Session) -> Result<(), Refusal> {
        let image = self.bytes.as_mut();
        settled(unsafe {
            boundary::teplovist_revert(image.as_mut_ptr(), image.len(), session.as_mut_bytes().as_mut_ptr())
        })
        .map(drop)
    }

    /// The same with the signature of a signer under a key.
    pub fn revert_signed(&mut self, session: &mut Session, key: &Key, signer: &Signer) -> Result<(), Refusal> {
        let image = self.bytes.as_mut();
        let signer = signer.numbers();
        settled(unsafe {
            boundary::teplovist_revert_signed(
                image.as_mut_ptr(),
                image.len(),
                session.as_mut_bytes().as_mut_ptr(),
                key.as_ptr(),
                signer.as_ptr(),
            )
        })
        .map(drop)
    }
}

impl Image<Vec<u8>> {
    /// A blank image: one partition, whose internal level 4 has 1 to 4096 blocks of 0x1000 bytes, all zero and
    /// verified.
    ///
    /// ```
    /// use teplovist::{Image, Kind, Refusal};
    ///
    /// assert_eq!(Image::blank(Kind::Disa, 0), Err(Refusal::BlankSize));
    /// let image = Image::blank(Kind::Diff, 3)?;
    /// assert_eq!(image.open()?.a.level4().size, 3 * 0x1000);
    /// # Ok::<(), Refusal>(())
    /// ```
    pub fn blank(kind: Kind, blocks: u64) -> Result<Image<Vec<u8>>, Refusal> {
        let length = unsafe { boundary::teplovist_blank_length(blocks) };
        // A length is at most that of an image, and 0 where there is no such image: the library refuses that by 20.
        let mut bytes = vec![0; length as usize];
        settled(unsafe { boundary::teplovist_make_blank(bytes.as_mut_ptr(), bytes.len(), kind.number(), blocks) })?;
        Ok(Image { bytes })
    }
}

#[cfg(test)]
mod tests {
    use super::*;

    /// An image none of whose blocks is verified, and more of them than a first row holds.
    fn spoiled() -> Image<Vec<u8>> {
        let mut image = Image::blank(Kind::Disa, 2 * FIRST_ROW as u64).expect("so many blocks are allowed");
        let layout = image.open().expect("it is whole").a;
        let hashes_and_data = layout.partition.offset + layout.dpfs_level3.offset;
        image.bytes[hashes_and_data as usize..layout.partition.end() as usize].fill(0x77);
        image
    }

    #[test]
    fn a_long_fault_list_is_whole_and_in_order() {
        let image = spoiled();
        let levels = (1..).zip(image.open().expect("the table is untouched").a.levels);
        let all = levels
            .flat_map(|(level, blocks)| (0..blocks.blocks()).map(move |block| Fault { partition: 0, level, block }));
        let faults = image.faults().expect("it opens");
        assert!(faults.len() > FIRST_ROW);
        assert_eq!(faults, all.collect::<Vec<_>>());
    }

    #[test]
    fn a_short_row_gets_the_first_faults() {
        let mut row = [Fault { partition: 9, level: 9, block: 9 }; 3];
        let image = spoiled();
        let all = image.faults().expect("it opens");
        assert_eq!(image.faults_into(&mut row), Ok(all.len() as u64));
        assert_eq!(row, all[..3]);
    }

    #[test]
    fn a_refused_call_fills_nothing() {
        let image = Image::new(b"no image");
        let mut row = [Fault { partition: 9, level: 9, block: 9 }];
        assert_eq!(image.faults_into(&mut row), Err(Refusal::Length));
        assert_eq!(row[0].level, 9);
        assert_eq!(image.names(), Err(Refusal::Length));
        assert_eq!(image.find_file(1, &[0; NAME_SIZE]), Err(Refusal::Length));
        assert_eq!(image.signing_block(&Signer::Card), Err(Refusal::Length));
        assert_eq!(image.count_verified(Partition::A), Err(Refusal::Length));
    }

    /// Bytes that are lent, in each way, do as well as owned ones.
    #[test]
    fn lent_bytes() {
        let mut bytes = Image::blank(Kind::Diff, 1).expect("so many blocks are allowed").into_inner();
        let mut session = Session::new();
        Image::new(&mut bytes[..]).begin(&mut session).expect("the session is idle");
        Image::new(&mut bytes).write(&mut session, Partition::A, 1, &[5]).expect("the block is verified");
        Image::new(bytes.as_mut_slice()).commit(&mut session).expect("the session fits");
        let mut byte = [0];
        Image::new(&bytes).read(Partition::A, 1, &mut byte).expect("the block is verified");
        assert_eq!(byte, [5]);
    }
}
