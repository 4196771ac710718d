//! Keys, and for whom an image is signed.

use std::fmt;

use crate::boundary::{KEY_SIZE, SIGNER_LENGTH};

/// A key for signing. It has no `Debug` that shows it; it is not wiped from memory.
///
/// ```
/// let key = teplovist::Key::new([7; 16]);
/// assert_eq!(format!("{key:?}"), "Key(..)");
/// ```
#[derive(Clone)]
pub struct Key([u8; KEY_SIZE]);

impl Key {
    /// A key of these bytes.
    pub fn new(bytes: [u8; KEY_SIZE]) -> Key {
        Key(bytes)
    }

    pub(crate) fn as_ptr(&self) -> *const u8 {
        self.0.as_ptr()
    }
}

impl fmt::Debug for Key {
    fn fmt(&self, to: &mut fmt::Formatter) -> fmt::Result {
        to.write_str("Key(..)")
    }
}

/// For whom an image is signed: the first three sign a DISA, the others a DIFF.
///
/// ```
/// use teplovist::{Image, Key, Kind, Refusal, Session, Signer};
///
/// let (key, signer) = (Key::new([7; 16]), Signer::Title { id: 0x0004_0000_0000_1234 });
/// let mut image = Image::blank(Kind::Disa, 1)?;
/// assert_eq!(image.open_signed(&key, &signer), Err(Refusal::Signature));
///
/// let mut session = Session::new();
/// image.begin(&mut session)?;
/// image.commit_signed(&mut session, &key, &signer)?;
/// image.open_signed(&key, &signer)?;
/// assert_eq!(image.open_signed(&key, &Signer::Quota { id: 1 }), Err(Refusal::SignerKind));
/// # Ok::<(), Refusal>(())
/// ```
#[derive(Clone, Copy, Debug, PartialEq, Eq, Hash)]
pub enum Signer {
    /// CTR-NOR0: a game card's save.
    Card,
    /// CTR-SIGN: a save on an SD card, by its title ID.
    Title { id: u64 },
    /// CTR-SYS0: a system save, by its save ID.
    System { id: u32 },
    /// CTR-EXT0: Quota.dat, by the extdata ID.
    Quota { id: u64 },
    /// CTR-EXT0: a device file, by the extdata ID, the ID in the file's name and the ID of its folder.
    Device { id: u64, file: u32, folder: u32 },
    /// CTR-9DB0: a title database, by its ID.
    Database { id: u32 },
}

impl Signer {
    /// As the boundary has it: the type, the ID, and for a device file its own ID and its folder's.
    pub fn numbers(self) -> [u64; SIGNER_LENGTH] {
        match self {
            Signer::Card => [0, 0, 0, 0],
            Signer::Title { id } => [1, id, 0, 0],
            Signer::System { id } => [2, id.into(), 0, 0],
            Signer::Quota { id } => [3, id, 0, 0],
            Signer::Device { id, file, folder } => [4, id, file.into(), folder.into()],
            Signer::Database { id } => [5, id.into(), 0, 0],
        }
    }
}
