//! A session: what the library remembers between the calls of one save.

use crate::boundary::{self, SESSION_SIZE};
use crate::refusal::settled;
use crate::Refusal;

/// A session is idle or begun. Begun, it remembers the header that it began on; idle, the headers before and after the
/// last commit in it, which a revert goes by. A fresh one is idle and remembers nothing.
///
/// Its 513 bytes may be kept anywhere and come back as any others: the library looks at the image each time, and
/// refuses a session that does not fit.
///
/// ```
/// use teplovist::{Image, Kind, Refusal, Session};
///
/// let mut image = Image::blank(Kind::Disa, 1)?;
/// let mut session = Session::new();
/// assert_eq!(session.abandon(), Err(Refusal::SessionState));
/// image.begin(&mut session)?;
/// assert!(session.is_begun());
/// session.abandon()?;
/// assert_eq!(session, Session::new());
/// # Ok::<(), Refusal>(())
/// ```
#[derive(Clone, Debug, PartialEq, Eq)]
pub struct Session {
    bytes: [u8; SESSION_SIZE],
}

impl Session {
    /// An idle session that remembers nothing.
    pub fn new() -> Session {
        Session { bytes: [0; SESSION_SIZE] }
    }

    /// A session that was kept as its bytes.
    pub fn from_bytes(bytes: [u8; SESSION_SIZE]) -> Session {
        Session { bytes }
    }

    /// The bytes, to be kept.
    pub fn as_bytes(&self) -> &[u8; SESSION_SIZE] {
        &self.bytes
    }

    pub(crate) fn as_mut_bytes(&mut self) -> &mut [u8; SESSION_SIZE] {
        &mut self.bytes
    }

    /// Whether a session is under way: it was begun, and not yet committed or abandoned.
    pub fn is_begun(&self) -> bool {
        self.bytes[0] != 0
    }

    /// Ends the session: what it staged is forgotten, and it remembers no commit. Of an image in memory, what was
    /// written to an external level 4 stays written.
    pub fn abandon(&mut self) -> Result<(), Refusal> {
        // The boundary asks for just so many bytes.
        settled(unsafe { boundary::teplovist_abandon(self.bytes.as_mut_ptr()) }).map(drop)
    }
}

impl Default for Session {
    fn default() -> Session {
        Session::new()
    }
}
