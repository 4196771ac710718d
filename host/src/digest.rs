//! The library's running SHA-256.

use crate::boundary::{self, DIGEST_SIZE, DIGEST_STATE_SIZE};
use crate::refusal::settled;
use crate::Refusal;

/// A SHA-256 that is fed in pieces: whatever pieces a message is cut into, the digest is that of the whole.
///
/// ```
/// use teplovist::Digest;
///
/// let mut pieces = Digest::new();
/// pieces.feed(b"a")?;
/// pieces.feed(b"bc")?;
/// let digest = pieces.finish()?;
/// assert_eq!(digest[..4], [0xBA, 0x78, 0x16, 0xBF]);
/// # Ok::<(), teplovist::Refusal>(())
/// ```
#[derive(Clone)]
pub struct Digest {
    state: [u8; DIGEST_STATE_SIZE],
}

impl Digest {
    /// A digest that was fed nothing.
    pub fn new() -> Digest {
        // The boundary asks for just so many bytes, here and below.
        let mut state = [0; DIGEST_STATE_SIZE];
        unsafe { boundary::teplovist_digest_start(state.as_mut_ptr()) };
        Digest { state }
    }

    /// Feeds the next piece. All pieces together have at most 2^61 - 1 bytes.
    pub fn feed(&mut self, piece: &[u8]) -> Result<(), Refusal> {
        let answer = unsafe { boundary::teplovist_digest_feed(self.state.as_mut_ptr(), piece.as_ptr(), piece.len()) };
        settled(answer).map(drop)
    }

    /// The digest of what was fed so far; it may be fed further.
    pub fn finish(&self) -> Result<[u8; DIGEST_SIZE], Refusal> {
        let mut digest = [0; DIGEST_SIZE];
        settled(unsafe { boundary::teplovist_digest_finish(self.state.as_ptr(), digest.as_mut_ptr()) })?;
        Ok(digest)
    }
}

impl Default for Digest {
    fn default() -> Digest {
        Digest::new()
    }
}
