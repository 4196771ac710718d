//! A running digest: SHA-256 of a message that comes in pieces. Its holder keeps it between the pieces, as 104 bytes at
//! the library's boundary, and any content of those is a value.

use super::compression::{compress, finish, Digest, HashValue, BLOCK, INITIAL};
use super::extent::number;
use super::refusal::Refusal;

/// The eight words of the hash value, the bytes that wait for a whole block, the number of bytes fed so far.
pub const RUNNING_LENGTH: usize = TOTAL + 8;
pub type RunningBytes = [u8; RUNNING_LENGTH];

/// Where the waiting bytes and the total begin.
pub const WAITING: usize = 32;
pub const TOTAL: usize = WAITING + BLOCK;

/// FIPS 180-4 hashes fewer than 2^64 bits: so many whole bytes at most.
pub const LONGEST_MESSAGE: u64 = (1 << 61) - 1;

#[derive(Clone, Debug, PartialEq, Eq)]
pub struct Running {
    pub hash: HashValue,
    /// The bytes behind the last whole block: as many as the total leaves over.
    pub waiting: Vec<u8>,
    pub total: u64,
}

impl Running {
    pub fn start() -> Running {
        Running { hash: INITIAL, waiting: Vec::new(), total: 0 }
    }

    /// What stands behind the bytes that wait is not looked at.
    pub fn from_bytes(bytes: &RunningBytes) -> Running {
        let total = number(bytes, TOTAL, 8);
        let waiting = (total % BLOCK as u64) as usize;
        Running {
            hash: std::array::from_fn(|word| number(bytes, 4 * word, 4) as u32),
            waiting: bytes[WAITING..WAITING + waiting].to_vec(),
            total,
        }
    }

    pub fn to_bytes(&self) -> RunningBytes {
        let mut bytes = [0; RUNNING_LENGTH];
        for (place, word) in bytes.chunks_exact_mut(4).zip(self.hash) {
            place.copy_from_slice(&word.to_le_bytes());
        }
        bytes[WAITING..WAITING + self.waiting.len()].copy_from_slice(&self.waiting);
        bytes[TOTAL..].copy_from_slice(&self.total.to_le_bytes());
        bytes
    }

    /// Takes the next piece of the message.
    pub fn feed(&mut self, piece: &[u8]) -> Result<(), Refusal> {
        if u128::from(self.total) + piece.len() as u128 > LONGEST_MESSAGE.into() {
            return Err(Refusal::MessageTooLong);
        }
        let mut bytes = std::mem::take(&mut self.waiting);
        bytes.extend_from_slice(piece);
        let mut blocks = bytes.chunks_exact(BLOCK);
        for block in blocks.by_ref() {
            self.hash = compress(self.hash, block);
        }
        self.waiting = blocks.remainder().to_vec();
        self.total += piece.len() as u64;
        Ok(())
    }

    /// The digest of the message so far.
    pub fn finish(&self) -> Result<Digest, Refusal> {
        if self.total > LONGEST_MESSAGE {
            return Err(Refusal::MessageTooLong);
        }
        Ok(finish(self.hash, &self.waiting, self.total))
    }
}

#[cfg(test)]
mod tests {
    use super::*;
    use crate::rules::sha256::sha256;

    fn at(total: u64) -> Running {
        Running { hash: [7; 8], waiting: vec![3; (total % 64) as usize], total }
    }

    /// Every cutting of messages around one and two blocks into two pieces, with an empty piece between them.
    #[test]
    fn any_cutting_gives_the_digest_of_the_whole() {
        let message: Vec<u8> = (0..200).collect();
        for length in 0..message.len() {
            for cut in 0..=length {
                let mut running = Running::start();
                for piece in [&message[..cut], &[], &message[cut..length]] {
                    running.feed(piece).expect("short");
                }
                assert_eq!(running.finish(), Ok(sha256(&message[..length])), "{cut} of {length}");
            }
        }
    }

    #[test]
    fn the_places_in_the_boundary_form() {
        let mut running = Running::start();
        running.feed(b"abc").expect("short");
        let bytes = running.to_bytes();
        assert_eq!(bytes[..8], [0x67, 0xe6, 0x09, 0x6a, 0x85, 0xae, 0x67, 0xbb]);
        assert_eq!(&bytes[32..36], b"abc\0");
        assert_eq!(bytes[96..], [3, 0, 0, 0, 0, 0, 0, 0]);
        assert_eq!(Running::from_bytes(&bytes), running);
        let mut leftovers = bytes;
        leftovers[35..96].fill(0xEE);
        assert_eq!(Running::from_bytes(&leftovers), running);
    }

    #[test]
    fn the_longest_message() {
        assert_eq!(LONGEST_MESSAGE, 0x1FFF_FFFF_FFFF_FFFF);
        for (total, length, fits) in [
            (LONGEST_MESSAGE, 0, true),
            (LONGEST_MESSAGE, 1, false),
            (LONGEST_MESSAGE - 1, 1, true),
            (LONGEST_MESSAGE - 1, 2, false),
            (LONGEST_MESSAGE - 200, 200, true),
            (LONGEST_MESSAGE - 200, 201, false),
            (LONGEST_MESSAGE + 1, 0, false),
            (u64::MAX, 0, false),
            (u64::MAX, 1, false),
        ] {
            let mut running = at(total);
            let fed = running.feed(&vec![1; length]);
            assert_eq!(fed.is_ok(), fits, "{total:#x} and {length}");
            assert_eq!(running.total, if fits { total + length as u64 } else { total });
            assert_eq!(running.finish().is_ok(), total <= LONGEST_MESSAGE);
        }
    }
}
