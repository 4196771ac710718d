//! The block whose SHA-256 is signed, the five types in the section "AES CMAC" of document 000, and the signature itself.

use super::aes::Key;
use super::cmac::cmac;
use super::compression::Digest;
use super::header::{read_kind, Kind};
use super::refusal::Refusal;
use super::session::header_bytes;
use super::sha256::sha256;

/// The longest of the five blocks.
pub const LONGEST_BLOCK: usize = 0x11C;
pub type BlockBytes = [u8; LONGEST_BLOCK];

/// The signature stands in the image's first bytes.
pub const SIGNATURE_LENGTH: usize = 16;
pub type Signature = [u8; SIGNATURE_LENGTH];

/// How many types of signers there are; Quota.dat is one of its own.
pub const SIGNER_TYPES: u64 = 6;
/// A signer at the library's boundary: its type modulo six, the ID, and a file's two IDs.
pub type SignerNumbers = [u64; 4];

/// For whom a block is made, with the fields of its own.
#[derive(Clone, Copy, Debug, PartialEq, Eq)]
pub enum Signer {
    /// CTR-NOR0: a gamecard's savegame.
    Gamecard,
    /// CTR-SIGN: a savegame on SD.
    Sd { title: u64 },
    /// CTR-SYS0: a system save.
    System { save: u32 },
    /// CTR-EXT0 for Quota.dat.
    Quota { extdata: u64 },
    /// CTR-EXT0 for any other file: the ID in its own name, and the one in the name of its directory.
    File { extdata: u64, name: u32, directory: u32 },
    /// CTR-9DB0: a title database.
    Database { database: u32 },
}

impl Signer {
    /// Of an ID of 32 bits the low half counts; numbers that a type has no use for may be anything.
    pub fn from_numbers([kind, id, name, directory]: SignerNumbers) -> Signer {
        match kind % SIGNER_TYPES {
            0 => Signer::Gamecard,
            1 => Signer::Sd { title: id },
            2 => Signer::System { save: id as u32 },
            3 => Signer::Quota { extdata: id },
            4 => Signer::File { extdata: id, name: name as u32, directory: directory as u32 },
            _ => Signer::Database { database: id as u32 },
        }
    }

    /// The kind of container that it signs.
    pub fn kind(self) -> Kind {
        match self {
            Signer::Gamecard | Signer::Sd { .. } | Signer::System { .. } => Kind::Disa,
            Signer::Quota { .. } | Signer::File { .. } | Signer::Database { .. } => Kind::Diff,
        }
    }
}

/// The block: refusals 1, 2 and 15. Past its kind the header is copied as it is.
pub fn signing_block(image: &[u8], signer: Signer) -> Result<Vec<u8>, Refusal> {
    if read_kind(image)? != signer.kind() {
        return Err(Refusal::WrongSigner);
    }
    let header = header_bytes(image);
    Ok(match signer {
        Signer::Gamecard => joined(&[b"CTR-NOR0", &savegame_digest(&header)]),
        Signer::Sd { title } => joined(&[b"CTR-SIGN", &title.to_le_bytes(), &savegame_digest(&header)]),
        Signer::System { save } => joined(&[b"CTR-SYS0", &u64::from(save).to_le_bytes(), &header]),
        Signer::Quota { extdata } => extdata_block(extdata, [0, 0, 0], &header),
        Signer::File { extdata, name, directory } => extdata_block(extdata, [1, name, directory], &header),
        Signer::Database { database } => joined(&[b"CTR-9DB0", &database.to_le_bytes(), &header]),
    })
}

/// The block's SHA-256, with the same refusals.
pub fn signing_digest(image: &[u8], signer: Signer) -> Result<Digest, Refusal> {
    signing_block(image, signer).map(|block| sha256(&block))
}

/// The CMAC of that SHA-256, with the same refusals.
pub fn signature(image: &[u8], key: &Key, signer: Signer) -> Result<Signature, Refusal> {
    signing_digest(image, signer).map(|digest| cmac(key, &digest))
}

/// The SHA-256 of the inner block of 0x108 bytes that savegames have.
fn savegame_digest(header: &[u8]) -> Digest {
    sha256(&joined(&[b"CTR-SAV0", header]))
}

/// CTR-EXT0: `words` are 0 for Quota.dat and 1 otherwise, the ID in the file's name, and the one in its directory's.
fn extdata_block(extdata: u64, words: [u32; 3], header: &[u8]) -> Vec<u8> {
    let [file, name, directory] = words.map(u32::to_le_bytes);
    joined(&[b"CTR-EXT0", &extdata.to_le_bytes(), &file, &name, &directory, header])
}

fn joined(parts: &[&[u8]]) -> Vec<u8> {
    parts.concat()
}

#[cfg(test)]
mod tests {
    use super::*;
    use crate::rules::header::{DIFF_OPENING, DISA_OPENING, HEADER};

    const NUMBERS: [u64; 3] = [0x0807_0605_0403_0201, 0xFFFF_FFFF_1413_1211, 0xFFFF_FFFF_1817_1615];

    /// Nothing but the kind is right in these images.
    fn image(opening: &[u8; 8]) -> Vec<u8> {
        let mut image: Vec<u8> = (0..0x200).map(|place| (place * 7 % 251) as u8).collect();
        image[HEADER..HEADER + 8].copy_from_slice(opening);
        image
    }

    fn block(opening: &[u8; 8], kind: u64) -> Vec<u8> {
        signing_block(&image(opening), signer(kind)).expect("the kind fits")
    }

    fn signer(kind: u64) -> Signer {
        Signer::from_numbers([kind, NUMBERS[0], NUMBERS[1], NUMBERS[2]])
    }

    fn inner_digest() -> Digest {
        let mut inner = b"CTR-SAV0".to_vec();
        inner.extend_from_slice(&image(DISA_OPENING)[0x100..]);
        assert_eq!(inner.len(), 0x108);
        sha256(&inner)
    }

    #[test]
    fn ctr_nor0() {
        let block = block(DISA_OPENING, 0);
        assert_eq!(block.len(), 0x28);
        assert_eq!(&block[..0x08], b"CTR-NOR0");
        assert_eq!(block[0x08..], inner_digest());
    }

    #[test]
    fn ctr_sign() {
        let block = block(DISA_OPENING, 1);
        assert_eq!(block.len(), 0x30);
        assert_eq!(&block[..0x08], b"CTR-SIGN");
        assert_eq!(block[0x08..0x10], [1, 2, 3, 4, 5, 6, 7, 8]);
        assert_eq!(block[0x10..], inner_digest());
    }

    #[test]
    fn ctr_sys0() {
        let block = block(DISA_OPENING, 2);
        assert_eq!(block.len(), 0x110);
        assert_eq!(&block[..0x08], b"CTR-SYS0");
        assert_eq!(block[0x08..0x10], [1, 2, 3, 4, 0, 0, 0, 0]);
        assert_eq!(block[0x10..], image(DISA_OPENING)[0x100..]);
    }

    #[test]
    fn ctr_ext0_for_quota_dat() {
        let block = block(DIFF_OPENING, 3);
        assert_eq!(block.len(), 0x11C);
        assert_eq!(&block[..0x08], b"CTR-EXT0");
        assert_eq!(block[0x08..0x10], [1, 2, 3, 4, 5, 6, 7, 8]);
        assert_eq!(block[0x10..0x1C], [0; 12]);
        assert_eq!(block[0x1C..], image(DIFF_OPENING)[0x100..]);
    }

    #[test]
    fn ctr_ext0_for_a_file() {
        let block = block(DIFF_OPENING, 4);
        assert_eq!(block.len(), 0x11C);
        assert_eq!(&block[..0x08], b"CTR-EXT0");
        assert_eq!(block[0x08..0x10], [1, 2, 3, 4, 5, 6, 7, 8]);
        assert_eq!(block[0x10..0x14], [1, 0, 0, 0]);
        assert_eq!(block[0x14..0x18], [0x11, 0x12, 0x13, 0x14]);
        assert_eq!(block[0x18..0x1C], [0x15, 0x16, 0x17, 0x18]);
        assert_eq!(block[0x1C..], image(DIFF_OPENING)[0x100..]);
    }

    #[test]
    fn ctr_9db0() {
        let block = block(DIFF_OPENING, 5);
        assert_eq!(block.len(), 0x10C);
        assert_eq!(&block[..0x08], b"CTR-9DB0");
        assert_eq!(block[0x08..0x0C], [1, 2, 3, 4]);
        assert_eq!(block[0x0C..], image(DIFF_OPENING)[0x100..]);
    }

    #[test]
    fn the_digest_is_the_blocks() {
        for kind in 3..6 {
            let expected = sha256(&block(DIFF_OPENING, kind));
            assert_eq!(signing_digest(&image(DIFF_OPENING), signer(kind)), Ok(expected));
        }
    }

    /// As Python's hashlib and `openssl mac` give them for the blocks above.
    #[test]
    fn signatures() {
        let key = std::array::from_fn(|place| place as u8);
        let signatures: [u128; 6] = [
            0x9d7d04d77f416fef6487854886d5ed58,
            0x5f58691d21a5d9346ca69705bfd71fc1,
            0x4851688022596b15338ebd7071cc2b69,
            0xc695ab84b5ab24eba691a54546aae07b,
            0x3a5776635de8f710d3e75dd0f27fbe06,
            0x8f5af56898fa033404dc0f5b9d5b76a1,
        ];
        for (kind, expected) in signatures.into_iter().enumerate() {
            let opening = if kind < 3 { DISA_OPENING } else { DIFF_OPENING };
            let found = signature(&image(opening), &key, signer(kind as u64));
            assert_eq!(found, Ok(expected.to_be_bytes()), "type {kind}");
        }
    }

    /// 1 comes before 2, and 2 before 15.
    #[test]
    fn refusals() {
        for kind in 0..12 {
            let fitting = if kind % 6 < 3 { DISA_OPENING } else { DIFF_OPENING };
            let other = if kind % 6 < 3 { DIFF_OPENING } else { DISA_OPENING };
            let number = |image: &[u8]| signing_block(image, signer(kind)).map_or_else(Refusal::number, |_| 0);
            assert_eq!(number(&image(fitting)), 0);
            assert_eq!(number(&image(other)), 15);
            assert_eq!(number(&image(b"DISA\x00\x00\x03\x00")), 2);
            assert_eq!(number(&image(other)[..0x1FF]), 1);
            assert_eq!(number(&[]), 1);
        }
    }
}
