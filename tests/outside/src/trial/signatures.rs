//! Signed opening: what it must answer of any image, and each bit that it looks at.

use super::check_opening;
use super::signing::{block_by_places, expected_refusal, kind_of};
use crate::generate::random::Random;
use crate::generate::shape::Wanted;
use crate::generate::signing::SigningKey;
use crate::generate::valid_image;
use crate::rules::cmac::cmac;
use crate::rules::header::{HEADER, SHORTEST_IMAGE};
use crate::rules::opening::open;
use crate::rules::sha256::sha256;
use crate::rules::signing::{Signature, SIGNATURE_LENGTH, SIGNER_TYPES};
use crate::subject::Subject;

/// The signature of an image's header.
pub fn expected_signature(image: &[u8], signing_key: &SigningKey) -> Signature {
    let (block, length) = block_by_places(image, signing_key.signer);
    cmac(&signing_key.key, &sha256(&block[..length]))
}

/// What signed opening answers of an image to which opening answers `plain`: 15 and 16 come between 3 and 4.
pub fn signed_answer(image: &[u8], signing_key: &SigningKey, plain: u64) -> u64 {
    if (1..=3).contains(&plain) {
        return plain;
    }
    match expected_refusal(image, signing_key.signer) {
        0 if image[..SIGNATURE_LENGTH] == expected_signature(image, signing_key) => plain,
        0 => 16,
        number => number,
    }
}

/// For each type of signer an image that it has signed, with one change after the other.
pub fn run_signature_cases(subject: Option<&dyn Subject>) -> Result<(), String> {
    let random = &mut Random::new(0);
    for kind in 0..SIGNER_TYPES {
        let signer = [kind, random.number(), random.number(), random.number()];
        let wanted = Wanted { kind: Some(kind_of(signer)), data: Some((100, 6)), tight: true, ..Wanted::default() };
        let mut image = valid_image(random, &wanted).image;
        let signing_key = SigningKey { key: random.bytes(16).try_into().expect("16 bytes"), signer };
        signing_key.sign(&mut image);
        run_changes(&mut image, &signing_key, subject).map_err(|complaint| format!("type {kind}: {complaint}"))?;
    }
    Ok(())
}

/// Every bit of the signature and of the key counts, and every byte of the header; the bytes between signature and header
/// do not.
fn run_changes(image: &mut [u8], signing_key: &SigningKey, subject: Option<&dyn Subject>) -> Result<(), String> {
    check_signed_opening(image, signing_key, 0, subject)?;
    for bit in 0..8 * SIGNATURE_LENGTH {
        image[bit / 8] ^= 1 << (bit % 8);
        check_signed_opening(image, signing_key, 16, subject).map_err(|error| format!("bit {bit}: {error}"))?;
        image[bit / 8] ^= 1 << (bit % 8);
        let mut other = *signing_key;
        other.key[bit / 8] ^= 1 << (bit % 8);
        check_signed_opening(image, &other, 16, subject).map_err(|error| format!("the key's bit {bit}: {error}"))?;
    }
    for place in SIGNATURE_LENGTH..SHORTEST_IMAGE {
        image[place] ^= 0xFF;
        let number = match place {
            _ if place < HEADER => 0,
            _ => open(image).err().map(|refusal| refusal.number()).filter(|number| *number <= 3).unwrap_or(16),
        };
        check_signed_opening(image, signing_key, number, subject).map_err(|error| format!("at {place:#x}: {error}"))?;
        image[place] ^= 0xFF;
    }
    Ok(())
}

/// Signed opening answers this number, and the subject's does the same.
pub fn check_signed_opening(
    image: &[u8],
    signing_key: &SigningKey,
    number: u64,
    subject: Option<&dyn Subject>,
) -> Result<(), String> {
    let SigningKey { key, signer } = signing_key;
    check_opening(number, subject, |library, description| library.open_signed(image, key, signer, description))
}
