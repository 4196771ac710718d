//! Blocks for signing: which signers and images are tried, and what the document prints of a block, place by place.

use super::call::{untouched_buffer, Call, Outcome};
use super::list::compare_subject;
use super::properties::require;
use super::tally::Tally;
use crate::generate::contents::put;
use crate::generate::random::Random;
use crate::generate::signing::choose_signer;
use crate::rules::header::{Kind, DIFF_OPENING, DISA_OPENING, HEADER, LONGEST_IMAGE, SHORTEST_IMAGE};
use crate::rules::session::SESSION_LENGTH;
use crate::rules::sha256::sha256;
use crate::rules::signing::{BlockBytes, SignerNumbers, LONGEST_BLOCK, SIGNER_TYPES};
use crate::subject::{Rules, Subject};

/// What the document prints of one type. An ID stands at 0x08 if there is one.
struct Form {
    opening: &'static [u8; 8],
    length: usize,
    kind: Kind,
    id_length: usize,
    /// Where the header's copy is, or the hash of the inner block.
    header: usize,
    hashed: bool,
}

#[rustfmt::skip]
const FORMS: [Form; SIGNER_TYPES as usize] = [
    Form { opening: b"CTR-NOR0", length: 0x28, kind: Kind::Disa, id_length: 0, header: 0x08, hashed: true },
    Form { opening: b"CTR-SIGN", length: 0x30, kind: Kind::Disa, id_length: 8, header: 0x10, hashed: true },
    Form { opening: b"CTR-SYS0", length: 0x110, kind: Kind::Disa, id_length: 4, header: 0x10, hashed: false },
    Form { opening: b"CTR-EXT0", length: 0x11C, kind: Kind::Diff, id_length: 8, header: 0x1C, hashed: false },
    Form { opening: b"CTR-EXT0", length: 0x11C, kind: Kind::Diff, id_length: 8, header: 0x1C, hashed: false },
    Form { opening: b"CTR-9DB0", length: 0x10C, kind: Kind::Diff, id_length: 4, header: 0x0C, hashed: false },
];
const FILE: u64 = 4;

/// A small image with a header of either kind or nearly so; the rest is noise. Now and then it is too short.
pub fn run_signing_case(random: &mut Random, subject: Option<&dyn Subject>, tally: &mut Tally) -> Result<(), String> {
    let any = random.below(0x400) as usize;
    let length = random.pick(&[SHORTEST_IMAGE, SHORTEST_IMAGE, SHORTEST_IMAGE + any, SHORTEST_IMAGE + any, 0x1FF, any]);
    let mut image = random.bytes(length);
    if length >= HEADER + 8 {
        let opening = choose_opening(random);
        put(&mut image, HEADER, &opening);
    }
    for _ in 0..12 {
        let signer = choose_signer(random);
        for call in [Call::SigningBlock { signer }, Call::SigningDigest { signer }] {
            try_signing(&image, &call, subject, tally)
                .map_err(|complaint| format!("{call} on {length:#x} bytes: {complaint}"))?;
        }
    }
    Ok(())
}

/// Mostly one of the two kinds' openings; else one with a byte changed, one kind's name with the other's version, noise.
fn choose_opening(random: &mut Random) -> [u8; 8] {
    let mut opening = *random.pick(&[DISA_OPENING, DIFF_OPENING]);
    match random.below(10) {
        0 => opening[random.below(8) as usize] ^= 1 << random.below(8),
        1 => opening[6] ^= 7,
        2 => opening = random.number().to_le_bytes(),
        _ => {}
    }
    opening
}

/// The limits of an image's length, with every type on every kind. These images are too long to be copied each time.
pub fn run_length_cases(subject: Option<&dyn Subject>, tally: &mut Tally) -> Result<(), String> {
    let random = &mut Random::new(0);
    let mut image = random.bytes(SHORTEST_IMAGE);
    for length in [SHORTEST_IMAGE, SHORTEST_IMAGE - 1, LONGEST_IMAGE, LONGEST_IMAGE + 1] {
        image.resize(length, 0x55);
        for opening in [DISA_OPENING, DIFF_OPENING, b"DIFF\x00\x00\x04\x00"] {
            put(&mut image, HEADER, opening);
            for kind in 0..SIGNER_TYPES {
                let signer = [kind, random.number(), random.number(), random.number()];
                for call in [Call::SigningBlock { signer }, Call::SigningDigest { signer }] {
                    compare_in_place(&mut image, &call, subject, tally)
                        .map_err(|complaint| format!("{call} on {length:#x} bytes: {complaint}"))?;
                }
            }
        }
    }
    Ok(())
}

fn try_signing(image: &[u8], call: &Call, subject: Option<&dyn Subject>, tally: &mut Tally) -> Result<(), String> {
    let session = [0; SESSION_LENGTH];
    let outcome = call.perform(&Rules, &mut image.to_vec(), &mut session.clone());
    tally.note(call.name(), outcome.answer);
    check_signing(image, call, &outcome)?;
    match subject {
        Some(subject) => compare_subject(subject, call, image, &session, image, &session, &outcome),
        None => Ok(()),
    }
}

fn compare_in_place(
    image: &mut [u8],
    call: &Call,
    subject: Option<&dyn Subject>,
    tally: &mut Tally,
) -> Result<(), String> {
    let mut session = [0; SESSION_LENGTH];
    let outcome = call.perform(&Rules, image, &mut session);
    tally.note(call.name(), outcome.answer);
    check_signing(image, call, &outcome)?;
    let Some(subject) = subject else { return Ok(()) };
    let other = call.perform(subject, image, &mut session);
    require(other == outcome, || format!("the subject answered {:#x}, or differs in its bytes", other.answer))
}

/// Checks what a call for a block or its digest gave; of any other call there is nothing to say.
pub fn check_signing(image: &[u8], call: &Call, outcome: &Outcome) -> Result<(), String> {
    let Some(signer) = call.signer() else { return Ok(()) };
    let (block, length) = block_by_places(image, signer);
    let (answer, buffer) = match (expected_refusal(image, signer), call) {
        (0, Call::SigningBlock { .. }) => ((length as u64) << 8, block.to_vec()),
        (0, _) => (0, sha256(&block[..length]).to_vec()),
        (number, _) => (number, untouched_buffer(call.buffer_length())),
    };
    require(outcome.answer == answer, || format!("answered {:#x}, not {answer:#x}", outcome.answer))?;
    let place = (0..buffer.len()).find(|place| outcome.buffer[*place] != buffer[*place]);
    require(place.is_none(), || format!("the byte at {:#x} is wrong", place.unwrap_or(0)))
}

fn form(signer: SignerNumbers) -> &'static Form {
    &FORMS[(signer[0] % SIGNER_TYPES) as usize]
}

/// The kind of container that a signer signs.
pub fn kind_of(signer: SignerNumbers) -> Kind {
    form(signer).kind
}

/// 1, 2, 15 in that order, or 0: nothing else of an image is judged.
pub fn expected_refusal(image: &[u8], signer: SignerNumbers) -> u64 {
    if !(SHORTEST_IMAGE..=LONGEST_IMAGE).contains(&image.len()) {
        return 1;
    }
    let opening = &image[HEADER..HEADER + 8];
    if opening != DISA_OPENING && opening != DIFF_OPENING {
        return 2;
    }
    let fits = (opening == DISA_OPENING) == (kind_of(signer) == Kind::Disa);
    if fits {
        0
    } else {
        15
    }
}

/// The block, its fields put at their places into zeros, and its length. An image that is too short has none.
pub fn block_by_places(image: &[u8], signer: SignerNumbers) -> (BlockBytes, usize) {
    let [_, id, name, directory] = signer;
    let form = form(signer);
    let mut block = [0; LONGEST_BLOCK];
    let Some(header) = image.get(HEADER..SHORTEST_IMAGE) else { return (block, 0) };
    put(&mut block, 0x00, form.opening);
    put(&mut block, 0x08, &id.to_le_bytes()[..form.id_length]);
    if signer[0] % SIGNER_TYPES == FILE {
        put(&mut block, 0x10, &1u32.to_le_bytes());
        put(&mut block, 0x14, &name.to_le_bytes()[..4]);
        put(&mut block, 0x18, &directory.to_le_bytes()[..4]);
    }
    if form.hashed {
        let mut inner = [0; 0x108];
        put(&mut inner, 0x00, b"CTR-SAV0");
        put(&mut inner, 0x08, header);
        put(&mut block, form.header, &sha256(&inner));
    } else {
        put(&mut block, form.header, header);
    }
    (block, form.length)
}
