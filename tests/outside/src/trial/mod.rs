//! Random cases: lists of calls on valid images, the same with digests of zeros, damaged images, images with random changes,
//! signatures, blocks for signing, running digests, blank images, and names inside saves. Trials that are the same in every
//! check are in `fixed`.

pub mod blank;
pub mod call;
mod digest;
pub mod faults;
pub mod fixed;
mod forged;
mod fresh;
mod full_bits;
mod leftovers;
pub mod list;
pub mod names;
mod power;
pub mod properties;
mod reverts;
mod rows;
pub mod saves;
mod signatures;
mod signing;
pub mod tally;
pub mod term;
mod zero_digests;

use crate::description::Description;
use crate::generate::damage::{any_damage, damaged_image, mutate, patient};
use crate::generate::random::Random;
use crate::generate::shape::Wanted;
use crate::generate::signing::SigningKey;
use crate::generate::{valid_image, Sample};
use crate::model::Version;
use crate::rules::dpfs::View;
use crate::rules::opening::{open, Opened};
use crate::rules::session::{Session, SessionBytes, SESSION_LENGTH};
use crate::subject::{Rules, Subject};
use blank::run_blank_case;
use call::{Call, Outcome, CALL_KINDS, UNTOUCHED_DESCRIPTION};
use digest::run_digest_case;
use list::{compare_subject, List};
use properties::require;
use saves::run_save_case;
use signatures::signed_answer;
use signing::{check_signing, run_signing_case};
use tally::Tally;

/// Runs the case of this seed; the complaint says what went wrong.
pub fn run_case(seed: u64, subject: Option<&dyn Subject>, tally: &mut Tally) -> Result<(), String> {
    let random = &mut Random::new(seed);
    match random.below(100) {
        0..=9 => run_save_case(random, subject, tally),
        10..=54 => {
            let sample = valid_image(random, &Wanted::default());
            let calls = random.between(1, 30);
            List::new(random, sample, subject, tally).run(random, calls)
        }
        55..=60 => zero_digests::run_case(random, subject, tally),
        61..=73 => {
            let damage = any_damage(random);
            let image = damaged_image(random, &damage).image;
            refused_image(random, image, damage.number, subject, tally)
                .map_err(|complaint| format!("{}: {complaint}", damage.name))
        }
        74..=83 => {
            let mut patient = patient(random, &Wanted::default());
            mutate(random, &mut patient);
            any_image(random, patient.image, subject, tally)
        }
        84..=86 => {
            let length = random.pick(&[0, 1, 0x100, 0x1FF, 0x200, 0x201, 0x400, 3000]);
            let image = random.bytes(length);
            any_image(random, image, subject, tally)
        }
        87..=92 => run_signing_case(random, subject, tally),
        93..=97 => run_digest_case(random, subject, tally),
        _ => run_blank_case(random, subject, tally),
    }
}

/// A way of opening answers this number, and the subject's does the same.
fn check_opening(
    number: u64,
    subject: Option<&dyn Subject>,
    opening: impl Fn(&dyn Subject, &mut Description) -> u64,
) -> Result<(), String> {
    let mut described = UNTOUCHED_DESCRIPTION;
    let answer = opening(&Rules, &mut described);
    require(answer == number, || format!("opening answered {answer:#x}, not {number}"))?;
    let Some(subject) = subject else { return Ok(()) };
    let mut other = UNTOUCHED_DESCRIPTION;
    let answer = opening(subject, &mut other);
    require(answer == number, || format!("the subject's opening answered {answer:#x}, not {number}"))?;
    require(described == other, || "the subject's description differs".into())
}

/// An image of which nothing is known: the answers must agree, and if it opens, the rules hold for it too.
fn any_image(
    random: &mut Random,
    image: Vec<u8>,
    subject: Option<&dyn Subject>,
    tally: &mut Tally,
) -> Result<(), String> {
    match open(&image) {
        Ok(opened) => {
            let sample = sample_of(image, opened);
            List::new(random, sample, subject, tally).run(random, 6)
        }
        Err(refusal) => refused_image(random, image, refusal.number(), subject, tally),
    }
}

/// What the committed view of an image shows.
fn sample_of(image: Vec<u8>, opened: Opened) -> Sample {
    let views = || opened.partitions.iter().map(|partition| View::committed(&image, &opened, partition));
    let versions = views().map(|view| Version { bytes: view.data(), verified: view.verified_blocks(4) }).collect();
    let hash_verified = views().map(|view| [1, 2, 3].map(|level| view.verified_blocks(level))).collect();
    Sample { image, opened, versions, hash_verified }
}

/// Every call but abandon, signed opening and the ones for signing answers opening's `number`, whatever its arguments and
/// session, and changes nothing. Most of the images are signed as they are.
fn refused_image(
    random: &mut Random,
    mut image: Vec<u8>,
    number: u64,
    subject: Option<&dyn Subject>,
    tally: &mut Tally,
) -> Result<(), String> {
    let signing_key = SigningKey::choose(random, &image);
    if random.chance(80) {
        signing_key.sign(&mut image);
    }
    for kind in 0..CALL_KINDS {
        let call = Call::of_kind(random, &image, None, &signing_key, kind);
        let session = choose_session(random, &image);
        try_refused(&image, session, &call, number, subject, tally)?;
    }
    Ok(())
}

/// One call on an image to which opening answers `number`.
fn try_refused(
    image: &[u8],
    session_before: SessionBytes,
    call: &Call,
    number: u64,
    subject: Option<&dyn Subject>,
    tally: &mut Tally,
) -> Result<(), String> {
    let mut after = image.to_vec();
    let mut session = session_before;
    let outcome = call.perform(&Rules, &mut after, &mut session);
    tally.note(call.name(), outcome.answer);
    if let Some(subject) = subject {
        compare_subject(subject, call, image, &session_before, &after, &session, &outcome)?;
    }
    let answered = |number: u64| {
        require(outcome.answer == number, || format!("{call} answered {:#x}, not {number}", outcome.answer))
    };
    match call {
        Call::Abandon => answered(if session_before[0] == 0 { 13 } else { 0 })?,
        Call::OpenSigned { signing_key } => answered(signed_answer(image, signing_key, number))?,
        Call::SigningBlock { .. } | Call::SigningDigest { .. } => {
            check_signing(image, call, &outcome).map_err(|complaint| format!("{call}: {complaint}"))?;
        }
        _ => answered(number)?,
    }
    let handed_back =
        matches!(call, Call::Abandon) || outcome.accepted() || outcome == Outcome::refused(call, outcome.answer);
    require(handed_back, || format!("{call} changed what it was lent"))?;
    let may_change = matches!(call, Call::Abandon);
    require(may_change || session == session_before, || format!("{call} changed the session"))?;
    require(after == image, || format!("{call} changed the image"))
}

/// Idle, begun with the image's header if it has one, or noise.
fn choose_session(random: &mut Random, image: &[u8]) -> SessionBytes {
    let mut session = [0; SESSION_LENGTH];
    match random.below(3) {
        0 => {}
        1 if image.len() >= 0x200 => session = Session::begun(image).to_bytes(),
        _ => session.copy_from_slice(&random.bytes(SESSION_LENGTH)),
    }
    session
}
