//! Trials that every check makes, whatever its seed.

use super::digest::run_long_message;
use super::signatures::{check_signed_opening, run_signature_cases};
use super::signing::run_length_cases;
use super::tally::Tally;
use super::{blank, check_opening, faults, fresh, full_bits, leftovers, refused_image, reverts, saves, zero_digests};
use crate::generate::damage::{damaged_image, DAMAGES};
use crate::generate::random::Random;
use crate::generate::shape::Wanted;
use crate::generate::signing::SigningKey;
use crate::generate::valid_image;
use crate::rules::header::LONGEST_IMAGE;
use crate::subject::names::Names;
use crate::subject::Subject;

/// A trial with a name, so that it can be made alone.
#[derive(Clone, Copy)]
pub struct FixedTrial {
    pub name: &'static str,
    run: fn(Option<&dyn Subject>, &mut Tally) -> Result<(), String>,
}

pub const FIXED_TRIALS: &[FixedTrial] = &[
    FixedTrial { name: "damages", run: run_damages },
    FixedTrial { name: "full-bits", run: full_bits::run },
    FixedTrial { name: "faults", run: faults::run },
    FixedTrial { name: "fresh", run: fresh::run },
    FixedTrial { name: "reverts", run: reverts::run },
    FixedTrial { name: "zero-digests", run: zero_digests::run },
    FixedTrial { name: "leftovers", run: leftovers::run },
    FixedTrial { name: "longest-image", run: run_longest_image },
    FixedTrial { name: "signing-lengths", run: run_length_cases },
    FixedTrial { name: "signatures", run: |subject, _| run_signature_cases(subject) },
    FixedTrial { name: "long-message", run: run_long_message },
    FixedTrial { name: "blank", run: blank::run },
    FixedTrial { name: "saves", run: |subject, tally| saves::run(subject.map(|subject| subject as &dyn Names), tally) },
];

impl FixedTrial {
    pub fn run(&self, subject: Option<&dyn Subject>, tally: &mut Tally) -> Result<(), String> {
        (self.run)(subject, tally).map_err(|complaint| format!("{}: {complaint}", self.name))
    }
}

/// All of them.
pub fn run_fixed_cases(subject: Option<&dyn Subject>, tally: &mut Tally) -> Result<(), String> {
    FIXED_TRIALS.iter().try_for_each(|trial| trial.run(subject, tally))
}

/// How often each damage is tried, so that each of its values comes up.
const TRIES_OF_EACH_DAMAGE: u64 = 40;

fn run_damages(subject: Option<&dyn Subject>, tally: &mut Tally) -> Result<(), String> {
    let random = &mut Random::new(0);
    for damage in DAMAGES.iter().flat_map(|damage| (0..TRIES_OF_EACH_DAMAGE).map(move |_| damage)) {
        let image = damaged_image(random, damage).image;
        refused_image(random, image, damage.number, subject, tally)
            .map_err(|complaint| format!("{}: {complaint}", damage.name))?;
    }
    Ok(())
}

/// An image of the longest length, and one that is a byte longer.
fn run_longest_image(subject: Option<&dyn Subject>, _: &mut Tally) -> Result<(), String> {
    let random = &mut Random::new(0);
    let mut image = valid_image(random, &Wanted::default()).image;
    let signing_key = SigningKey::choose(random, &image);
    signing_key.sign(&mut image);
    for (length, number) in [(LONGEST_IMAGE, 0), (LONGEST_IMAGE + 1, 1)] {
        image.resize(length, 0x55);
        check_opening(number, subject, |library, description| library.open(&image, description))
            .and_then(|()| check_signed_opening(&image, &signing_key, number, subject))
            .map_err(|complaint| format!("length {length:#x}: {complaint}"))?;
    }
    Ok(())
}
