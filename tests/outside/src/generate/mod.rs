//! Images to try the rules on: valid ones of every allowed shape, and damaged ones with one rule broken.

pub mod contents;
pub mod damage;
pub mod random;
pub mod samples;
pub mod saves;
pub mod shape;
pub mod signing;

use crate::model::Version;
use crate::rules::opening::Opened;
use random::Random;
use shape::Wanted;

/// A valid image, and what is known of it because it was built that way.
#[derive(Clone, Debug)]
pub struct Sample {
    pub image: Vec<u8>,
    /// What opening must say.
    pub opened: Opened,
    /// The committed level 4 of each partition: its bytes and which blocks are verified.
    pub versions: Vec<Version>,
    /// Which blocks of each partition's levels 1 to 3 are verified.
    pub hash_verified: Vec<[Vec<bool>; 3]>,
}

/// A valid image with the wanted properties; the rest is left to chance.
pub fn valid_image(random: &mut Random, wanted: &Wanted) -> Sample {
    let (opened, length) = shape::choose(random, wanted);
    contents::build(random, wanted, opened, length)
}
