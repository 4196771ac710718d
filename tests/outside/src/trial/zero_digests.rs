//! Digests of zeros: lists of calls under a stand-in for the hash of blocks, which gives zeros for some messages. A
//! library that hashes for itself is not asked.

use super::list::List;
use super::tally::Tally;
use crate::generate::random::Random;
use crate::generate::shape::Wanted;
use crate::generate::valid_image;
use crate::rules::block_hash::with_stand_in;
use crate::subject::Subject;

const CASES: u64 = 60;

/// As many lists as it takes to meet a digest of zeros on every level.
pub fn run(subject: Option<&dyn Subject>, tally: &mut Tally) -> Result<(), String> {
    for seed in 0..CASES {
        run_case(&mut Random::new(seed), subject, tally).map_err(|complaint| format!("seed {seed}: {complaint}"))?;
    }
    Ok(())
}

/// A list on an image that is built under the stand-in too.
pub fn run_case(random: &mut Random, subject: Option<&dyn Subject>, tally: &mut Tally) -> Result<(), String> {
    let zeroed = random.pick(&[2, 8, 30]);
    with_stand_in(zeroed, || {
        let data = (random.between(1, 900), random.between(5, 7));
        let sample = valid_image(random, &Wanted { data: Some(data), ..Wanted::default() });
        let calls = random.between(10, 40);
        List::new(random, sample, subject.filter(|subject| subject.takes_stand_in()), tally).run(random, calls)
    })
}
