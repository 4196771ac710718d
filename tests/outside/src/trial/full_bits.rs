//! Images whose levels of bits have no bit to spare: DPFS level 2 has exactly 8 x size blocks for level 1's size, and level 3
//! as many for level 2's. They open and take sessions; one block more in either level is refusal 7.

use super::check_opening;
use super::list::List;
use super::tally::Tally;
use crate::generate::damage::{add_block, Patient};
use crate::generate::random::Random;
use crate::generate::shape::Wanted;
use crate::generate::valid_image;
use crate::subject::Subject;

const CASES: u64 = 20;
const CALLS: u64 = 30;

pub fn run(subject: Option<&dyn Subject>, tally: &mut Tally) -> Result<(), String> {
    for seed in 0..CASES {
        run_case(&mut Random::new(seed), subject, tally).map_err(|complaint| format!("seed {seed}: {complaint}"))?;
    }
    Ok(())
}

fn run_case(random: &mut Random, subject: Option<&dyn Subject>, tally: &mut Tally) -> Result<(), String> {
    let data = (random.between(1, 2000), random.between(5, 9));
    let wanted = Wanted { full_bits: true, data: Some(data), spare: Some(5), ..Wanted::default() };
    let sample = valid_image(random, &wanted);
    for target in 0..sample.opened.partitions.len() {
        for level in [2, 3] {
            let mut patient = Patient { image: sample.image.clone(), opened: sample.opened.clone(), target };
            add_block(&mut patient, level);
            check_opening(7, subject, |library, description| library.open(&patient.image, description)).map_err(
                |complaint| format!("one block more in DPFS level {level} of partition {target}: {complaint}"),
            )?;
        }
    }
    List::new(random, sample, subject, tally).run(random, CALLS)
}
