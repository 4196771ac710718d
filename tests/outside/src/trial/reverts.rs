//! Steps back: after plain and signed commits, straight and after other calls, by the session that committed and by
//! another one.

use super::call::Call;
use super::list::List;
use super::tally::Tally;
use crate::generate::random::Random;
use crate::generate::shape::Wanted;
use crate::generate::signing::SigningKey;
use crate::generate::valid_image;
use crate::subject::Subject;

const IMAGES: u64 = 20;

pub fn run(subject: Option<&dyn Subject>, tally: &mut Tally) -> Result<(), String> {
    for seed in 0..IMAGES {
        let random = &mut Random::new(seed);
        let size = random.between(1, 1000);
        let wanted = Wanted { data: Some((size, random.between(5, 8))), ..Wanted::default() };
        let sample = valid_image(random, &wanted);
        let signing_key = SigningKey::choose(random, &sample.image);
        let partition = random.below(sample.opened.partitions.len() as u64);
        let calls = steps(random, &signing_key, partition, size);
        List::new(random, sample, subject, tally)
            .run_sessions(calls)
            .map_err(|complaint| format!("seed {seed}: {complaint}"))?;
    }
    Ok(())
}

/// Every way to commit with every way back, and between them nothing, or something that may bar the way.
fn steps(random: &mut Random, signing_key: &SigningKey, partition: u64, size: u64) -> Vec<(usize, Call)> {
    const OWN: usize = 0;
    const OTHER: usize = 1;
    let commits = [Call::Commit, Call::CommitSigned { signing_key: *signing_key }];
    let ways_back = [Call::Revert, Call::RevertSigned { signing_key: *signing_key }];
    let all = Call::ReadCommitted { partition, place: 0, length: size as usize };
    let between = [
        vec![],
        vec![(OWN, all.clone()), (OTHER, Call::Open)],
        vec![(OTHER, Call::Revert)],
        vec![(OWN, Call::Begin), (OWN, Call::Abandon)],
        vec![(OTHER, Call::Begin)],
        vec![(OTHER, Call::Begin), (OTHER, Call::Commit)],
    ];
    let mut calls = Vec::new();
    for commit in &commits {
        for way_back in &ways_back {
            for barred in &between {
                let write = Call::Write { partition, place: 0, data: random.bytes(size as usize) };
                calls.extend([Call::Begin, write, way_back.clone(), commit.clone()].map(|call| (OWN, call)));
                calls.extend(barred.iter().cloned());
                calls.extend([way_back, way_back, &all].map(|call| (OWN, call.clone())));
                calls.push((OTHER, Call::Abandon));
            }
        }
    }
    calls
}
