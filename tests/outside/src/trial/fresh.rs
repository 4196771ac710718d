//! First writes on fresh ground: images of which little or nothing was ever written, and on each of them writes of one
//! byte, of a block, of several blocks and of all of level 4, committed and read back.

use super::call::Call;
use super::list::List;
use super::tally::Tally;
use crate::generate::random::Random;
use crate::generate::shape::Wanted;
use crate::generate::valid_image;
use crate::subject::Subject;

const IMAGES: u64 = 60;

pub fn run(subject: Option<&dyn Subject>, tally: &mut Tally) -> Result<(), String> {
    for seed in 0..IMAGES {
        let random = &mut Random::new(seed);
        let data = (random.between(1, 2000), random.between(5, 9));
        let wanted = Wanted { fresh: Some(true), data: Some(data), spare: Some(20), ..Wanted::default() };
        let sample = valid_image(random, &wanted);
        let partition = random.below(sample.opened.partitions.len() as u64);
        let calls = first_writes(random, partition, data.0, 1 << data.1);
        List::new(random, sample, subject, tally)
            .run_sessions(calls.into_iter().map(|call| (0, call)).collect())
            .map_err(|complaint| format!("seed {seed}: {complaint}"))?;
    }
    Ok(())
}

fn first_writes(random: &mut Random, partition: u64, size: u64, block_size: u64) -> Vec<Call> {
    let blocks = size.div_ceil(block_size);
    let [one, first, last] = [(); 3].map(|()| random.below(blocks));
    let mut write = |from: u64, to: u64| {
        let length = size.min(to) - from;
        Call::Write { partition, place: from, data: random.bytes(length as usize) }
    };
    let whole = (0, size);
    let block = (one * block_size, (one + 1) * block_size);
    let several = (first.min(last) * block_size, (first.max(last) + 1) * block_size);
    let byte = (size - 1, size);
    let read_staged = Call::ReadStaged { partition, place: 0, length: size as usize };
    let read_committed = Call::ReadCommitted { partition, place: 0, length: size as usize };
    let mut calls = Vec::new();
    for (from, to) in [byte, block, several, byte, whole] {
        let middle = write(from, to);
        calls.extend([Call::Begin, middle, read_staged.clone(), Call::Faults { room: 9 }, write(0, 1), Call::Commit]);
        calls.extend([read_committed.clone(), Call::CountVerified { partition }, Call::Faults { room: 9 }]);
    }
    calls
}
