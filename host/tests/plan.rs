//! What a commit stores before its header lies in free bytes: changed in any way, they leave every answer about what is
//! committed as it was. The library's own answers judge.

mod support;

use std::collections::BTreeSet;

use support::{answers, description, sample, signer_for, BlockName, Random, SAMPLES};
use teplovist::{free_ranges, plan, Image, Key, Kind, Partition, Plan, Refusal, Run, Session, FRONT_SIZE};

const SESSIONS_PER_IMAGE: u64 = 12;
const BLANKS: [(Kind, u64); 3] = [(Kind::Disa, 1), (Kind::Diff, 7), (Kind::Disa, 40)];
const HEADER_ALONE: Run = Run { place: 0x100, length: 0x100 };
const FIRST_SECTOR: Run = Run { place: 0, length: 0x200 };

/// The samples, blank images, and all of them with some blocks damaged.
fn images() -> Vec<Vec<u8>> {
    let blanks =
        BLANKS.map(|(kind, blocks)| Image::blank(kind, blocks).expect("so many blocks are allowed").into_inner());
    let whole: Vec<_> = SAMPLES.iter().map(|name| sample(name)).chain(blanks).collect();
    let damaged: Vec<_> = (1..).zip(&whole).map(|(seed, image)| damaged(image, &mut Random::new(seed))).collect();
    [whole, damaged].concat()
}

/// Flips some bytes, so that the image still opens and something is not verified.
fn damaged(image: &[u8], random: &mut Random) -> Vec<u8> {
    loop {
        let mut spoiled = image.to_vec();
        for _ in 0..3 {
            let past_the_front = random.below((image.len() - FRONT_SIZE) as u64) as usize;
            spoiled[FRONT_SIZE + past_the_front] ^= 0x10;
        }
        if Image::new(&spoiled).faults().is_ok_and(|faults| !faults.is_empty()) {
            return spoiled;
        }
    }
}

/// A session that is staged, and which blocks it wrote in place.
struct Staged {
    image: Image<Vec<u8>>,
    session: Session,
    in_place: BTreeSet<BlockName>,
}

impl Staged {
    fn begin(before: &[u8]) -> Staged {
        let mut staged =
            Staged { image: Image::new(before.to_vec()), session: Session::new(), in_place: BTreeSet::new() };
        staged.image.begin(&mut staged.session).expect("the session is idle");
        staged
    }

    /// Writes somewhere. Only a block that is covered in part and not verified may be in the way.
    fn write_somewhere(&mut self, random: &mut Random) {
        let layouts: Vec<_> =
            description(self.image.bytes()).partitions().map(|(name, layout)| (name, *layout)).collect();
        let (partition, layout) = layouts[random.below(layouts.len() as u64) as usize];
        let level = layout.level4();
        let place = random.below(level.size);
        let length = 1 + random.below((level.size - place).min(3 * level.block_size()));
        let data = random.bytes(length as usize);
        match self.image.write(&mut self.session, partition, place, &data) {
            Ok(()) if layout.external.is_some() => {
                let touched = place / level.block_size()..=(place + length - 1) / level.block_size();
                self.in_place.extend(touched.map(|block| (partition, block)));
            }
            Ok(()) | Err(Refusal::Unverified { .. }) => {}
            Err(other) => panic!("a write was refused: {other}"),
        }
    }
}

/// The image after the planned stores.
fn carried_out(planned: &Plan, before: &[u8], after: &[u8]) -> Vec<u8> {
    let mut stored = before.to_vec();
    for run in planned.runs.iter().chain(&planned.front) {
        stored[run.range()].copy_from_slice(&after[run.range()]);
    }
    stored
}

/// For each byte whether it is free, or is one of the blocks that were written in place.
fn allowed(before: &[u8], in_place: &BTreeSet<BlockName>) -> Vec<bool> {
    let mut ranges = free_ranges(&Image::new(before)).expect("the image opens");
    for (partition, block) in in_place {
        let opened = description(before);
        let layout = opened.partition(*partition).expect("it was written to");
        let external = layout.external_extent().expect("it was written in place");
        ranges.push(layout.level4().block(*block).shifted(external.offset));
    }
    let mut allowed = vec![false; before.len()];
    for range in ranges {
        allowed[range.offset as usize..range.end() as usize].fill(true);
    }
    allowed
}

/// Ways to change the bytes of a run: all bits, anything, every other byte, and to zero.
const NOISES: [fn(&mut u8, &mut Random); 4] = [
    |byte, _| *byte ^= 0xFF,
    |byte, random| *byte = random.number() as u8,
    |byte, random| *byte ^= if random.below(2) == 0 { 0xFF } else { 0 },
    |byte, _| *byte = 0,
];

fn check_runs(planned: &Plan, before: &[u8], in_place: &BTreeSet<BlockName>, random: &mut Random) {
    let allowed = allowed(before, in_place);
    for run in &planned.runs {
        assert!(run.range().all(|place| allowed[place]), "{run:?} has a byte that is not free");
    }
    let expected = answers(before, in_place).expect("the image opens");
    for noise in NOISES {
        let mut spoiled = before.to_vec();
        for run in &planned.runs {
            spoiled[run.range()].iter_mut().for_each(|byte| noise(byte, random));
        }
        assert_eq!(answers(&spoiled, in_place).as_ref(), Ok(&expected));
    }
}

/// A session of some writes and a commit, plain or signed: its plan is checked. Gives the image after it, and the
/// session.
fn checked_session(before: &[u8], signed: bool, random: &mut Random) -> (Vec<u8>, Session) {
    let mut staged = Staged::begin(before);
    for _ in 0..1 + random.below(4) {
        staged.write_somewhere(random);
    }
    let Staged { mut image, mut session, in_place } = staged;
    if signed {
        image.commit_signed(&mut session, &Key::new([9; 16]), &signer_for(before)).expect("the session fits");
    } else {
        image.commit(&mut session).expect("the session fits");
    }
    let after = image.into_inner();
    let planned = plan(before, &after);
    assert_eq!(planned.front, Some(if signed { FIRST_SECTOR } else { HEADER_ALONE }));
    assert_eq!(carried_out(&planned, before, &after), after);
    check_runs(&planned, before, &in_place, random);
    (after, session)
}

#[test]
fn runs_before_the_header_lie_in_free_bytes() {
    for (seed, mut image) in (1..).zip(images()) {
        let mut random = Random::new(seed);
        for turn in 0..SESSIONS_PER_IMAGE {
            (image, _) = checked_session(&image, turn % 3 == 2, &mut random);
        }
    }
}

#[test]
fn a_revert_stores_nothing_but_its_front() {
    for (seed, before) in (1..).zip(images()) {
        let (committed, mut session) = checked_session(&before, false, &mut Random::new(seed));
        let mut plain = Image::new(committed.clone());
        plain.revert(&mut session.clone()).expect("it was just committed");
        assert_eq!(plan(&committed, plain.bytes()), Plan { runs: vec![], front: Some(HEADER_ALONE) });

        let mut signed = Image::new(committed.clone());
        let signer = signer_for(&before);
        signed.revert_signed(&mut session, &Key::new([9; 16]), &signer).expect("it was just committed");
        assert_eq!(plan(&committed, signed.bytes()), Plan { runs: vec![], front: Some(FIRST_SECTOR) });
    }
}

/// What judges the runs must notice a byte that is not free: the live copy of data is one.
#[test]
fn a_spoiled_live_byte_is_noticed() {
    const MARK: &[u8] = b"to be found";
    for name in SAMPLES {
        let mut image = Image::new(sample(name));
        let mut session = Session::new();
        // The whole first block, since not every sample's is verified.
        let mut block = vec![0; description(image.bytes()).a.level4().block(0).size as usize];
        block[..MARK.len()].copy_from_slice(MARK);
        image.begin(&mut session).expect("the session is idle");
        image.write(&mut session, Partition::A, 0, &block).expect("it covers the block");
        image.commit(&mut session).expect("the session fits");
        let before = image.into_inner();
        let place = before.windows(MARK.len()).position(|bytes| bytes == MARK).expect("it was written");

        let expected = answers(&before, &BTreeSet::new()).expect("the image opens");
        let mut spoiled = before.clone();
        spoiled[place] ^= 1;
        assert_ne!(answers(&spoiled, &BTreeSet::new()), Ok(expected));
        assert!(!allowed(&before, &BTreeSet::new())[place]);
    }
}
