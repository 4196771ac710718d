//! Runs of many sessions against the plain list of versions, and proof that a wrong list is found out.

use outside::history::{Book, First, History};
use outside::model::Version;
use outside::subject::Rules;
use outside::trial::tally::Tally;
use outside::trial::term::{run_term, run_term_by};

#[test]
fn the_list_of_versions_is_followed() {
    let mut tally = Tally::default();
    for seed in 1..=400 {
        run_term(seed, Some(&Rules), &mut tally).unwrap_or_else(|complaint| panic!("seed {seed}: {complaint}"));
    }
    let terms = tally.terms;
    assert!(terms.commits > 0 && terms.reverts > 0 && terms.zero_digests > 0);
    assert!(terms.cut_before_landing > 0 && terms.cut_after_landing > 0);
    assert!(terms.cuts > terms.cut_before_landing);
}

#[derive(Clone, Copy, Debug, PartialEq)]
enum Slip {
    CutKeepsMemory,
    CutCommits,
    CutRemovesNewest,
    BeginKeepsMemory,
    BeginStartsFromOldest,
    CommitAppendsNothing,
    RevertRemovesNothing,
    RevertRemovesTwo,
    RevertKeepsMemory,
    ForgetsWhatIsVerified,
    WritesAllPartitions,
    LosesWrites,
}

const SLIPS: [Slip; 12] = [
    Slip::CutKeepsMemory,
    Slip::CutCommits,
    Slip::CutRemovesNewest,
    Slip::BeginKeepsMemory,
    Slip::BeginStartsFromOldest,
    Slip::CommitAppendsNothing,
    Slip::RevertRemovesNothing,
    Slip::RevertRemovesTwo,
    Slip::RevertKeepsMemory,
    Slip::ForgetsWhatIsVerified,
    Slip::WritesAllPartitions,
    Slip::LosesWrites,
];

/// The history with one slip. It keeps the memory itself.
struct Wrong {
    slip: Slip,
    first: First,
    history: History,
    remembers: bool,
}

impl Wrong {
    fn new(slip: Slip, mut first: First) -> Wrong {
        if slip == Slip::ForgetsWhatIsVerified {
            first.iter_mut().flatten().for_each(|(_, version)| version.verified.fill(true));
        }
        Wrong { slip, history: History::new(first.clone()), first, remembers: false }
    }
}

impl Book for Wrong {
    fn newest(&self, partition: usize) -> Option<&Version> {
        self.history.newest(partition)
    }

    fn staged(&self, partition: usize) -> Option<&Version> {
        match self.slip {
            Slip::BeginStartsFromOldest => self.first[partition].as_ref().map(|(_, version)| version),
            _ => self.history.staged(partition),
        }
    }

    fn remembers(&self) -> bool {
        self.remembers
    }

    fn begin(&mut self) {
        self.remembers &= self.slip == Slip::BeginKeepsMemory;
        self.history.begin();
    }

    fn write(&mut self, partition: usize, place: usize, data: &[u8]) {
        match self.slip {
            Slip::LosesWrites => {}
            Slip::WritesAllPartitions => {
                for number in 0..self.first.len() {
                    let size = self.history.staged(number).map_or(0, |version| version.bytes.len());
                    if place + data.len() <= size {
                        self.history.write(number, place, data);
                    }
                }
            }
            _ => self.history.write(partition, place, data),
        }
    }

    fn abandon(&mut self) {
        self.history.abandon();
    }

    fn land_commit(&mut self) {
        self.remembers = true;
        match self.slip {
            Slip::CommitAppendsNothing => self.history.abandon(),
            _ => self.history.land_commit(),
        }
    }

    fn land_revert(&mut self) {
        self.remembers = self.slip == Slip::RevertKeepsMemory;
        let removed = match self.slip {
            Slip::RevertRemovesNothing => 0,
            Slip::RevertRemovesTwo => 2,
            _ => 1,
        };
        (0..removed).for_each(|_| self.history.land_revert());
    }

    fn cut(&mut self) {
        self.remembers &= self.slip == Slip::CutKeepsMemory;
        match self.slip {
            Slip::CutCommits => self.history.land_commit(),
            Slip::CutRemovesNewest => self.history.land_revert(),
            _ => {}
        }
        self.history.cut();
    }
}

#[test]
fn every_slip_is_found() {
    for slip in SLIPS {
        let found = (1..=200).any(|seed| {
            run_term_by(seed, None, &mut Tally::default(), &|first| Box::new(Wrong::new(slip, first))).is_err()
        });
        assert!(found, "{slip:?} was not noticed");
    }
}
