//! How often each call gave each answer, so that a run shows what it has tried.

use super::properties::rebuilt_extent;
use crate::rules::calls::blocks_of;
use crate::rules::opening::Partition;

pub const CALLS: [&str; 22] = [
    "open",
    "read committed",
    "read staged",
    "verified",
    "count verified",
    "begin",
    "write",
    "commit",
    "abandon",
    "signing block",
    "signing digest",
    "open signed",
    "commit signed",
    "faults",
    "revert",
    "revert signed",
    "digest start",
    "digest feed",
    "digest finish",
    "make blank",
    "list names",
    "find file",
];

/// One more than the highest number of a refusal.
pub const NUMBERS: usize = 23;

#[derive(Clone, Debug, Default)]
pub struct Tally {
    /// By call and refusal number; 0 is accepted.
    pub answers: [[u64; NUMBERS]; CALLS.len()],
    pub power_failures: u64,
    /// Accepted reverts of the commit that was the last one, with nothing changed since.
    pub reverted: u64,
    /// Accepted writes in which a level 3 block had moved already, so that it must be left alone.
    pub writes_upon_writes: u64,
    /// Accepted writes that reach an entry of the master hash other than the first.
    pub later_entries: u64,
    /// Accepted calls over blocks that may be hashed side by side.
    pub rows: u64,
    /// Hash blocks that writes have rebuilt, by level; those that lie in several blocks of DPFS level 3; those that end short.
    pub rebuilt: [u64; 3],
    pub rebuilt_across: u64,
    pub rebuilt_short: u64,
    /// Blocks that were written in place and are, before the commit, not verified in the committed view, and ones that are.
    pub in_place: [u64; 2],
    /// Writes that met a digest of zeros, by the level of the block that has it.
    pub zero_digests: [u64; 4],
    pub other_kind: OtherKind,
    pub terms: Terms,
}

/// Steps back to a header of the other kind under which the image opens, which a forged session remembers; by the kind of
/// that header, DISA or DIFF.
#[derive(Clone, Debug, Default)]
pub struct OtherKind {
    /// Accepted, without a signature.
    pub plain: [u64; 2],
    /// Accepted, with a signer of the kind that comes back.
    pub signed: [u64; 2],
    /// Refused with 15, with a signer of the kind that is there.
    pub refused: [u64; 2],
}

/// What the runs of many sessions have met.
#[derive(Clone, Debug, Default)]
pub struct Terms {
    /// Headers that have landed.
    pub commits: u64,
    pub reverts: u64,
    /// Power failures; those before a header landed, which are among them; those as soon as one had.
    pub cuts: u64,
    pub cut_before_landing: u64,
    pub cut_after_landing: u64,
    pub zero_digests: u64,
}

impl Tally {
    pub fn note(&mut self, call: &str, answer: u64) {
        self.answers[row(call)][(answer & 0xFF) as usize] += 1;
    }

    pub fn note_rebuilt(&mut self, partition: &Partition, rebuilt: &[(usize, u128)]) {
        for (level, block) in rebuilt {
            let extent = rebuilt_extent(partition, *level, *block);
            let unit = partition.descriptor.level3.block_size();
            self.rebuilt[level - 1] += 1;
            self.rebuilt_across += u64::from(blocks_of(unit, extent).count() > 1);
            self.rebuilt_short += u64::from(extent.size < partition.descriptor.hash_level(*level).block_size());
        }
    }

    pub fn count(&self, call: &str, number: usize) -> u64 {
        self.answers[row(call)][number]
    }
}

fn row(call: &str) -> usize {
    CALLS.iter().position(|name| *name == call).expect("a call's name")
}

/// The numbers that calls have answered so far, in the order of the table.
fn columns(answers: &[[u64; NUMBERS]]) -> Vec<usize> {
    (0..NUMBERS).filter(|number| answers.iter().any(|row| row[*number] > 0)).collect()
}

impl std::fmt::Display for Tally {
    fn fmt(&self, out: &mut std::fmt::Formatter) -> std::fmt::Result {
        self.write_answers(out)?;
        self.write_events(out)?;
        let OtherKind { plain, signed, refused } = &self.other_kind;
        write!(
            out,
            "\nsteps back to a header of the other kind, a DISA's and a DIFF's: plain {plain:?}, signed {signed:?}, refused with 15 {refused:?}"
        )?;
        let Terms { commits, reverts, cuts, cut_before_landing, cut_after_landing, zero_digests } = self.terms;
        write!(
            out,
            "\nin runs of many sessions: commits {commits}, reverts {reverts}, digests of zeros {zero_digests}, power failures {cuts}, before a header landed {cut_before_landing}, right after one {cut_after_landing}"
        )
    }
}

impl Tally {
    fn write_answers(&self, out: &mut std::fmt::Formatter) -> std::fmt::Result {
        let columns = columns(&self.answers);
        let line = |row: &[u64]| columns.iter().map(|number| format!("{:>7}", row[*number])).collect::<String>();
        let numbers: Vec<u64> = (0..NUMBERS as u64).collect();
        write!(out, "{:15}{}", "answers", line(&numbers))?;
        for (name, row) in CALLS.iter().zip(&self.answers) {
            write!(out, "\n{name:15}{}", line(row))?;
        }
        Ok(())
    }

    fn write_events(&self, out: &mut std::fmt::Formatter) -> std::fmt::Result {
        write!(
            out,
            "\npower failures {}, writes upon moved blocks {}, writes to later master entries {}, calls over rows of eight blocks {}",
            self.power_failures, self.writes_upon_writes, self.later_entries, self.rows
        )?;
        write!(
            out,
            "\nhash blocks rebuilt on levels 1 to 3 {:?}, across blocks of DPFS level 3 {}, with a short end {}; digests of zeros on levels 1 to 4 {:?}",
            self.rebuilt, self.rebuilt_across, self.rebuilt_short, self.zero_digests
        )?;
        let [unverified, verified] = self.in_place;
        write!(
            out,
            "\nblocks written in place that are verified before the commit {verified}, not verified {unverified}; commits reverted {}",
            self.reverted
        )
    }
}
