//! Running digests: messages in pieces, and states that no call made, up to the longest message and past it.

use super::properties::require;
use super::tally::Tally;
use crate::generate::contents::put;
use crate::generate::random::Random;
use crate::rules::compression::{Digest, BLOCK};
use crate::rules::extent::number;
use crate::rules::running::{Running, RunningBytes, LONGEST_MESSAGE, RUNNING_LENGTH, TOTAL, WAITING};
use crate::rules::sha256::sha256;
use crate::subject::{Rules, Subject};

const UNTOUCHED_DIGEST: Digest = [0xD5; 32];
/// As the boundary has a fresh start: the initial hash value of FIPS 180-4 (5.3.3), each word's lowest byte first.
const FRESH_WORDS: [u8; 32] = [
    0x67, 0xe6, 0x09, 0x6a, 0x85, 0xae, 0x67, 0xbb, 0x72, 0xf3, 0x6e, 0x3c, 0x3a, 0xf5, 0x4f, 0xa5, //
    0x7f, 0x52, 0x0e, 0x51, 0x8c, 0x68, 0x05, 0x9b, 0xab, 0xd9, 0x83, 0x1f, 0x19, 0xcd, 0xe0, 0x5b,
];

/// A few messages and a few forged states.
pub fn run_digest_case(random: &mut Random, subject: Option<&dyn Subject>, tally: &mut Tally) -> Result<(), String> {
    for _ in 0..4 {
        let length = choose_length(random);
        let message = random.bytes(length);
        feed_message(random, &message, subject, tally)
            .map_err(|complaint| format!("a message of {length} bytes: {complaint}"))?;
        feed_forged_state(random, subject, tally).map_err(|complaint| format!("a forged state: {complaint}"))?;
    }
    Ok(())
}

/// A long message that every run must have tried: NIST's million letters.
pub fn run_long_message(subject: Option<&dyn Subject>, tally: &mut Tally) -> Result<(), String> {
    feed_message(&mut Random::new(0), &vec![b'a'; 1_000_000], subject, tally)
}

/// Short, around the edges of blocks, or now and then long.
fn choose_length(random: &mut Random) -> usize {
    match random.below(100) {
        0..=39 => random.below(200) as usize,
        40..=69 => near_blocks(random, 8),
        70..=97 => random.below(5000) as usize,
        _ => random.below(200_000) as usize,
    }
}

/// So many whole blocks at most, give or take one byte, or the padding's nine.
fn near_blocks(random: &mut Random, most: u64) -> usize {
    let edge = random.between(1, most) as usize * BLOCK;
    let short = random.pick(&[0, 0, 1, 8, 9]);
    edge - short + usize::from(random.chance(30))
}

/// Cuts a message anywhere, with many empty pieces, and finishes in between now and then.
fn feed_message(
    random: &mut Random,
    message: &[u8],
    subject: Option<&dyn Subject>,
    tally: &mut Tally,
) -> Result<(), String> {
    let mut holder = Holder::new(random, subject, tally);
    holder.start()?;
    let longest_piece = random.pick(&[4, 70, 300, message.len().max(1)]);
    let mut place = 0;
    while place < message.len() {
        let length = choose_piece(random, longest_piece).min(message.len() - place);
        require(holder.feed(random, &message[place..place + length])?, || "a short message is refused".into())?;
        place += length;
        if random.chance(5) {
            holder.finish_with(random, Some(sha256(&message[..place])))?;
        }
    }
    while random.chance(30) {
        holder.feed(random, &[])?;
    }
    holder.finish_with(random, Some(sha256(message)))
}

/// Empty in one case of three.
fn choose_piece(random: &mut Random, longest: usize) -> usize {
    match random.below(6) {
        0 | 1 => 0,
        2 => near_blocks(random, 3),
        _ => random.below(longest as u64 + 1) as usize,
    }
}

/// Feeds a state of any content several times. What it accepts in pieces, it accepts at once with the same result.
fn feed_forged_state(random: &mut Random, subject: Option<&dyn Subject>, tally: &mut Tally) -> Result<(), String> {
    let mut holder = Holder::new(random, subject, tally);
    let forged = choose_total(random);
    holder.set_total(forged);
    let first = holder.state;
    let mut accepted = Vec::new();
    for _ in 0..random.between(1, 6) {
        let total = number(&holder.state, TOTAL, 8);
        let length = choose_piece_at(random, total);
        let piece = random.bytes(length);
        if holder.feed(random, &piece)? {
            accepted.extend_from_slice(&piece);
        }
        holder.finish_with(random, None)?;
    }
    let mut at_once = Running::from_bytes(&first);
    if forged <= LONGEST_MESSAGE {
        at_once.feed(&accepted).map_err(|_| "the pieces are refused at once".to_string())?;
    }
    require(at_once == Running::from_bytes(&holder.state), || "the pieces at once give another state".into())
}

/// Anything; half of the time near the longest message.
fn choose_total(random: &mut Random) -> u64 {
    match random.below(10) {
        0 => random.below(300),
        1 => random.number() >> random.below(64),
        2 => random.pick(&[LONGEST_MESSAGE, LONGEST_MESSAGE + 1, LONGEST_MESSAGE - 1]),
        3 => LONGEST_MESSAGE + random.between(1, 200),
        4 => u64::MAX - random.below(200),
        5 => random.pick(&[1 << 29, 1 << 32, 1 << 62, 1 << 63]) - random.below(2),
        _ => LONGEST_MESSAGE - random.below(700),
    }
}

/// A piece that ends at the longest message, one byte before or one past it, if there is that little room; or any.
fn choose_piece_at(random: &mut Random, total: u64) -> usize {
    let room = LONGEST_MESSAGE.checked_sub(total).filter(|room| *room < 1000);
    match (random.below(8), room) {
        (0, Some(room)) => room as usize,
        (1, Some(room)) => room as usize + 1,
        (2, Some(room)) => room.saturating_sub(1) as usize,
        (3, _) => 0,
        (4, _) => near_blocks(random, 4),
        _ => random.below(300) as usize,
    }
}

/// The rules' state and the subject's, brought forward together. What the subject is lent are allocations of their own,
/// so that a memory checker sees a step past their ends.
struct Holder<'a> {
    subject: Option<&'a dyn Subject>,
    tally: &'a mut Tally,
    state: RunningBytes,
    /// What stands behind the waiting bytes may differ here.
    other: Box<RunningBytes>,
}

impl<'a> Holder<'a> {
    /// With noise in the states.
    fn new(random: &mut Random, subject: Option<&'a dyn Subject>, tally: &'a mut Tally) -> Holder<'a> {
        let mut state = [0; RUNNING_LENGTH];
        put(&mut state, 0, &random.bytes(RUNNING_LENGTH));
        Holder { subject, tally, state, other: Box::new(state) }
    }

    fn set_total(&mut self, total: u64) {
        put(&mut self.state, TOTAL, &total.to_le_bytes());
        put(&mut self.other[..], TOTAL, &total.to_le_bytes());
    }

    fn start(&mut self) -> Result<(), String> {
        let mut fresh = [0; RUNNING_LENGTH];
        put(&mut fresh, 0, &FRESH_WORDS);
        Rules.digest_start(&mut self.state);
        self.tally.note("digest start", 0);
        require(self.state == fresh, || "start: not the initial state".into())?;
        let Some(subject) = self.subject else { return Ok(()) };
        subject.digest_start(&mut self.other);
        require(*self.other == fresh, || "start: the subject's is not the initial state".into())
    }

    /// Answers whether the piece was accepted.
    fn feed(&mut self, random: &mut Random, piece: &[u8]) -> Result<bool, String> {
        let before = self.state;
        let answer = Rules.digest_feed(&mut self.state, piece);
        self.tally.note("digest feed", answer);
        let total = u128::from(number(&before, TOTAL, 8)) + piece.len() as u128;
        let fits = total <= LONGEST_MESSAGE.into();
        let expected = if fits { 0 } else { 22 };
        require(answer == expected, || format!("feed to {total:#x} bytes answered {answer:#x}"))?;
        require(fits || self.state == before, || "feed: refused, and yet the state changed".into())?;
        require(!fits || number(&self.state, TOTAL, 8) as u128 == total, || "feed: the total is wrong".into())?;

        let Some(subject) = self.subject else { return Ok(fits) };
        self.spoil_behind(random);
        let before = self.other.clone();
        let lent = piece.to_vec();
        let answer = subject.digest_feed(&mut self.other, &lent);
        require(answer == expected, || format!("feed to {total:#x} bytes: the subject answered {answer:#x}"))?;
        require(fits || self.other == before, || "feed: the subject refused, and yet its state changed".into())?;
        let same = Running::from_bytes(&self.state) == Running::from_bytes(&self.other);
        require(same, || format!("feed of {} bytes to {total:#x}: the subject's state differs", piece.len()))?;
        Ok(fits)
    }

    /// The digest so far, which must be the expected one if that is known.
    fn finish_with(&mut self, random: &mut Random, expected: Option<Digest>) -> Result<(), String> {
        let total = number(&self.state, TOTAL, 8);
        let number = if total <= LONGEST_MESSAGE { 0 } else { 22 };
        let mut digest = UNTOUCHED_DIGEST;
        let answer = Rules.digest_finish(&self.state, &mut digest);
        self.tally.note("digest finish", answer);
        require(answer == number, || format!("finish at {total:#x} bytes answered {answer:#x}"))?;
        require(number == 0 || digest == UNTOUCHED_DIGEST, || "finish: refused, and yet the digest changed".into())?;
        require(expected.is_none_or(|expected| digest == expected), || "finish: the digest is wrong".into())?;

        let Some(subject) = self.subject else { return Ok(()) };
        self.spoil_behind(random);
        let mut other = Box::new(UNTOUCHED_DIGEST);
        let answer = subject.digest_finish(&self.other, &mut other);
        require(answer == number, || format!("finish at {total:#x} bytes: the subject answered {answer:#x}"))?;
        require(*other == digest, || format!("finish at {total:#x} bytes: the subject's digest differs"))
    }

    /// Nobody looks at what stands behind the waiting bytes: half of the time it is noise in the subject's state.
    fn spoil_behind(&mut self, random: &mut Random) {
        if random.chance(50) {
            let waiting = WAITING + (number(&self.other[..], TOTAL, 8) % BLOCK as u64) as usize;
            put(&mut self.other[..], waiting, &random.bytes(TOTAL - waiting));
        }
    }
}
