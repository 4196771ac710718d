//! Runs of many sessions on one image, with power failures at any moment: before and after each header lands, inside
//! calls and between them. At each moment committed reads must be those of the newest version in a plain list.

use super::call::{Call, Outcome, BEGIN, COMMIT, COMMIT_SIGNED, REVERT, REVERT_SIGNED, WRITE};
use super::list::{compare_subject, version_of};
use super::power::scramble;
use super::properties::{finish_write, require};
use super::signing::kind_of;
use super::tally::Tally;
use crate::generate::random::Random;
use crate::generate::shape::Wanted;
use crate::generate::signing::SigningKey;
use crate::generate::{valid_image, Sample};
use crate::history::{Book, First, History};
use crate::model::Version;
use crate::rules::block_hash::with_stand_in;
use crate::rules::dpfs::View;
use crate::rules::extent::Extent;
use crate::rules::opening::{open, Opened};
use crate::rules::protected::free_bytes;
use crate::rules::refusal::{answer_code, Refusal};
use crate::rules::session::{SessionBytes, SESSION_LENGTH};
use crate::subject::{Rules, Subject};

/// Starts the book of a run.
pub type NewBook<'a> = &'a dyn Fn(First) -> Box<dyn Book>;

/// The run of this seed.
pub fn run_term(seed: u64, subject: Option<&dyn Subject>, tally: &mut Tally) -> Result<(), String> {
    run_term_by(seed, subject, tally, &|first| Box::new(History::new(first)))
}

/// The run of this seed, compared with a book of the caller's. Now and then a stand-in hash makes writes end in 17.
pub fn run_term_by(seed: u64, subject: Option<&dyn Subject>, tally: &mut Tally, book: NewBook) -> Result<(), String> {
    let random = &mut Random::new(seed);
    let zeroed = if random.chance(15) { random.pick(&[1, 4, 15]) } else { 0 };
    let subject = subject.filter(|subject| zeroed == 0 || subject.takes_stand_in());
    with_stand_in(zeroed, || {
        let external = if random.chance(20) { None } else { Some(false) };
        let data = Some((random.between(1, 400), random.between(5, 7)));
        let sample = valid_image(random, &Wanted { external, data, spare: Some(3), ..Wanted::default() });
        let steps = random.between(10, 60);
        Run::new(random, sample, subject, tally, book).run(random, steps)
    })
}

struct Run<'a> {
    subject: Option<&'a dyn Subject>,
    tally: &'a mut Tally,
    image: Vec<u8>,
    session: SessionBytes,
    signing_key: SigningKey,
    opened: Opened,
    book: Box<dyn Book>,
    /// Which bytes a power failure may leave with anything in them.
    open: Vec<bool>,
}

impl<'a> Run<'a> {
    fn new(
        random: &mut Random,
        sample: Sample,
        subject: Option<&'a dyn Subject>,
        tally: &'a mut Tally,
        book: NewBook,
    ) -> Run<'a> {
        let Sample { image, opened, versions, .. } = sample;
        let first = opened.partitions.iter().zip(versions).map(|(partition, version)| {
            let descriptor = &partition.descriptor;
            descriptor.external.is_none().then(|| (descriptor.hash_level(4).block_size() as usize, version))
        });
        Run {
            subject,
            tally,
            session: [0; SESSION_LENGTH],
            signing_key: SigningKey::choose(random, &image),
            book: book(first.collect()),
            open: free_bytes(&image, &opened),
            image,
            opened,
        }
    }

    fn run(&mut self, random: &mut Random, steps: u64) -> Result<(), String> {
        self.check()?;
        for step in 0..steps {
            if random.chance(8) {
                self.cut(random);
                self.check().map_err(|complaint| format!("step {step}, power failure: {complaint}"))?;
            }
            let call = self.choose(random);
            self.make(random, &call).map_err(|complaint| format!("step {step}, {call}: {complaint}"))?;
        }
        Ok(())
    }

    /// Half of the time any call, else one that carries the history on.
    fn choose(&self, random: &mut Random) -> Call {
        if random.chance(50) {
            return Call::choose(random, &self.image, Some(&self.opened), &self.signing_key, self.begun());
        }
        let kind = if self.begun() {
            random.pick(&[WRITE, WRITE, WRITE, COMMIT, COMMIT_SIGNED])
        } else {
            random.pick(&[BEGIN, BEGIN, REVERT, REVERT_SIGNED])
        };
        Call::of_kind(random, &self.image, Some(&self.opened), &self.signing_key, kind)
    }

    fn begun(&self) -> bool {
        self.session[0] != 0
    }

    /// Makes one call, compares its answer with what the book says, and lets the book go on.
    fn make(&mut self, random: &mut Random, call: &Call) -> Result<(), String> {
        let before = self.image.clone();
        let session_before = self.session;
        let expected = self.expected_answer(call);
        let outcome = call.perform(&Rules, &mut self.image, &mut self.session);
        self.tally.note(call.name(), outcome.answer);
        if let Some(subject) = self.subject {
            compare_subject(subject, call, &before, &session_before, &self.image, &self.session, &outcome)?;
        }
        if let Some(answer) = expected {
            require(outcome.answer == answer, || format!("answered {:#x}, not {answer:#x}", outcome.answer))?;
        }
        let unchanged = self.image == before && self.session == session_before;
        let may_change = outcome.accepted() || outcome.answer == answer_code(Err(Refusal::ZeroDigest));
        require(may_change || unchanged, || "refused, and yet something changed".into())?;
        self.check_read(call, &outcome)?;
        self.open[call.written_in_place(&self.opened)].fill(true);
        self.follow(random, call, &outcome, before);
        self.check()
    }

    /// What the book makes of an answer.
    fn follow(&mut self, random: &mut Random, call: &Call, outcome: &Outcome, before: Vec<u8>) {
        match call {
            Call::Write { .. } if outcome.answer == answer_code(Err(Refusal::ZeroDigest)) => {
                self.tally.terms.zero_digests += 1;
                self.book.abandon();
            }
            _ if !outcome.accepted() => {}
            Call::Begin => self.book.begin(),
            Call::Write { partition, place, data } => self.book.write(*partition as usize, *place as usize, data),
            Call::Abandon => self.book.abandon(),
            Call::Commit | Call::CommitSigned { .. } | Call::Revert | Call::RevertSigned { .. } => {
                self.follow_header(random, call, before);
            }
            _ => {}
        }
    }

    /// A header that a call has stored lands before any later call, or power fails first and it never does: then it is
    /// the image before the call that is left. If power fails as soon as it has landed, the image is as the call left it.
    fn follow_header(&mut self, random: &mut Random, call: &Call, before: Vec<u8>) {
        if random.chance(12) {
            self.tally.terms.cut_before_landing += 1;
            self.image = before;
            self.cut(random);
            return;
        }
        self.opened = open(&self.image).expect("a commit or a revert leaves an image that opens");
        self.open = free_bytes(&self.image, &self.opened);
        if matches!(call, Call::Commit | Call::CommitSigned { .. }) {
            self.tally.terms.commits += 1;
            self.book.land_commit();
        } else {
            self.tally.terms.reverts += 1;
            self.book.land_revert();
        }
        if random.chance(12) {
            self.tally.terms.cut_after_landing += 1;
            self.start_afresh();
        }
    }

    /// Power fails: bytes that are not protected hold anything.
    fn cut(&mut self, random: &mut Random) {
        self.tally.terms.cuts += 1;
        scramble(random, &mut self.image, &self.open);
        self.start_afresh();
    }

    fn start_afresh(&mut self) {
        self.session = [0; SESSION_LENGTH];
        self.book.cut();
    }

    /// What a call must answer, as far as the book says it.
    fn expected_answer(&self, call: &Call) -> Option<u64> {
        match self.refused_for_session(call) {
            Some(refusal) => Some(answer_code(Err(refusal))),
            None => self.answer_in_session(call),
        }
    }

    /// The refusal of a call that the session's state does not allow, or of a signer that is for the other kind.
    fn refused_for_session(&self, call: &Call) -> Option<Refusal> {
        // A revert's too: no session is forged here, so the header that comes back is of the present kind.
        let fits = |signing_key: &SigningKey| kind_of(signing_key.signer) == self.opened.header.kind;
        match call {
            Call::Begin | Call::Revert | Call::RevertSigned { .. } if self.begun() => Some(Refusal::WrongSession),
            Call::Abandon | Call::Commit | Call::CommitSigned { .. } | Call::Write { .. } | Call::ReadStaged { .. }
                if !self.begun() =>
            {
                Some(Refusal::WrongSession)
            }
            Call::Revert | Call::RevertSigned { .. } if !self.book.remembers() => Some(Refusal::NoWayBack),
            Call::CommitSigned { signing_key } | Call::RevertSigned { signing_key } if !fits(signing_key) => {
                Some(Refusal::WrongSigner)
            }
            _ => None,
        }
    }

    /// What a call must answer that the session allows.
    fn answer_in_session(&self, call: &Call) -> Option<u64> {
        match call {
            Call::Open
            | Call::Begin
            | Call::Abandon
            | Call::Commit
            | Call::CommitSigned { .. }
            | Call::Revert
            | Call::RevertSigned { .. } => Some(0),
            Call::ReadCommitted { partition, place, length } => {
                let (version, block_size) = self.followed(*partition, |book, partition| book.newest(partition))?;
                Some(answer_code(version.read(*place, *length, block_size).map(|_| 0)))
            }
            Call::ReadStaged { partition, place, length } => {
                let (version, block_size) = self.followed(*partition, |book, partition| book.staged(partition))?;
                Some(answer_code(version.read(*place, *length, block_size).map(|_| 0)))
            }
            Call::Verified { partition, block } => {
                let (version, _) = self.followed(*partition, |book, partition| book.newest(partition))?;
                Some(answer_code(version.is_verified(*block).map(u64::from)))
            }
            Call::CountVerified { partition } => {
                let (version, _) = self.followed(*partition, |book, partition| book.newest(partition))?;
                Some(answer_code(Ok(version.count_verified())))
            }
            Call::Write { partition, place, data } => {
                let (version, block_size) = self.followed(*partition, |book, partition| book.staged(partition))?;
                let answer = version.write(*place, data.len(), block_size).and_then(|()| self.zero_digest(call));
                Some(answer_code(answer.map(|()| 0)))
            }
            _ => None,
        }
    }

    /// A partition's version in the book, and its block size; none if there is no such partition or it is not followed.
    fn followed<'b>(
        &'b self,
        partition: u64,
        version: impl Fn(&'b dyn Book, usize) -> Option<&'b Version>,
    ) -> Option<(&'b Version, usize)> {
        let block_size = self.opened.partition(partition).ok()?.descriptor.hash_level(4).block_size() as usize;
        Some((version(&*self.book, partition as usize)?, block_size))
    }

    /// 17, of which the book knows nothing beforehand.
    fn zero_digest(&self, call: &Call) -> Result<(), Refusal> {
        let Call::Write { partition, place, data } = call else { return Ok(()) };
        let view = View::staged(&self.image, &self.opened, &self.opened.partitions[*partition as usize]);
        match finish_write(&view, Extent::new(*place, data.len() as u64), data).zero_digest {
            Some(_) => Err(Refusal::ZeroDigest),
            None => Ok(()),
        }
    }

    /// An accepted read has the bytes of the version.
    fn check_read(&self, call: &Call, outcome: &Outcome) -> Result<(), String> {
        let (partition, place, version) = match call {
            Call::ReadCommitted { partition, place, .. } => {
                (*partition, *place, self.followed(*partition, |book, partition| book.newest(partition)))
            }
            Call::ReadStaged { partition, place, .. } => {
                (*partition, *place, self.followed(*partition, |book, partition| book.staged(partition)))
            }
            _ => return Ok(()),
        };
        let Some((version, _)) = version.filter(|_| outcome.accepted()) else { return Ok(()) };
        let right = version.bytes[place as usize..].starts_with(&outcome.buffer);
        require(right, || format!("partition {partition}: the bytes read are wrong"))
    }

    /// The committed view is the newest version, in every byte and in which blocks are verified.
    fn check(&self) -> Result<(), String> {
        let opened = open(&self.image);
        require(opened.as_ref() == Ok(&self.opened), || "opening says something else".into())?;
        for (number, partition) in self.opened.partitions.iter().enumerate() {
            if partition.descriptor.external.is_some() {
                continue;
            }
            let newest = self.book.newest(number).ok_or("the list of versions has run empty")?;
            let committed = version_of(&View::committed(&self.image, &self.opened, partition));
            require(committed == *newest, || format!("partition {number} is not as its newest version"))?;
        }
        Ok(())
    }
}
