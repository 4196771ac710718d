//! A list of calls on one image. After each call the two views must equal the reference model's versions, protected
//! bytes must be as before, and the subject must have done just the same.

use super::call::{Call, Outcome, UNTOUCHED_DESCRIPTION, WRITE};
use super::faults::{check_row, list_of};
use super::forged::forge_session;
use super::names::{begins_like_a_save, check_names, choose_small_write, NamesCall};
use super::power::scramble;
use super::properties::{
    check_begin, check_commit, check_revert, check_signed_commit, check_signed_revert, check_write, finish_write,
    require, touched_on_each_level, writable_bytes,
};
use super::rows::touches_row;
use super::sample_of;
use super::signatures::signed_answer;
use super::signing::{check_signing, expected_refusal, kind_of};
use super::tally::{OtherKind, Tally};
use crate::description::{describe, name_at, Description};
use crate::generate::random::Random;
use crate::generate::signing::{choose_signer, SigningKey};
use crate::generate::Sample;
use crate::model::{Model, Version};
use crate::rules::calls::touched_blocks;
use crate::rules::dpfs::View;
use crate::rules::extent::Extent;
use crate::rules::faults::FaultRecord;
use crate::rules::header::{DIFF_OPENING, HEADER, HEADER_LENGTH};
use crate::rules::opening::{open, Opened};
use crate::rules::protected::free_bytes;
use crate::rules::refusal::{answer_code, Refusal};
use crate::rules::session::{header_bytes, Session, SessionBytes, SESSION_LENGTH};
use crate::rules::signing::SIGNATURE_LENGTH;
use crate::subject::{Rules, Subject};

pub struct List<'a> {
    subject: Option<&'a dyn Subject>,
    tally: &'a mut Tally,
    image: Vec<u8>,
    session: SessionBytes,
    /// Session values that were handed out earlier.
    kept: Vec<SessionBytes>,
    /// The host's key, which has signed most of the images.
    signing_key: SigningKey,
    /// What opening must say now.
    opened: Opened,
    /// The reference model of each partition.
    models: Vec<Model>,
    /// Which bytes calls other than commit may change, under the image that the last commit left.
    free: Vec<bool>,
    /// The last commit, until a header lands that is not known to come of it.
    last_commit: Option<LastCommit>,
    /// Which bytes were written in place since then: after a power failure they too may hold anything.
    in_place: Vec<bool>,
}

/// All about the last commit that a revert of it must bring back.
struct LastCommit {
    before: Vec<u8>,
    after: Vec<u8>,
    /// The session that it left.
    session: SessionBytes,
    opened: Opened,
    models: Vec<Model>,
}

impl<'a> List<'a> {
    pub fn new(
        random: &mut Random,
        mut sample: Sample,
        subject: Option<&'a dyn Subject>,
        tally: &'a mut Tally,
    ) -> List<'a> {
        let signing_key = SigningKey::choose(random, &sample.image);
        if random.chance(75) {
            signing_key.sign(&mut sample.image);
        }
        let free = free_bytes(&sample.image, &sample.opened);
        let in_place = vec![false; free.len()];
        let models = models_of(&sample);
        List {
            subject,
            tally,
            image: sample.image,
            session: [0; SESSION_LENGTH],
            kept: Vec::new(),
            signing_key,
            opened: sample.opened,
            models,
            free,
            last_commit: None,
            in_place,
        }
    }

    /// Makes so many calls, with power failures in between now and then.
    pub fn run(&mut self, random: &mut Random, calls: u64) -> Result<(), String> {
        self.check_views()?;
        self.try_call(&Call::Open, &mut [0; SESSION_LENGTH])?;
        for _ in 0..calls {
            if random.chance(4) {
                self.fail_power(random).map_err(|complaint| format!("after a power failure: {complaint}"))?;
            }
            if random.chance(5) {
                self.disturb(random).map_err(|complaint| format!("after a foreign change: {complaint}"))?;
            }
            if random.chance(5) {
                self.sign(random).map_err(|complaint| format!("after the host has signed: {complaint}"))?;
            }
            let forged = random.chance(15);
            let (mut session, call) =
                if forged { self.forge(random) } else { (self.session, self.choose_call(random)) };
            self.try_call(&call, &mut session).map_err(|complaint| format!("{call}: {complaint}"))?;
            if !forged || random.chance(30) {
                self.kept.push(self.session);
                self.session = session;
            }
            self.fit_signing_key(random);
        }
        Ok(())
    }

    /// A forged session and a call in it. What an idle one remembers shows itself in a step back alone, so half of them
    /// are tried with one, with signers of both kinds.
    fn forge(&self, random: &mut Random) -> (SessionBytes, Call) {
        let session = forge_session(random, &self.image, &self.opened.header, &self.kept);
        let signing_key = SigningKey { signer: choose_signer(random), ..self.signing_key };
        let call = match random.below(6) {
            0 if session[0] == 0 => Call::Revert,
            1 | 2 if session[0] == 0 => Call::RevertSigned { signing_key },
            _ => self.choose_call(random),
        };
        (session, call)
    }

    /// The host needs another key where a forged step back has made the image one of the other kind.
    fn fit_signing_key(&mut self, random: &mut Random) {
        if kind_of(self.signing_key.signer) != self.opened.header.kind {
            self.signing_key = SigningKey::choose(random, &self.image);
        }
    }

    /// Any call; where there is a save, often one for its names or a write that changes little of it.
    fn choose_call(&self, random: &mut Random) -> Call {
        let level4 = &self.models[0].committed.bytes;
        if begins_like_a_save(&self.opened, level4) {
            match random.below(100) {
                0..=29 => return Call::Names(NamesCall::choose(random, level4)),
                30..=49 => {
                    let (place, data) = choose_small_write(random, level4);
                    return Call::Write { partition: 0, place, data };
                }
                _ => {}
            }
        }
        Call::choose(random, &self.image, Some(&self.opened), &self.signing_key, self.session[0] != 0)
    }

    /// Makes these calls, one after the other, each in one of two sessions.
    pub fn run_sessions(&mut self, calls: Vec<(usize, Call)>) -> Result<(), String> {
        let mut sessions = [[0; SESSION_LENGTH]; 2];
        for (number, (session, call)) in calls.into_iter().enumerate() {
            self.try_call(&call, &mut sessions[session])
                .map_err(|complaint| format!("call {number}, {call}: {complaint}"))?;
        }
        Ok(())
    }

    fn held(&self) -> bool {
        self.models[0].staged.is_some()
    }

    /// Makes one call and checks everything about it.
    fn try_call(&mut self, call: &Call, session: &mut SessionBytes) -> Result<(), String> {
        let before = self.image.clone();
        let session_before = *session;
        let outcome = call.perform(&Rules, &mut self.image, session);
        self.tally.note(call.name(), outcome.answer);
        self.note_other_kind(call, &before, &session_before, outcome.answer);
        self.check_subject(call, &before, &session_before, session, &outcome)?;
        self.check_prediction(call, &before, &session_before, &outcome)?;
        check_signing(&before, call, &outcome)?;
        if let Call::Names(call) = call {
            check_names(call, &self.opened, &self.models[0].committed, outcome.answer, &outcome.buffer)?;
        }
        if outcome.accepted() {
            self.tally.rows += u64::from(touches_row(call, &self.image, &self.opened));
            self.check_accepted(call, &before, &session_before, session, &outcome)?;
        } else if outcome.answer == answer_code(Err(Refusal::ZeroDigest)) {
            self.check_zero_digest(call, &before, session, &outcome)?;
        } else {
            let untouched =
                self.image == before && *session == session_before && outcome == Outcome::refused(call, outcome.answer);
            require(untouched, || format!("refused with {:#x}, and yet something changed", outcome.answer))?;
        }
        self.check_views()
    }

    /// Counts a step back to a header of the other kind, accepted or refused by its signer alone: since 15 comes last, the
    /// image opens under that header.
    fn note_other_kind(&mut self, call: &Call, before: &[u8], session: &SessionBytes, answer: u64) {
        let Session::Idle { former, .. } = Session::from_bytes(session) else { return };
        let opening = &former[..8];
        if opening == &before[HEADER..HEADER + 8] {
            return;
        }
        let kind = usize::from(opening == DIFF_OPENING);
        let OtherKind { plain, signed, refused } = &mut self.tally.other_kind;
        match (call, answer) {
            (Call::Revert, 0) => plain[kind] += 1,
            (Call::RevertSigned { .. }, 0) => signed[kind] += 1,
            (Call::RevertSigned { .. }, 15) => refused[kind] += 1,
            _ => {}
        }
    }

    /// The subject must give the same answer, image, session and buffers.
    fn check_subject(
        &self,
        call: &Call,
        before: &[u8],
        session_before: &SessionBytes,
        session: &SessionBytes,
        outcome: &Outcome,
    ) -> Result<(), String> {
        let Some(subject) = self.subject else { return Ok(()) };
        compare_subject(subject, call, before, session_before, &self.image, session, outcome)
    }

    /// What the reference model alone says about the answer, as far as it does.
    fn check_prediction(
        &self,
        call: &Call,
        before: &[u8],
        session: &SessionBytes,
        outcome: &Outcome,
    ) -> Result<(), String> {
        let Some(answer) = self.predict(call, before, session) else { return Ok(()) };
        match answer {
            Prediction::Bytes(bytes) => {
                require(outcome.answer == 0, || format!("answered {:#x}, not 0", outcome.answer))?;
                require(outcome.buffer == bytes, || "the bytes read are wrong".into())
            }
            Prediction::Answer(answer) => {
                require(outcome.answer == answer, || format!("answered {:#x}, not {answer:#x}", outcome.answer))
            }
        }
    }

    fn predict(&self, call: &Call, image: &[u8], session: &SessionBytes) -> Option<Prediction> {
        match call {
            Call::ReadStaged { .. } | Call::Write { .. } | Call::Commit | Call::CommitSigned { .. } => {
                if let Err(prediction) = self.predict_session(image, session) {
                    return prediction;
                }
            }
            _ => {}
        }
        match call {
            Call::Open => Some(Prediction::Answer(0)),
            Call::Commit => Some(Prediction::Answer(0)),
            Call::CommitSigned { signing_key } if kind_of(signing_key.signer) == self.opened.header.kind => {
                Some(Prediction::Answer(0))
            }
            Call::CommitSigned { .. } => refused(Refusal::WrongSigner),
            Call::Revert | Call::RevertSigned { .. } => self.predict_revert(call, image, session),
            Call::OpenSigned { signing_key } => Some(Prediction::Answer(signed_answer(image, signing_key, 0))),
            Call::Begin if session[0] == 0 => Some(Prediction::Answer(0)),
            Call::Abandon if session[0] != 0 => Some(Prediction::Answer(0)),
            Call::Begin | Call::Abandon => refused(Refusal::WrongSession),
            // The model knows no header and no hash blocks.
            Call::SigningBlock { .. } | Call::SigningDigest { .. } | Call::Faults { .. } => None,
            // Said of the bytes and the row at once.
            Call::Names(_) => None,
            Call::ReadCommitted { partition, .. }
            | Call::ReadStaged { partition, .. }
            | Call::Verified { partition, .. }
            | Call::CountVerified { partition }
            | Call::Write { partition, .. } => {
                match self.models.get(usize::try_from(*partition).unwrap_or(usize::MAX)) {
                    None => refused(Refusal::NoSuchPartition),
                    Some(model) => self.predict_in_partition(call, image, model, *partition as usize),
                }
            }
        }
    }

    /// Is this what the last commit left, in session and image? The signature is not asked.
    fn is_last_commit(&self, last: &LastCommit, image: &[u8], session: &SessionBytes) -> bool {
        last.session == *session && last.after[HEADER..] == image[HEADER..]
    }

    /// The last commit can be taken back. Of any other memory the image tells whether it opens under the former header, and
    /// that header whether the signer fits.
    fn predict_revert(&self, call: &Call, image: &[u8], session: &SessionBytes) -> Option<Prediction> {
        let Session::Idle { former, latter } = Session::from_bytes(session) else {
            return refused(Refusal::WrongSession);
        };
        let mut reverted = image.to_vec();
        reverted[HEADER..HEADER + HEADER_LENGTH].copy_from_slice(&former);
        let is_last = self.last_commit.as_ref().is_some_and(|last| self.is_last_commit(last, image, session));
        if !is_last && (latter != header_bytes(image) || open(&reverted).is_err()) {
            return refused(Refusal::NoWayBack);
        }
        match call {
            Call::RevertSigned { signing_key } => {
                Some(Prediction::Answer(expected_refusal(&reverted, signing_key.signer)))
            }
            _ => Some(Prediction::Answer(0)),
        }
    }

    /// The prediction for a call that needs a begun session, if the session decides it.
    fn predict_session(&self, image: &[u8], session: &SessionBytes) -> Result<(), Option<Prediction>> {
        match Session::from_bytes(session) {
            Session::Idle { .. } => Err(refused(Refusal::WrongSession)),
            Session::Begun(remembered) if remembered != header_bytes(image) => Err(refused(Refusal::Outdated)),
            // Without a staged version the model does not know what the inactive table holds.
            Session::Begun(_) if !self.held() => Err(None),
            Session::Begun(_) => Ok(()),
        }
    }

    /// The prediction for a call on a partition that exists; for the staged view, one that has a version.
    fn predict_in_partition(&self, call: &Call, image: &[u8], model: &Model, partition: usize) -> Option<Prediction> {
        let read = |version: &Version, place: u64, length: usize| match version.read(place, length, model.block_size) {
            Ok(bytes) => Prediction::Bytes(bytes.to_vec()),
            Err(refusal) => Prediction::Answer(answer_code(Err(refusal))),
        };
        match call {
            Call::ReadCommitted { place, length, .. } => Some(read(&model.committed, *place, *length)),
            Call::ReadStaged { place, length, .. } => model.staged.as_ref().map(|staged| read(staged, *place, *length)),
            Call::Verified { block, .. } => {
                Some(Prediction::Answer(answer_code(model.committed.is_verified(*block).map(u64::from))))
            }
            Call::CountVerified { .. } => Some(Prediction::Answer(answer_code(Ok(model.committed.count_verified())))),
            Call::Write { place, data, .. } => {
                let partition = &self.opened.partitions[partition];
                if let Err(refusal) = model.staged.as_ref()?.write(*place, data.len(), model.block_size) {
                    return refused(refusal);
                }
                // The model knows no digests: 17 comes from the image.
                let range = Extent::new(*place, data.len() as u64);
                match finish_write(&View::staged(image, &self.opened, partition), range, data).zero_digest {
                    Some(_) => refused(Refusal::ZeroDigest),
                    None => Some(Prediction::Answer(0)),
                }
            }
            _ => None,
        }
    }

    /// Checks an accepted call's effects and feeds it to the reference model.
    fn check_accepted(
        &mut self,
        call: &Call,
        before: &[u8],
        session_before: &SessionBytes,
        session: &SessionBytes,
        outcome: &Outcome,
    ) -> Result<(), String> {
        let expected_session = match call {
            Call::Begin => Session::begun(before).to_bytes(),
            Call::Commit | Call::CommitSigned { .. } => {
                Session::Idle { former: header_bytes(before), latter: header_bytes(&self.image) }.to_bytes()
            }
            Call::Abandon | Call::Revert | Call::RevertSigned { .. } => [0; SESSION_LENGTH],
            _ => *session_before,
        };
        require(*session == expected_session, || "the session is wrong".into())?;
        self.check_image(call, before, session_before)?;
        match call {
            Call::Commit => return self.follow_commit(before, session),
            Call::Revert => return self.follow_revert(before, session_before),
            Call::CommitSigned { signing_key } | Call::RevertSigned { signing_key } => {
                match call {
                    Call::CommitSigned { .. } => self.follow_commit(before, session)?,
                    _ => self.follow_revert(before, session_before)?,
                }
                self.signing_key = *signing_key;
                return self.check_signed();
            }
            Call::Open | Call::OpenSigned { .. } => self.check_description(&outcome.description)?,
            Call::Faults { .. } => check_row(outcome, &self.expected_faults())?,
            _ => {}
        }
        self.check_protected(call, before)?;
        self.feed(call);
        Ok(())
    }

    /// 17: the session is idle, nothing is protected less than before, and for the model it is an abandon.
    fn check_zero_digest(
        &mut self,
        call: &Call,
        before: &[u8],
        session: &SessionBytes,
        outcome: &Outcome,
    ) -> Result<(), String> {
        let Call::Write { partition, place, data } = call else {
            return Err("only a write answers 17".into());
        };
        let partition = &self.opened.partitions[*partition as usize];
        let range = Extent::new(*place, data.len() as u64);
        let level = finish_write(&View::staged(before, &self.opened, partition), range, data).zero_digest;
        self.tally.zero_digests[level.ok_or("17 without a digest that is all zero")? - 1] += 1;
        require(*session == [0; SESSION_LENGTH], || "17 leaves a session".into())?;
        require(*outcome == Outcome::refused(call, outcome.answer), || "17 changed what it was lent".into())?;
        self.models.iter_mut().for_each(Model::abandon_accepted);
        self.check_protected(call, before)?;
        self.follow_in_place();
        Ok(())
    }

    /// What an accepted call has changed in the image is what it must change.
    fn check_image(&mut self, call: &Call, before: &[u8], session: &SessionBytes) -> Result<(), String> {
        let (Session::Idle { former, .. } | Session::Begun(former)) = Session::from_bytes(session);
        match call {
            Call::Begin => check_begin(before, &self.image, &self.opened),
            Call::Commit => check_commit(before, &self.image, &self.opened),
            Call::CommitSigned { signing_key } => check_signed_commit(before, &self.image, &self.opened, signing_key),
            Call::Revert => check_revert(before, &self.image, &former),
            Call::RevertSigned { signing_key } => check_signed_revert(before, &self.image, &former, signing_key),
            Call::Write { partition, place, data } => {
                let partition = &self.opened.partitions[*partition as usize];
                let range = Extent::new(*place, data.len() as u64);
                let finished = finish_write(&View::staged(before, &self.opened, partition), range, data);
                require(finished.zero_digest.is_none(), || "accepted with a digest that is all zero".into())?;
                let moved_before = check_write(before, &self.image, &self.opened, partition, range, &finished)?;
                self.tally.writes_upon_writes += u64::from(moved_before);
                self.tally.later_entries += u64::from(touched_on_each_level(partition, range)[0].end > 1);
                self.tally.note_rebuilt(partition, &finished.rebuilt);
                require(!data.is_empty() || self.image == before, || "an empty write changed the image".into())
            }
            _ => require(self.image == before, || "the image changed".into()),
        }
    }

    fn check_description(&self, description: &Description) -> Result<(), String> {
        let expected = describe(&self.opened);
        match (0..expected.len()).find(|index| description[*index] != expected[*index]) {
            Some(index) => Err(format!("the description's {} is wrong", name_at(index))),
            None => Ok(()),
        }
    }

    /// The faults of level 4 are the model's; the hash blocks, which it does not know, are judged one by one.
    fn expected_faults(&self) -> Vec<FaultRecord> {
        let by_partition = self.opened.partitions.iter().zip(&self.models).map(|(partition, model)| {
            let view = View::committed(&self.image, &self.opened, partition);
            let judged = |level: usize| -> Vec<bool> {
                let blocks = 0..partition.descriptor.hash_level(level).blocks();
                blocks.map(|block| view.verified(level, block)).collect()
            };
            let [one, two, three] = [1, 2, 3].map(judged);
            [one, two, three, model.committed.verified.clone()]
        });
        list_of(&by_partition.collect::<Vec<_>>())
    }

    /// What signed opening answers under the host's key.
    fn signed_answer(&self) -> u64 {
        let SigningKey { key, signer } = &self.signing_key;
        Rules.open_signed(&self.image, key, signer, &mut UNTOUCHED_DESCRIPTION.clone())
    }

    /// Under the host's key the image opens.
    fn check_signed(&mut self) -> Result<(), String> {
        let answer = self.signed_answer();
        require(answer == 0, || format!("signed opening answered {answer:#x}, not 0"))?;
        self.try_call(&Call::OpenSigned { signing_key: self.signing_key }, &mut [0; SESSION_LENGTH])
    }

    /// The host signs the image as it is, now and then with another key.
    fn sign(&mut self, random: &mut Random) -> Result<(), String> {
        if random.chance(30) {
            self.signing_key = SigningKey::choose(random, &self.image);
        }
        self.signing_key.sign(&mut self.image);
        self.check_signed()
    }

    fn feed(&mut self, call: &Call) {
        match call {
            Call::Begin => self.models.iter_mut().for_each(Model::begin_accepted),
            Call::Abandon => self.models.iter_mut().for_each(Model::abandon_accepted),
            Call::Write { partition, place, data } => {
                let model = &mut self.models[*partition as usize];
                let partition = &self.opened.partitions[*partition as usize];
                let view = View::committed(&self.image, &self.opened, partition);
                model.write_accepted(*place as usize, data, |block| view.verified(4, block as u128));
                if partition.descriptor.external.is_some() {
                    for block in touched_blocks(partition, Extent::new(*place, data.len() as u64)) {
                        self.tally.in_place[usize::from(model.committed.verified[block as usize])] += 1;
                    }
                }
            }
            _ => {}
        }
    }

    /// After a commit the other table is active, and other bytes are protected.
    fn follow_commit(&mut self, before: &[u8], session: &SessionBytes) -> Result<(), String> {
        let (opened, mut models) = (self.opened.clone(), self.models.clone());
        models.iter_mut().for_each(Model::abandon_accepted);
        self.last_commit =
            Some(LastCommit { before: before.to_vec(), after: self.image.clone(), session: *session, opened, models });
        self.opened.header.flag = 1 - self.opened.header.flag;
        for partition in &mut self.opened.partitions {
            partition.descriptor.selector = 1 - partition.descriptor.selector;
        }
        require(open(&self.image).as_ref() == Ok(&self.opened), || "opening says something else".into())?;
        for (model, partition) in self.models.iter_mut().zip(&self.opened.partitions) {
            if !model.commit_accepted() {
                // A forged session has committed something that the model never saw: it starts anew.
                model.committed_anew(version_of(&View::committed(&self.image, &self.opened, partition)));
            }
        }
        self.protect_anew();
        Ok(())
    }

    /// After a revert of the last commit all is as before that commit, but for the signature. What another memory brings
    /// back is whatever the image then shows.
    fn follow_revert(&mut self, before: &[u8], session_before: &SessionBytes) -> Result<(), String> {
        match self.last_commit.take() {
            Some(last) if self.is_last_commit(&last, before, session_before) => {
                require(last.before[HEADER..] == self.image[HEADER..], || {
                    "it is not the image before that commit".into()
                })?;
                self.opened = last.opened;
                self.models = last.models;
                self.tally.reverted += 1;
            }
            _ => {
                self.opened = open(&self.image).map_err(|refusal| format!("it opens no more: {refusal:?}"))?;
                self.models = models_of(&sample_of(self.image.clone(), self.opened.clone()));
            }
        }
        require(open(&self.image).as_ref() == Ok(&self.opened), || "opening says something else".into())?;
        self.protect_anew();
        Ok(())
    }

    /// A header has landed: other bytes are protected now.
    fn protect_anew(&mut self) {
        self.free = free_bytes(&self.image, &self.opened);
        self.in_place.fill(false);
    }

    /// Protected bytes are as before, but for the range that a write was given in an external level 4.
    fn check_protected(&mut self, call: &Call, before: &[u8]) -> Result<(), String> {
        let written = call.written_in_place(&self.opened);
        let protected = |place: &usize| !self.free[*place] && !written.contains(place);
        let changed = (0..before.len()).find(|place| protected(place) && before[*place] != self.image[*place]);
        self.in_place[written].fill(true);
        match changed {
            Some(place) => Err(format!("the protected byte at {place:#x} changed")),
            None => Ok(()),
        }
    }

    /// External levels may hold other bytes than before: the models take them as they are.
    fn follow_in_place(&mut self) {
        for (partition, model) in self.opened.partitions.iter().zip(&mut self.models) {
            let view = View::committed(&self.image, &self.opened, partition);
            if partition.descriptor.external.is_none() {
                continue;
            }
            for (block, bytes) in view.data().chunks(model.block_size).enumerate() {
                let place = block * model.block_size;
                if model.committed.bytes[place..place + bytes.len()] != *bytes {
                    model.laid_in_place(place, bytes, |block| view.verified(4, block as u128));
                }
            }
        }
    }

    /// Both views equal the model's versions, in every byte and in which blocks are verified.
    fn check_views(&self) -> Result<(), String> {
        for (letter, (partition, model)) in ["A", "B"].iter().zip(self.opened.partitions.iter().zip(&self.models)) {
            let committed = version_of(&View::committed(&self.image, &self.opened, partition));
            require(committed == model.committed, || format!("{letter}'s committed view is wrong"))?;
            if let Some(version) = &model.staged {
                let staged = version_of(&View::staged(&self.image, &self.opened, partition));
                require(staged == *version, || format!("{letter}'s staged view is wrong"))?;
            }
        }
        Ok(())
    }

    /// Power fails inside a call: any free byte may hold anything, and any that was written in place or was about to be.
    /// Both openings and the committed view of all else are as before.
    fn fail_power(&mut self, random: &mut Random) -> Result<(), String> {
        self.tally.power_failures += 1;
        let signed_before = self.signed_answer();
        let write = Call::of_kind(random, &self.image, Some(&self.opened), &self.signing_key, WRITE);
        if random.chance(50) {
            self.in_place[write.written_in_place(&self.opened)].fill(true);
        }
        let mut open: Vec<bool> =
            self.free.iter().zip(&self.in_place).map(|(free, written)| *free || *written).collect();
        if random.chance(30) {
            let table = self.opened.header.inactive_table();
            open[table.offset as usize..table.end() as usize].fill(false);
        }
        scramble(random, &mut self.image, &open);
        self.models.iter_mut().for_each(Model::abandon_accepted);
        self.follow_in_place();
        if random.chance(70) {
            self.kept.push(self.session);
            self.session = [0; SESSION_LENGTH];
        }
        self.check_views()?;
        self.try_call(&Call::Open, &mut [0; SESSION_LENGTH])?;
        let signed = self.signed_answer();
        require(signed == signed_before, || format!("signed opening answered {signed:#x}, not {signed_before:#x}"))?;
        self.try_call(&Call::OpenSigned { signing_key: self.signing_key }, &mut [0; SESSION_LENGTH])?;
        for partition in 0..self.models.len() {
            let length = self.models[partition].committed.bytes.len();
            let whole = Call::ReadCommitted { partition: partition as u64, place: 0, length };
            self.try_call(&whole, &mut [0; SESSION_LENGTH])?;
        }
        Ok(())
    }

    /// Somebody else changes a byte between two calls.
    fn disturb(&mut self, random: &mut Random) -> Result<(), String> {
        match random.below(4) {
            0 => self.disturb_signature(random)?,
            // The bytes between signature and header are never read: nothing follows from them.
            1 => {
                let signed_before = self.signed_answer();
                let noise = random.bytes(HEADER - SIGNATURE_LENGTH);
                self.image[SIGNATURE_LENGTH..HEADER].copy_from_slice(&noise);
                require(self.signed_answer() == signed_before, || "signed opening reads more than it may".into())?;
            }
            // Unused header bytes: sessions begun before are outdated.
            2 => {
                let unused = self.opened.header.kind.hash_place() + 32;
                let place = HEADER as u64 + random.between(unused as u64, HEADER_LENGTH as u64 - 1);
                self.image[place as usize] ^= 1 << random.below(8);
            }
            _ => self.disturb_inactive_table(random)?,
        }
        if random.chance(50) {
            // The caller notices and starts again.
            self.kept.push(self.session);
            self.session = [0; SESSION_LENGTH];
        }
        self.check_views()
    }

    /// A signature with a changed bit fits no more.
    fn disturb_signature(&mut self, random: &mut Random) -> Result<(), String> {
        let fitted = self.signed_answer() == 0;
        self.image[random.below(SIGNATURE_LENGTH as u64) as usize] ^= 1 << random.below(8);
        let answer = self.signed_answer();
        require(!fitted || answer == 16, || format!("signed opening answered {answer:#x}, not 16"))?;
        self.try_call(&Call::OpenSigned { signing_key: self.signing_key }, &mut [0; SESSION_LENGTH])
    }

    /// A staged table with a changed bit is outdated, unless the bit is part of a master hash.
    fn disturb_inactive_table(&mut self, random: &mut Random) -> Result<(), String> {
        let was_staged = self.held();
        let table = self.opened.header.inactive_table();
        let place = u128::from(random.below(table.size as u64));
        self.image[(table.offset + place) as usize] ^= 1 << random.below(8);
        self.models.iter_mut().for_each(Model::abandon_accepted);
        if !was_staged {
            return Ok(());
        }
        let in_master_hash = self.opened.partitions.iter().any(|partition| {
            let start = partition.place.descriptor.offset + partition.descriptor.master.offset;
            (start..start + partition.descriptor.master.size).contains(&place)
        });
        let mut session = Session::begun(&self.image).to_bytes();
        let call = Call::ReadStaged { partition: 0, place: 0, length: 0 };
        let outcome = call.perform(&Rules, &mut self.image, &mut session);
        let number = if in_master_hash { 0 } else { 14 };
        require(outcome.answer == number, || format!("{call} answered {:#x}, not {number}", outcome.answer))?;
        self.try_call(&call, &mut session)
    }
}

enum Prediction {
    /// Accepted, with these bytes in the buffer.
    Bytes(Vec<u8>),
    Answer(u64),
}

fn refused(refusal: Refusal) -> Option<Prediction> {
    Some(Prediction::Answer(answer_code(Err(refusal))))
}

/// The reference model of each partition.
fn models_of(sample: &Sample) -> Vec<Model> {
    let partitions = sample.opened.partitions.iter().zip(&sample.versions);
    partitions
        .map(|(partition, version)| {
            let block_size = partition.descriptor.hash_level(4).block_size() as usize;
            Model::new(block_size, partition.descriptor.external.is_some(), version.clone())
        })
        .collect()
}

pub fn version_of(view: &View) -> Version {
    Version { bytes: view.data(), verified: view.verified_blocks(4) }
}

/// Makes the same call with the subject and compares all that came of it.
pub fn compare_subject(
    subject: &dyn Subject,
    call: &Call,
    before: &[u8],
    session_before: &SessionBytes,
    image: &[u8],
    session: &SessionBytes,
    outcome: &Outcome,
) -> Result<(), String> {
    let mut other_image = before.to_vec();
    let mut other_session = *session_before;
    let other = call.perform(subject, &mut other_image, &mut other_session);
    require(other.answer == outcome.answer, || {
        format!("the subject answered {:#x}, not {:#x}", other.answer, outcome.answer)
    })?;
    // After 17 bytes that are free may hold anything, and those that the write was to change in place.
    let free = match open(before) {
        Ok(opened) if outcome.answer == answer_code(Err(Refusal::ZeroDigest)) => writable_bytes(before, &opened, call),
        _ => vec![false; before.len()],
    };
    let place = (0..image.len()).find(|place| !free[*place] && image[*place] != other_image[*place]);
    require(place.is_none(), || format!("the subject's image differs at {:#x}", place.unwrap_or(0)))?;
    require(*session == other_session, || "the subject's session differs".into())?;
    require(other.buffer == outcome.buffer, || "the subject's buffer differs".into())?;
    require(other.row == outcome.row, || "the subject's row differs".into())?;
    let index = (0..other.description.len()).find(|index| other.description[*index] != outcome.description[*index]);
    require(index.is_none(), || format!("the subject's description differs: {}", name_at(index.unwrap_or(0))))
}
