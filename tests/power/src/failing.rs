//! Every store and every sync of a step fails once, with each error. Whatever has landed by then is judged as after a
//! power failure, and sessions go on from it.

use outside::generate::random::Random;
use outside::rules::opening::open;
use outside::rules::session::{SessionBytes, SESSION_LENGTH};
use outside::trial::call::Call;
use outside::trial::properties::require;
use teplovist::Error;

use crate::disk::{Failure, Operation, RecordingDisk, When};
use crate::host::{perform, Between, File};
use crate::landing::{epochs, Landing, SECTOR};
use crate::saved::Saved;
use crate::scenario::{file_on, Bench};
use crate::step::choose_calls;
use crate::tally::*;

/// What a store or a sync fails with: interrupted (EINTR), an I/O error (EIO), no space left (ENOSPC).
const ERROR_NUMBERS: [i32; 3] = [4, 5, 28];
const MOST_STEPS: u64 = 3;

/// Runs the steps of this seed; the complaint says what went wrong.
pub fn run_failures(seed: u64, between: Between, tally: &mut Tally) -> Result<(), String> {
    let random = &mut Random::new(seed);
    tally.note(SCENARIOS);
    let mut bench = Bench::new(random, between);
    for step in 0..random.between(1, MOST_STEPS) {
        fail_step(&mut bench, between, random, tally).map_err(|complaint| format!("step {step}: {complaint}"))?;
    }
    Ok(())
}

/// Makes a step without a failure, then again from the same image and session with each failure.
fn fail_step(bench: &mut Bench, between: Between, random: &mut Random, tally: &mut Tally) -> Result<(), String> {
    let session = bench.session;
    let calls = bench.choose_calls(random);
    let Some(saved) = bench.make_step(&calls, tally)? else { return Ok(()) };
    bench.stored = saved.judge_report(random, tally)?;
    let step = FailingStep { between, calls, session, saved };
    for error_number in ERROR_NUMBERS {
        for position in 0.. {
            let failure = Failure { when: When::Operation(position), error_number };
            let failed = step.fail_at(failure, random, tally);
            if !failed.map_err(|complaint| format!("operation {position}, error {error_number}: {complaint}"))? {
                break;
            }
        }
    }
    Ok(())
}

struct FailingStep {
    between: Between,
    calls: Vec<Call>,
    /// As it was before the step.
    session: SessionBytes,
    /// How the step goes without a failure.
    saved: Saved,
}

impl FailingStep {
    /// Answers whether there was such an operation to fail.
    fn fail_at(&self, failure: Failure, random: &mut Random, tally: &mut Tally) -> Result<bool, String> {
        let disk = RecordingDisk::failing(failure);
        let mut file = self.open(&disk, &self.saved.start, &self.session);
        let Err(error) = make_calls(&self.calls, &mut file) else {
            require(!disk.has_failed(), || "a failure was not reported".into())?;
            return Ok(false);
        };
        tally.note(FAILURES);
        let record = disk.take_record();
        require(disk.asked_after_failure() == 0, || "it was tried again".into())?;
        let expected = self.expected_error(&record);
        tally.note(expected.count);
        expected.check(&error, failure)?;
        let left = self.judge_left(&record, random, tally)?;
        if expected.value_answers {
            self.check_value(&file, random)?;
            self.save_with_value(disk, file, record, random, tally)
                .map_err(|complaint| format!("with this value: {complaint}"))?;
        } else {
            let shows = file.image().is_ok();
            let begins = !matches!(perform(&Call::Begin, &mut file), Err(Error::Reopen));
            let silent = !shows && !begins && disk.take_record().is_empty();
            require(silent, || "the value still answers".into())?;
        }
        let disk = RecordingDisk::default();
        let file = self.open(&disk, &left, &[0; SESSION_LENGTH]);
        self.save_later(&left, disk, file, random, tally).map_err(|complaint| format!("opened again: {complaint}"))?;
        Ok(true)
    }

    fn open(&self, disk: &RecordingDisk, image: &[u8], session: &SessionBytes) -> File {
        file_on((self.between)(disk.clone(), image), image, session)
    }

    /// The header's own store is in the record, even if it is the one that failed.
    fn expected_error(&self, record: &[Operation]) -> &'static Expected {
        let header = |operation: &Operation| matches!(operation, Operation::Write { place, .. } if *place < SECTOR);
        let positions = self.saved.in_place.positions();
        let in_place = |operation: &Operation| match operation {
            Operation::Write { place, bytes } => {
                positions.iter().any(|range| *place < range.end && range.start < place + bytes.len())
            }
            Operation::Sync => false,
        };
        if record.iter().any(header) {
            &Expected { count: AT_HEADER, words: "may or may not have been stored", value_answers: false }
        } else if self.saved.record.iter().any(in_place) {
            &Expected { count: IN_PLACE_FAILED, words: "nothing was committed, but blocks", value_answers: false }
        } else {
            &Expected { count: BEFORE, words: "the file still holds the old state", value_answers: true }
        }
    }

    /// What may be on the medium now: nothing, or anything, of what no sync has followed. Gives one of these images.
    fn judge_left(&self, record: &[Operation], random: &mut Random, tally: &mut Tally) -> Result<Vec<u8>, String> {
        let epoch = epochs(&self.saved.start, record).pop().expect("there is one");
        let moment = epoch.moment(epoch.writes.len());
        let mut landings = moment.choose_landings(random, 1);
        landings.push(vec![Landing::Missing; moment.pieces.len()]);
        let mut images = Vec::new();
        for landings in landings {
            let header_landed = moment.headers_in(&landings) == 1;
            images.push(self.saved.judge_crash(random, tally, &moment, &landings, header_landed)?);
        }
        let chosen = random.below(images.len() as u64) as usize;
        Ok(images.swap_remove(chosen))
    }

    /// The value shows the old state, and its session is fresh.
    fn check_value(&self, file: &File, random: &mut Random) -> Result<(), String> {
        let image = file.image().map_err(|error| error.to_string())?;
        self.saved.before.check(image.bytes(), &self.saved.signing_key, random)?;
        require(file.session().as_bytes() == &[0; SESSION_LENGTH], || "the session remembers something".into())
    }

    /// A session on what is left, in a file that was opened anew, must be saved.
    fn save_later(
        &self,
        left: &[u8],
        disk: RecordingDisk,
        file: File,
        random: &mut Random,
        tally: &mut Tally,
    ) -> Result<(), String> {
        self.save(left, disk, file, random, tally)?.judge_report(random, tally)?;
        tally.note(SAVED_LATER);
        Ok(())
    }

    /// A session must be saved with the value that has failed, half of the time after it has failed once more.
    fn save_with_value(
        &self,
        disk: RecordingDisk,
        mut file: File,
        record: Vec<Operation>,
        random: &mut Random,
        tally: &mut Tally,
    ) -> Result<(), String> {
        let mut medium = Medium { image: self.saved.start.clone(), open: Vec::new() };
        medium.fail(random, record);
        if random.chance(50) {
            tally.note(FAILED_TWICE);
            if !self.fail_again(&disk, &mut file, random)? {
                return Ok(());
            }
            medium.fail(random, disk.take_record());
        }
        self.saved.judge(&medium.image, false, random)?;
        let mut saved = self.save(&self.saved.start, disk, file, random, tally)?;
        saved.start = medium.image;
        saved.record.splice(..0, medium.open);
        if random.chance(2) {
            saved.judge_crashes(random, tally)?;
        }
        saved.judge_report(random, tally)?;
        tally.note(SAVED_WITH_VALUE);
        Ok(())
    }

    /// Another session fails: at its sync, or at one of its first operations. Answers whether the value is still good
    /// for sessions, on the same committed state.
    fn fail_again(&self, disk: &RecordingDisk, file: &mut File, random: &mut Random) -> Result<bool, String> {
        let when = random.pick(&[When::Sync, When::Operation(0), When::Operation(1), When::Operation(2)]);
        disk.fail(Failure { when, error_number: random.pick(&ERROR_NUMBERS) });
        match make_calls(&self.other_calls(&self.saved.start, random), file) {
            Err(Error::Before(_)) => Ok(true),
            Err(Error::Header(_) | Error::InPlace(_)) => Ok(false),
            other => Err(format!("{other:?} after a second failure")),
        }
    }

    /// The calls of another session on an image, from begin to commit.
    fn other_calls(&self, image: &[u8], random: &mut Random) -> Vec<Call> {
        let opened = open(image).expect("the image was judged");
        let mut calls = choose_calls(random, image, &opened, &[0; SESSION_LENGTH], &self.saved.signing_key);
        *calls.last_mut().expect("a session has a last call") = Call::Commit;
        calls
    }

    /// Makes a session on an image in a file.
    fn save(
        &self,
        image: &[u8],
        disk: RecordingDisk,
        file: File,
        random: &mut Random,
        tally: &mut Tally,
    ) -> Result<Saved, String> {
        let calls = self.other_calls(image, random);
        let mut bench = Bench::on(self.saved.signing_key, image, disk, file);
        bench.make_step(&calls, tally)?.ok_or("a commit stores a header".into())
    }
}

/// A medium in use: what is on it to stay, and what was stored since and may still land.
struct Medium {
    image: Vec<u8>,
    open: Vec<Operation>,
}

impl Medium {
    /// A store or a sync has failed. Half of the time the system gives up what no sync has followed: some of it has
    /// landed, and the rest never will, whatever a later sync answers. Else all of it may still land.
    fn fail(&mut self, random: &mut Random, record: Vec<Operation>) {
        self.open.extend(record);
        if random.chance(50) {
            return;
        }
        let epoch = epochs(&self.image, &self.open).pop().expect("there is one");
        let moment = epoch.moment(epoch.writes.len());
        let mut landings = moment.choose_landings(random, 2);
        let chosen = random.below(landings.len() as u64) as usize;
        self.image = moment.image(&landings.swap_remove(chosen));
        self.open.clear();
    }
}

/// Makes the calls of a step on a file. A refused write is no failure: without one it is refused too.
fn make_calls(calls: &[Call], file: &mut File) -> Result<(), Error> {
    let (last, others) = calls.split_last().expect("a step has a call");
    for call in others {
        match perform(call, file) {
            Ok(()) | Err(Error::Refused(_)) => {}
            Err(error) => return Err(error),
        }
    }
    perform(last, file)
}

/// What must be reported of a failure.
struct Expected {
    count: &'static str,
    /// A part of the message.
    words: &'static str,
    /// Is the value that failed still good for sessions?
    value_answers: bool,
}

impl Expected {
    fn check(&self, error: &Error, failure: Failure) -> Result<(), String> {
        let (count, source) = match error {
            Error::Before(source) => (BEFORE, source),
            Error::InPlace(source) => (IN_PLACE_FAILED, source),
            Error::Header(source) => (AT_HEADER, source),
            other => return Err(format!("{other:?} is no failure of the disk")),
        };
        require(count == self.count, || format!("{count}, not {}: {error}", self.count))?;
        require(source.raw_os_error() == Some(failure.error_number), || format!("another error: {source}"))?;
        let message = error.to_string();
        let clear = message.contains(self.words) && message.contains(&source.to_string());
        require(clear, || format!("the message does not say it: {message}"))
    }
}
