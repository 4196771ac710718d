//! A scenario: sessions in a row on one image, each judged at every moment at which power may fail. Now and then power
//! does fail, and the next session starts on what was left.

use outside::generate::random::Random;
use outside::generate::shape::Wanted;
use outside::generate::signing::SigningKey;
use outside::generate::valid_image;
use outside::rules::blank::{blank_length, make_blank};
use outside::rules::header::{Kind, FRONT};
use outside::rules::opening::open;
use outside::rules::session::{SessionBytes, SESSION_LENGTH};
use outside::subject::Rules;
use outside::trial::call::Call;
use outside::trial::properties::require;
use teplovist::{ImageFile, Session};

use crate::disk::RecordingDisk;
use crate::host::{nothing_between, perform, same_answer, AnyDisk, Between, File};
use crate::in_place::InPlace;
use crate::judge::Answers;
use crate::saved::Saved;
use crate::step::{choose_calls, stores_header};
use crate::tally::*;

/// Runs the scenario of this seed; the complaint says what went wrong.
pub fn run_scenario(seed: u64, between: Between, tally: &mut Tally) -> Result<(), String> {
    let random = &mut Random::new(seed);
    tally.note(SCENARIOS);
    let mut bench = Bench::new(random, between);
    for step in 0..random.between(1, MOST_STEPS) {
        bench.run_step(random, tally).map_err(|complaint| format!("step {step}: {complaint}"))?;
    }
    Ok(())
}

const MOST_STEPS: u64 = 6;
const MOST_BLANK_BLOCKS: u64 = 4;

/// An image on a disk, the host's file on it, and the same image as the independent implementation has it.
pub struct Bench {
    between: Between,
    pub signing_key: SigningKey,
    blank: bool,
    /// What is on the medium to stay.
    pub stored: Vec<u8>,
    disk: RecordingDisk,
    file: File,
    /// What the rules make of the same calls.
    reference: Vec<u8>,
    pub session: SessionBytes,
    /// Has power failed since the last header was stored?
    resumed: bool,
}

impl Bench {
    pub fn new(random: &mut Random, between: Between) -> Bench {
        let blank = random.chance(10);
        let mut image = if blank { blank_image(random) } else { any_image(random) };
        let signing_key = SigningKey::choose(random, &image);
        if random.chance(60) {
            signing_key.sign(&mut image);
        }
        let disk = RecordingDisk::default();
        let file = file_on(between(disk.clone(), &image), &image, &[0; SESSION_LENGTH]);
        Bench { between, blank, ..Bench::on(signing_key, &image, disk, file) }
    }

    /// An image that is on a disk already, in a file whose session is fresh.
    pub fn on(signing_key: SigningKey, image: &[u8], disk: RecordingDisk, file: File) -> Bench {
        Bench {
            between: nothing_between,
            signing_key,
            blank: false,
            stored: image.to_vec(),
            disk,
            file,
            reference: image.to_vec(),
            session: [0; SESSION_LENGTH],
            resumed: false,
        }
    }

    pub fn choose_calls(&self, random: &mut Random) -> Vec<Call> {
        let opened = open(&self.stored).expect("what is stored was judged");
        choose_calls(random, &self.stored, &opened, &self.session, &self.signing_key)
    }

    /// Makes the calls of a step and judges what the disk was asked to do.
    fn run_step(&mut self, random: &mut Random, tally: &mut Tally) -> Result<(), String> {
        let calls = self.choose_calls(random);
        let last = calls.last().expect("a step has a call");
        let Some(saved) = self.make_step(&calls, tally)? else { return Ok(()) };
        let in_step = |complaint: String| format!("{last}: {complaint}");
        let left = saved.judge_crashes(random, tally).map_err(in_step)?;
        self.stored = saved.judge_report(random, tally).map_err(in_step)?;
        saved.judge_stores().map_err(in_step)?;
        self.check_file(&saved.after, random).map_err(in_step)?;
        self.note_header(last, &saved.in_place, tally);
        if random.chance(30) {
            self.resume(left);
        }
        Ok(())
    }

    /// Makes the calls of a step with the host and by the rules. Gives what is to be judged, if a header was stored;
    /// what is on the medium to stay is then for the judge to say.
    pub fn make_step(&mut self, calls: &[Call], tally: &mut Tally) -> Result<Option<Saved>, String> {
        let (last, others) = calls.split_last().expect("a step has a call");
        let mut in_place = InPlace::default();
        for call in others {
            self.make_call(call, &mut in_place, tally).map_err(|complaint| format!("{call}: {complaint}"))?;
            require(self.disk.take_record().is_empty(), || format!("{call} touched the disk"))?;
        }
        self.make_call(last, &mut in_place, tally).map_err(|complaint| format!("{last}: {complaint}"))?;
        let record = self.disk.take_record();
        if !stores_header(last) {
            tally.note(ABANDONED);
            // The file holds what it held, and so must the host's memory.
            self.reference.clone_from(&self.stored);
            require(record.is_empty(), || format!("{last} touched the disk"))?;
            return Ok(None);
        }
        let signing_key = self.signing_key;
        let before = Answers::of(&self.stored, &signing_key);
        let after = Answers::of(&self.reference, &signing_key);
        let signs = matches!(last, Call::CommitSigned { .. } | Call::RevertSigned { .. });
        require(!signs || after.is_signed(), || format!("{last}: the image is not signed"))?;
        Ok(Some(Saved { start: self.stored.clone(), record, before, after, in_place, signing_key }))
    }

    /// One call, by the host and by the rules: the answers must be the same.
    fn make_call(&mut self, call: &Call, in_place: &mut InPlace, tally: &mut Tally) -> Result<(), String> {
        let outcome = call.perform(&Rules, &mut self.reference, &mut self.session);
        let answer = perform(call, &mut self.file);
        require(same_answer(&answer, outcome.answer), || format!("{answer:?}, not {:#x}", outcome.answer))?;
        if matches!(call, Call::Write { .. }) {
            tally.note(if outcome.accepted() { WRITES } else { REFUSED });
        } else {
            require(outcome.accepted(), || format!("refused with {:#x}", outcome.answer))?;
        }
        if outcome.accepted() {
            in_place.note(call, &open(&self.stored).expect("what is stored was judged"));
        }
        require(self.file.session().as_bytes() == &self.session, || "the session differs".into())
    }

    /// What the host holds in memory answers as after the step, and the first sector is byte for byte as the rules make
    /// it.
    fn check_file(&self, after: &Answers, random: &mut Random) -> Result<(), String> {
        let front = ..FRONT as usize;
        require(self.stored[front] == self.reference[front], || "the first sector differs".into())?;
        let image = self.file.image().map_err(|error| error.to_string())?;
        after
            .check(image.bytes(), &self.signing_key, random)
            .map_err(|complaint| format!("what is in memory does not answer as after the step: {complaint}"))
    }

    /// Power has failed, and this is what it left: the file is opened again, and nothing is remembered.
    fn resume(&mut self, left: Vec<u8>) {
        self.session = [0; SESSION_LENGTH];
        self.disk = RecordingDisk::default();
        self.file = file_on((self.between)(self.disk.clone(), &left), &left, &self.session);
        self.reference.clone_from(&left);
        self.stored = left;
        self.resumed = true;
    }

    fn note_header(&mut self, call: &Call, in_place: &InPlace, tally: &mut Tally) {
        let opened = open(&self.stored).expect("what is stored was judged");
        tally.note(match call {
            Call::Commit => COMMITS,
            Call::CommitSigned { .. } => SIGNED_COMMITS,
            Call::Revert => REVERTS,
            _ => SIGNED_REVERTS,
        });
        tally.note_if(opened.header.kind == Kind::Diff, DIFFS);
        tally.note_if(opened.partitions.len() == 2, TWO_PARTITIONS);
        tally.note_if(!in_place.is_empty(), IN_PLACE);
        tally.note_if(self.blank, BLANKS);
        tally.note_if(std::mem::take(&mut self.resumed), RESUMED);
    }
}

/// A file on a disk that holds this image, with the session that is remembered.
pub fn file_on(disk: AnyDisk, image: &[u8], session: &SessionBytes) -> File {
    let mut file = ImageFile::on_disk(disk, image.to_vec());
    file.set_session(Session::from_bytes(*session));
    file
}

/// An image of any shape, with a level 4 so small that all moments of a session can be judged.
fn any_image(random: &mut Random) -> Vec<u8> {
    let most = random.pick(&[40, 400, 400, 400, 3000]);
    let log = if random.chance(85) { random.between(5, 8) } else { random.between(9, 12) };
    let data = Some((random.between(1, most), log));
    valid_image(random, &Wanted { data, ..Wanted::default() }).image
}

fn blank_image(random: &mut Random) -> Vec<u8> {
    let blocks = random.between(1, MOST_BLANK_BLOCKS);
    let length = blank_length(blocks).expect("so few blocks are allowed");
    let mut image = vec![0; length as usize];
    make_blank(&mut image, random.pick(&[Kind::Disa, Kind::Diff]), blocks).expect("the length is right");
    image
}
