//! The order in which an image is stored, and what holds when a store or a sync fails. tests/power tries it on
//! generated images, with any part of what was not synced landed; here are the rules one by one.

mod support;

use std::collections::BTreeSet;
use std::io;

use support::{answers, sample, signer_for, Answers};
use teplovist::{Disk, Error, Image, ImageFile, Key, Kind, Partition, Refusal, Session};

#[derive(Clone, Copy, Debug, PartialEq, Eq)]
enum Step {
    Write { place: u64, length: usize },
    Sync,
}

const HEADER: Step = Step::Write { place: 0x100, length: 0x100 };
const FIRST_SECTOR: Step = Step::Write { place: 0, length: 0x200 };

/// A disk that notes each step, and at one of them fails; of a write that fails past the first sector one half lands.
struct NotingDisk {
    bytes: Vec<u8>,
    steps: Vec<Step>,
    fails_at: Option<usize>,
}

impl NotingDisk {
    fn new(bytes: &[u8]) -> NotingDisk {
        NotingDisk { bytes: bytes.to_vec(), steps: Vec::new(), fails_at: None }
    }

    fn failing_at(bytes: &[u8], step: usize) -> NotingDisk {
        NotingDisk { fails_at: Some(step), ..NotingDisk::new(bytes) }
    }

    /// Whether this step fails.
    fn note(&mut self, step: Step) -> bool {
        self.steps.push(step);
        self.fails_at == Some(self.steps.len() - 1)
    }

    fn answers(&self) -> Answers {
        all_answers(&self.bytes)
    }
}

fn no_space() -> io::Error {
    io::Error::from(io::ErrorKind::StorageFull)
}

impl Disk for NotingDisk {
    fn write_at(&mut self, place: u64, bytes: &[u8]) -> io::Result<()> {
        let fails = self.note(Step::Write { place, length: bytes.len() });
        let landing = if fails && place >= 0x200 { bytes.len().div_ceil(2) } else { bytes.len() };
        let start = place as usize;
        self.bytes[start..start + landing].copy_from_slice(&bytes[..landing]);
        if fails {
            Err(no_space())
        } else {
            Ok(())
        }
    }

    fn sync(&mut self) -> io::Result<()> {
        if self.note(Step::Sync) {
            Err(no_space())
        } else {
            Ok(())
        }
    }
}

fn all_answers(image: &[u8]) -> Answers {
    answers(image, &BTreeSet::new()).expect("the image opens")
}

fn blank() -> Vec<u8> {
    Image::blank(Kind::Disa, 4).expect("so many blocks are allowed").into_inner()
}

/// Two writes, in two blocks, and not yet a commit.
fn staged(disk: &mut NotingDisk) -> ImageFile<&mut NotingDisk> {
    let bytes = disk.bytes.clone();
    let mut file = ImageFile::on_disk(disk, bytes);
    file.begin().expect("the session is idle");
    file.write(Partition::A, 0xFFE, b"over an edge").expect("the blocks are verified");
    file.write(Partition::A, 0x3000, b"elsewhere").expect("the block is verified");
    file
}

/// Everything before the last three steps is a write past the first sector.
fn assert_order(steps: &[Step], front: Step) {
    let (before, last) = steps.split_at(steps.len() - 3);
    assert_eq!(last, [Step::Sync, front, Step::Sync]);
    assert!(before.iter().all(|step| matches!(step, Step::Write { place, .. } if *place >= 0x200)), "{before:?}");
}

#[test]
fn begin_write_and_abandon_never_touch_the_file() {
    let mut disk = NotingDisk::new(&blank());
    let mut file = staged(&mut disk);
    let mut buffer = [0; 9];
    file.read_staged(Partition::A, 0x3000, &mut buffer).expect("it was written");
    assert_eq!(&buffer, b"elsewhere");
    file.image().expect("nothing failed").read(Partition::A, 0x3000, &mut buffer).expect("the block is verified");
    assert_eq!(buffer, [0; 9]);
    file.abandon().expect("the session is begun");
    assert_eq!(*file.session(), Session::new());
    drop(file);
    assert_eq!(disk.steps, []);
}

#[test]
fn a_commit_stores_the_header_last_and_by_one_write() {
    let mut disk = NotingDisk::new(&blank());
    let mut file = staged(&mut disk);
    file.commit().expect("no step fails");
    let shown = file.image().expect("no step failed").bytes().to_vec();
    drop(file);
    assert!(disk.steps.len() > 3);
    assert_order(&disk.steps, HEADER);
    assert_eq!(disk.bytes, shown);
}

#[test]
fn a_signed_commit_stores_the_first_sector_by_one_write() {
    let image = blank();
    let (key, signer) = (Key::new([3; 16]), signer_for(&image));
    let mut disk = NotingDisk::new(&image);
    staged(&mut disk).commit_signed(&key, &signer).expect("no step fails");
    assert_order(&disk.steps, FIRST_SECTOR);
    Image::new(&disk.bytes).open_signed(&key, &signer).expect("it was signed");
}

#[test]
fn a_revert_stores_the_front_alone() {
    let image = blank();
    let (key, signer) = (Key::new([3; 16]), signer_for(&image));
    let mut disk = NotingDisk::new(&image);
    let mut file = staged(&mut disk);
    file.commit().expect("no step fails");
    file.revert().expect("it was just committed");
    file.begin().expect("the session is idle");
    file.commit().expect("no step fails");
    file.revert_signed(&key, &signer).expect("it was just committed");
    assert!(matches!(file.revert(), Err(Error::Refused(Refusal::NothingToRevert))));
    drop(file);
    let reverts: Vec<_> = disk.steps.windows(4).filter(|steps| steps[..2] == [Step::Sync; 2]).collect();
    assert_eq!(
        reverts,
        [[Step::Sync, Step::Sync, HEADER, Step::Sync], [Step::Sync, Step::Sync, FIRST_SECTOR, Step::Sync]]
    );
    assert_eq!(disk.answers(), all_answers(&image));
}

#[test]
fn a_refused_commit_touches_nothing_and_loses_nothing() {
    let mut disk = NotingDisk::new(&blank());
    let mut file = staged(&mut disk);
    let wrong = teplovist::Signer::Quota { id: 1 };
    let refused = file.commit_signed(&Key::new([3; 16]), &wrong);
    assert!(matches!(refused, Err(Error::Refused(Refusal::SignerKind))));
    let mut buffer = [0; 9];
    file.read_staged(Partition::A, 0x3000, &mut buffer).expect("it is still staged");
    assert_eq!(&buffer, b"elsewhere");
    file.commit().expect("no step fails");
    assert!(matches!(file.commit(), Err(Error::Refused(Refusal::SessionState))));
    drop(file);
    assert_eq!(disk.steps.iter().filter(|step| **step == HEADER).count(), 1);
}

/// Each step of a commit fails once. Up to the sync before the header, the old state is there, and a later save, of
/// something else, stores all that the failed one may have left behind; from the header on, the value answers no more.
#[test]
fn each_step_fails_once() {
    let image = blank();
    let mut whole = NotingDisk::new(&image);
    staged(&mut whole).commit().expect("no step fails");
    let header = whole.steps.iter().position(|step| *step == HEADER).expect("the header was stored");
    for step in 0..header {
        fails_before_the_header(&image, step);
    }
    for step in header..whole.steps.len() {
        fails_at_the_header(&image, step, &whole);
    }
}

fn fails_before_the_header(image: &[u8], step: usize) {
    let mut disk = NotingDisk::failing_at(image, step);
    let mut file = staged(&mut disk);
    let error = file.commit().expect_err("a step fails");
    assert!(matches!(&error, Error::Before(source) if source.kind() == io::ErrorKind::StorageFull), "{error}");
    assert!(error.to_string().contains("the file still holds the old state"));
    assert_eq!(all_answers(file.image().expect("the old state is known").bytes()), all_answers(image));
    assert_eq!(*file.session(), Session::new());

    file.begin().expect("the session is idle");
    file.write(Partition::A, 0x2000, b"another").expect("the block is verified");
    file.commit().expect("no step fails any more");
    let shown = file.image().expect("it was committed").bytes().to_vec();
    drop(file);
    assert_eq!(disk.steps.len() - disk.steps.iter().position(|step| *step == HEADER).expect("it was stored"), 2);
    assert!(disk.bytes == shown, "after a failure at step {step} the disk holds other bytes than memory");
}

fn fails_at_the_header(image: &[u8], step: usize, whole: &NotingDisk) {
    let mut disk = NotingDisk::failing_at(image, step);
    let mut file = staged(&mut disk);
    let error = file.commit().expect_err("a step fails");
    assert!(matches!(error, Error::Header(_)), "{error}");
    assert!(error.to_string().contains("open the file again"));
    assert_eq!(*file.session(), Session::new());
    assert!(matches!(file.image(), Err(Error::Reopen)));
    assert!(matches!(file.begin(), Err(Error::Reopen)));
    assert!(matches!(file.write(Partition::A, 0, b"x"), Err(Error::Reopen)));
    assert!(matches!(file.abandon(), Err(Error::Reopen)));
    assert!(matches!(file.commit(), Err(Error::Reopen)));
    assert!(matches!(file.revert(), Err(Error::Reopen)));
    drop(file);
    assert_eq!(disk.steps, whole.steps[..=step]);
    assert_eq!(disk.answers(), whole.answers());
}

/// The sample's partition with an external level 4 is written in place, so that memory shows no more what the file
/// holds.
#[test]
fn a_failure_in_place_says_so() {
    let image = sample("external.img");
    let size = support::description(&image).a.level4().size as usize;
    let mut disk = NotingDisk::failing_at(&image, 0);
    let mut file = ImageFile::on_disk(&mut disk, image.clone());
    file.begin().expect("the session is idle");
    file.write(Partition::A, 0, &vec![0x5A; size]).expect("it covers all blocks");
    let mut buffer = vec![0; size];
    let shown = file.image().expect("nothing failed").read(Partition::A, 0, &mut buffer);
    assert_eq!(shown, Image::new(&image).read(Partition::A, 0, &mut vec![0; size]), "nothing is stored yet");
    let error = file.commit().expect_err("a step fails");
    assert!(matches!(error, Error::InPlace(_)), "{error}");
    assert!(matches!(file.image(), Err(Error::Reopen)));
}

/// What an abandoned session wrote to an external level 4 was never stored.
#[test]
fn an_abandoned_write_in_place_is_forgotten() {
    let image = sample("external.img");
    let size = support::description(&image).a.level4().size as usize;
    let mut disk = NotingDisk::new(&image);
    let mut file = ImageFile::on_disk(&mut disk, image.clone());
    file.begin().expect("the session is idle");
    file.write(Partition::A, 0, &vec![0x5A; size]).expect("it covers all blocks");
    file.abandon().expect("the session is begun");
    file.begin().expect("the session is idle");
    file.commit().expect("no step fails");
    drop(file);
    let blocks = |bytes: &[u8]| Image::new(bytes).faults().expect("the image opens");
    assert_eq!(blocks(&disk.bytes), blocks(&image));
}
