//! Hosts that keep the library's premise wrongly must be found, each within so many crash images. Each is the shipped
//! host with a disk in between that does one thing wrong.

use std::io;

use power::disk::RecordingDisk;
use power::failing::run_failures;
use power::host::{nothing_between, AnyDisk, Between};
use power::landing::SECTOR;
use power::scenario::run_scenario;
use power::tally::{Tally, IMAGES, SCENARIOS};
use teplovist::Disk;

const MOST_IMAGES: u64 = 200;

/// What is run with a wrong host: sessions with power failures, or sessions with failing stores and syncs.
type Run = fn(u64, Between, &mut Tally) -> Result<(), String>;

/// Runs scenarios until one complains, and gives the complaint.
fn complaint_of(run: Run, between: Between) -> String {
    let mut tally = Tally::default();
    for seed in 1.. {
        if let Err(complaint) = run(seed, between, &mut tally) {
            println!("found after {} images of {} scenarios: {complaint}", tally.count(IMAGES), tally.count(SCENARIOS));
            return complaint;
        }
        assert!(tally.count(IMAGES) < MOST_IMAGES, "not found within {MOST_IMAGES} images");
    }
    unreachable!("the images run out first")
}

fn assert_found(between: Between, words: &str) {
    assert_found_by(run_scenario, between, words);
}

fn assert_found_by(run: Run, between: Between, words: &str) {
    let complaint = complaint_of(run, between);
    assert!(complaint.contains(words), "found for another reason: {complaint}");
}

fn is_header(place: u64) -> bool {
    place < SECTOR as u64
}

/// The shipped host passes the same scenarios.
#[test]
fn the_shipped_host_is_right() {
    for run in [run_scenario as Run, run_failures] {
        let mut tally = Tally::default();
        let mut seeds = 1..;
        while tally.count(IMAGES) < MOST_IMAGES {
            let seed = seeds.next().expect("there is always another");
            run(seed, nothing_between, &mut tally).unwrap_or_else(|complaint| panic!("seed {seed}: {complaint}"));
        }
    }
}

/// Stores the header, and only then what it speaks of.
struct HeaderFirst {
    disk: RecordingDisk,
    held: Vec<(u64, Vec<u8>)>,
}

impl Disk for HeaderFirst {
    fn write_at(&mut self, place: u64, bytes: &[u8]) -> io::Result<()> {
        if !is_header(place) {
            self.held.push((place, bytes.to_vec()));
            return Ok(());
        }
        self.disk.write_at(place, bytes)?;
        self.disk.sync()?;
        self.held.drain(..).try_for_each(|(place, bytes)| self.disk.write_at(place, &bytes))
    }

    fn sync(&mut self) -> io::Result<()> {
        if self.held.is_empty() {
            self.disk.sync()
        } else {
            Ok(())
        }
    }
}

#[test]
fn header_first() {
    assert_found(|disk, _| AnyDisk::new(HeaderFirst { disk, held: Vec::new() }), "does not answer as after the step");
}

/// Passes the sync after the header on, and no other.
struct NoSyncBefore {
    disk: RecordingDisk,
    header_stored: bool,
}

impl Disk for NoSyncBefore {
    fn write_at(&mut self, place: u64, bytes: &[u8]) -> io::Result<()> {
        self.header_stored |= is_header(place);
        self.disk.write_at(place, bytes)
    }

    fn sync(&mut self) -> io::Result<()> {
        if std::mem::take(&mut self.header_stored) {
            self.disk.sync()
        } else {
            Ok(())
        }
    }
}

#[test]
fn no_sync_before_the_header() {
    assert_found(
        |disk, _| AnyDisk::new(NoSyncBefore { disk, header_stored: false }),
        "does not answer as after the step",
    );
}

/// Reports what no sync has followed.
struct NoSyncAfter {
    disk: RecordingDisk,
    header_stored: bool,
}

impl Disk for NoSyncAfter {
    fn write_at(&mut self, place: u64, bytes: &[u8]) -> io::Result<()> {
        self.header_stored = is_header(place);
        self.disk.write_at(place, bytes)
    }

    fn sync(&mut self) -> io::Result<()> {
        if std::mem::take(&mut self.header_stored) {
            Ok(())
        } else {
            self.disk.sync()
        }
    }
}

#[test]
fn no_sync_after_the_header() {
    assert_found(|disk, _| AnyDisk::new(NoSyncAfter { disk, header_stored: false }), "a crash after the report");
}

/// Stores the header in pieces, so that power may fail between them.
struct HeaderInPieces(RecordingDisk);

impl Disk for HeaderInPieces {
    fn write_at(&mut self, place: u64, bytes: &[u8]) -> io::Result<()> {
        let length = if is_header(place) { 16 } else { bytes.len() };
        let pieces = (place..).step_by(length).zip(bytes.chunks(length));
        pieces.into_iter().try_for_each(|(place, piece)| self.0.write_at(place, piece))
    }

    fn sync(&mut self) -> io::Result<()> {
        self.0.sync()
    }
}

#[test]
fn header_in_pieces() {
    assert_found(|disk, _| AnyDisk::new(HeaderInPieces(disk)), "does not answer as before the step");
}

/// Stores whole sectors, with the bytes between the runs as they are. None of these changes, but live ones are stored
/// again.
struct WholeSectors {
    disk: RecordingDisk,
    image: Vec<u8>,
}

impl Disk for WholeSectors {
    fn write_at(&mut self, place: u64, bytes: &[u8]) -> io::Result<()> {
        let start = place as usize;
        self.image[start..start + bytes.len()].copy_from_slice(bytes);
        let from = start - start % SECTOR;
        let to = (start + bytes.len()).next_multiple_of(SECTOR).min(self.image.len());
        self.disk.write_at(from as u64, &self.image[from..to])
    }

    fn sync(&mut self) -> io::Result<()> {
        self.disk.sync()
    }
}

#[test]
fn a_run_that_covers_live_bytes() {
    assert_found(|disk, image| AnyDisk::new(WholeSectors { disk, image: image.to_vec() }), "covers a live byte");
}

/// Stores one byte too many behind each run.
struct OneByteMore {
    disk: RecordingDisk,
    length: usize,
}

impl Disk for OneByteMore {
    fn write_at(&mut self, place: u64, bytes: &[u8]) -> io::Result<()> {
        let mut bytes = bytes.to_vec();
        if !is_header(place) && place as usize + bytes.len() < self.length {
            bytes.push(0xA5);
        }
        self.disk.write_at(place, &bytes)
    }

    fn sync(&mut self) -> io::Result<()> {
        self.disk.sync()
    }
}

#[test]
fn a_run_that_changes_a_live_byte() {
    let between: Between = |disk, image| AnyDisk::new(OneByteMore { disk, length: image.len() });
    assert_found(between, "a crash after");
}

/// Loses every fifth run.
struct LosesRuns {
    disk: RecordingDisk,
    stored: usize,
}

impl Disk for LosesRuns {
    fn write_at(&mut self, place: u64, bytes: &[u8]) -> io::Result<()> {
        self.stored += 1;
        if self.stored.is_multiple_of(5) && !is_header(place) {
            Ok(())
        } else {
            self.disk.write_at(place, bytes)
        }
    }

    fn sync(&mut self) -> io::Result<()> {
        self.disk.sync()
    }
}

#[test]
fn lost_runs() {
    assert_found(|disk, _| AnyDisk::new(LosesRuns { disk, stored: 0 }), "does not answer as after the step");
}

/// Tries a store that failed once more.
struct TriesAgain(RecordingDisk);

impl Disk for TriesAgain {
    fn write_at(&mut self, place: u64, bytes: &[u8]) -> io::Result<()> {
        self.0.write_at(place, bytes).or_else(|_| self.0.write_at(place, bytes))
    }

    fn sync(&mut self) -> io::Result<()> {
        self.0.sync()
    }
}

#[test]
fn a_store_that_is_tried_again() {
    assert_found_by(run_failures, |disk, _| AnyDisk::new(TriesAgain(disk)), "a failure was not reported");
}

/// Takes a sync for done that was not.
struct DeafToSyncs(RecordingDisk);

impl Disk for DeafToSyncs {
    fn write_at(&mut self, place: u64, bytes: &[u8]) -> io::Result<()> {
        self.0.write_at(place, bytes)
    }

    fn sync(&mut self) -> io::Result<()> {
        self.0.sync().or(Ok(()))
    }
}

#[test]
fn a_failed_sync_that_is_not_reported() {
    assert_found_by(run_failures, |disk, _| AnyDisk::new(DeafToSyncs(disk)), "a failure was not reported");
}

/// Reports a failure, but goes on with the stores that were asked for before.
struct GoesOn {
    disk: RecordingDisk,
    held: Option<(u64, Vec<u8>)>,
}

impl Disk for GoesOn {
    fn write_at(&mut self, place: u64, bytes: &[u8]) -> io::Result<()> {
        let stored = self.disk.write_at(place, bytes);
        if let (Err(_), Some((place, bytes))) = (&stored, self.held.take()) {
            self.disk.write_at(place, &bytes)?;
        }
        self.held = Some((place, bytes.to_vec()));
        stored
    }

    fn sync(&mut self) -> io::Result<()> {
        self.disk.sync()
    }
}

#[test]
fn stores_after_a_failure() {
    assert_found_by(run_failures, |disk, _| AnyDisk::new(GoesOn { disk, held: None }), "it was tried again");
}
