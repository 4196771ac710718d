//! A disk that keeps the record of what it was asked to do, in order, and fails where it is told to. It holds no bytes:
//! what may be on it after a power failure follows from the record (see `landing`).

use std::cell::RefCell;
use std::io;
use std::rc::Rc;

use teplovist::Disk;

/// What a host asks of a disk.
#[derive(Clone, Debug, PartialEq, Eq)]
pub enum Operation {
    Write { place: usize, bytes: Vec<u8> },
    Sync,
}

/// Which operation fails.
#[derive(Clone, Copy, Debug)]
pub enum When {
    /// The one with this number, counted from when the disk is told to fail.
    Operation(usize),
    /// The first sync.
    Sync,
}

/// One failure, with this error number.
#[derive(Clone, Copy, Debug)]
pub struct Failure {
    pub when: When,
    pub error_number: i32,
}

#[derive(Default)]
struct State {
    record: Vec<Operation>,
    failure: Option<Failure>,
    /// Counted from when the disk was told to fail.
    asked: usize,
    has_failed: bool,
    asked_after_failure: usize,
}

/// A handle: its clones are the same disk, so that a test can look at the record of a disk that it gave away.
#[derive(Clone, Default)]
pub struct RecordingDisk {
    state: Rc<RefCell<State>>,
}

impl RecordingDisk {
    pub fn failing(failure: Failure) -> RecordingDisk {
        let disk = RecordingDisk::default();
        disk.fail(failure);
        disk
    }

    /// From now on the disk works until this failure, and works again after it.
    pub fn fail(&self, failure: Failure) {
        let mut state = self.state.borrow_mut();
        let record = std::mem::take(&mut state.record);
        *state = State { record, failure: Some(failure), ..State::default() };
    }

    /// What was asked since the last call of this.
    pub fn take_record(&self) -> Vec<Operation> {
        std::mem::take(&mut self.state.borrow_mut().record)
    }

    pub fn has_failed(&self) -> bool {
        self.state.borrow().has_failed
    }

    pub fn asked_after_failure(&self) -> usize {
        self.state.borrow().asked_after_failure
    }
}

impl State {
    /// A write that fails may have landed in part, so it is in the record; a sync that fails promises nothing, so it is
    /// not.
    fn ask(&mut self, operation: Operation) -> io::Result<()> {
        self.asked_after_failure += usize::from(self.has_failed);
        let is_sync = operation == Operation::Sync;
        let failure = self.failure.filter(|failure| match failure.when {
            _ if self.has_failed => false,
            When::Operation(number) => number == self.asked,
            When::Sync => is_sync,
        });
        self.asked += 1;
        self.has_failed |= failure.is_some();
        if failure.is_none() || !is_sync {
            self.record.push(operation);
        }
        failure.map_or(Ok(()), |failure| Err(io::Error::from_raw_os_error(failure.error_number)))
    }
}

impl Disk for RecordingDisk {
    fn write_at(&mut self, place: u64, bytes: &[u8]) -> io::Result<()> {
        let place = usize::try_from(place).expect("an image is shorter than this");
        self.state.borrow_mut().ask(Operation::Write { place, bytes: bytes.to_vec() })
    }

    fn sync(&mut self) -> io::Result<()> {
        self.state.borrow_mut().ask(Operation::Sync)
    }
}
