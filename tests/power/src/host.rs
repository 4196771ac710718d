//! The host's code under test: calls on an image in a file, whose disk may be any.

use std::io;

use outside::rules::signing::{Signer as SignerOfRules, SignerNumbers};
use outside::trial::call::Call;
use teplovist::{Disk, Error, ImageFile, Key, Partition, Signer};

use crate::disk::RecordingDisk;

/// A disk of any kind: the recording one itself, or one that does wrong things with it.
pub struct AnyDisk(Box<dyn Disk>);

impl AnyDisk {
    pub fn new(disk: impl Disk + 'static) -> AnyDisk {
        AnyDisk(Box::new(disk))
    }
}

impl Disk for AnyDisk {
    fn write_at(&mut self, place: u64, bytes: &[u8]) -> io::Result<()> {
        self.0.write_at(place, bytes)
    }

    fn sync(&mut self) -> io::Result<()> {
        self.0.sync()
    }
}

pub type File = ImageFile<AnyDisk>;

/// What stands between the host and the disk that holds these bytes.
pub type Between = fn(RecordingDisk, &[u8]) -> AnyDisk;

/// Nothing: this is the host as it is shipped.
pub fn nothing_between(disk: RecordingDisk, _image: &[u8]) -> AnyDisk {
    AnyDisk::new(disk)
}

/// Makes a call of a session on the file.
pub fn perform(call: &Call, file: &mut File) -> Result<(), Error> {
    match call {
        Call::Begin => file.begin(),
        Call::Write { partition, place, data } => file.write(partition_of(*partition), *place, data),
        Call::Abandon => file.abandon(),
        Call::Commit => file.commit(),
        Call::CommitSigned { signing_key } => {
            file.commit_signed(&Key::new(signing_key.key), &signer_of(signing_key.signer))
        }
        Call::Revert => file.revert(),
        Call::RevertSigned { signing_key } => {
            file.revert_signed(&Key::new(signing_key.key), &signer_of(signing_key.signer))
        }
        other => unreachable!("{other} is no call of a session"),
    }
}

fn partition_of(number: u64) -> Partition {
    if number == Partition::A.number() {
        Partition::A
    } else {
        Partition::B
    }
}

fn signer_of(numbers: SignerNumbers) -> Signer {
    match SignerOfRules::from_numbers(numbers) {
        SignerOfRules::Gamecard => Signer::Card,
        SignerOfRules::Sd { title } => Signer::Title { id: title },
        SignerOfRules::System { save } => Signer::System { id: save },
        SignerOfRules::Quota { extdata } => Signer::Quota { id: extdata },
        SignerOfRules::File { extdata, name, directory } => {
            Signer::Device { id: extdata, file: name, folder: directory }
        }
        SignerOfRules::Database { database } => Signer::Database { id: database },
    }
}

/// An answer's bits for the refusal's number.
const REFUSAL: u64 = 0xFF;

/// Is this what the independent implementation answered: accepted, or the same refusal?
pub fn same_answer(found: &Result<(), Error>, expected: u64) -> bool {
    match found {
        Ok(()) => expected == 0,
        Err(Error::Refused(refusal)) => u64::from(refusal.number()) == expected & REFUSAL,
        Err(_) => false,
    }
}
