//! The calls that are measured, as all three offer them: the proved library behind its C boundary, the independent
//! rules, and (a). They are made on partition A; an answer of 0 is accepted.

use std::hint::black_box;

use crate::description::DESCRIPTION_LENGTH;
use crate::rules::refusal::answer_code;
use crate::rules::session::SessionBytes;
use crate::straightforward::Straightforward;
use crate::subject::Subject;

const A: u64 = 0;

pub trait Calls {
    fn open(&self, image: &[u8]) -> u64;
    fn read(&self, image: &[u8], place: u64, buffer: &mut [u8]) -> u64;
    fn count(&self, image: &[u8]) -> u64;
    fn begin(&self, image: &mut [u8], session: &mut SessionBytes) -> u64;
    fn write(&self, image: &mut [u8], session: &mut SessionBytes, place: u64, data: &[u8]) -> u64;
    fn commit(&self, image: &mut [u8], session: &mut SessionBytes) -> u64;
}

/// Of the proved library and of the independent rules.
impl<S: Subject> Calls for S {
    fn open(&self, image: &[u8]) -> u64 {
        let mut description = [0; DESCRIPTION_LENGTH];
        let answer = Subject::open(self, image, &mut description);
        black_box(&description);
        answer
    }

    fn read(&self, image: &[u8], place: u64, buffer: &mut [u8]) -> u64 {
        self.read_committed(image, A, place, buffer)
    }

    fn count(&self, image: &[u8]) -> u64 {
        self.count_verified(image, A)
    }

    fn begin(&self, image: &mut [u8], session: &mut SessionBytes) -> u64 {
        Subject::begin(self, image, session)
    }

    fn write(&self, image: &mut [u8], session: &mut SessionBytes, place: u64, data: &[u8]) -> u64 {
        Subject::write(self, image, session, A, place, data)
    }

    fn commit(&self, image: &mut [u8], session: &mut SessionBytes) -> u64 {
        Subject::commit(self, image, session)
    }
}

impl Calls for Straightforward {
    fn open(&self, image: &[u8]) -> u64 {
        answer_code(self.open(image).map(|opened| {
            black_box(&opened);
            0
        }))
    }

    fn read(&self, image: &[u8], place: u64, buffer: &mut [u8]) -> u64 {
        answer_code(self.read_committed(image, A, place, buffer).map(|()| 0))
    }

    fn count(&self, image: &[u8]) -> u64 {
        answer_code(self.count_verified(image, A))
    }

    fn begin(&self, image: &mut [u8], session: &mut SessionBytes) -> u64 {
        answer_code(self.begin(image, session).map(|()| 0))
    }

    fn write(&self, image: &mut [u8], session: &mut SessionBytes, place: u64, data: &[u8]) -> u64 {
        answer_code(self.write(image, session, A, place, data).map(|()| 0))
    }

    fn commit(&self, image: &mut [u8], session: &mut SessionBytes) -> u64 {
        answer_code(self.commit(image, session).map(|()| 0))
    }
}
