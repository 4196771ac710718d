//! A contender with an image of its own and a begun session on it.

use crate::calls::Calls;
use crate::rules::session::{SessionBytes, SESSION_LENGTH};
use crate::timing::per_call;

pub fn accepted(answer: u64) {
    assert_eq!(answer, 0, "the call is refused");
}

pub struct Begun<'a> {
    calls: &'a dyn Calls,
    pub image: Vec<u8>,
    session: SessionBytes,
}

impl<'a> Begun<'a> {
    pub fn new(calls: &'a dyn Calls, image: &[u8]) -> Begun<'a> {
        let mut begun = Begun { calls, image: image.to_vec(), session: [0; SESSION_LENGTH] };
        begun.begin();
        begun
    }

    /// Begins a session; one that was begun before is forgotten.
    pub fn begin(&mut self) {
        self.session = [0; SESSION_LENGTH];
        accepted(self.calls.begin(&mut self.image, &mut self.session));
    }

    pub fn write(&mut self, place: usize, data: &[u8]) {
        accepted(self.calls.write(&mut self.image, &mut self.session, place as u64, data));
    }

    pub fn commit(&mut self) {
        accepted(self.calls.commit(&mut self.image, &mut self.session));
    }

    pub fn read(&self, place: usize, buffer: &mut [u8]) {
        accepted(self.calls.read(&self.image, place as u64, buffer));
    }

    /// Turns that write the same place again and again, each time other bytes than the last. The first write, which
    /// moves what it touches off the live copies, is made before.
    pub fn writing(&mut self, place: usize, data: [&'a [u8]; 2]) -> impl FnMut() -> f64 + use<'_, 'a> {
        self.write(place, data[0]);
        let mut last = 0;
        move || {
            last = 1 - last;
            per_call(1, || self.write(place, data[last]))
        }
    }
}
