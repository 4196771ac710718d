//! A step that has stored a header, with all that is needed to judge what a power failure inside it may leave.

use outside::generate::random::Random;
use outside::generate::signing::SigningKey;
use outside::rules::opening::open;
use outside::rules::protected::free_bytes;
use outside::trial::properties::require;

use crate::disk::Operation;
use crate::in_place::InPlace;
use crate::judge::Answers;
use crate::landing::{epochs, is_torn, Epoch, Landing, Moment, SECTOR};
use crate::tally::{Tally, IMAGES, LANDED, TORN};

pub struct Saved {
    /// The medium before the step, and what it was asked to do in it.
    pub start: Vec<u8>,
    pub record: Vec<Operation>,
    pub before: Answers,
    pub after: Answers,
    pub in_place: InPlace,
    pub signing_key: SigningKey,
}

/// A record of so many operations has one random subset for each; shorter ones have more.
const LONG_RECORD: usize = 40;
const MOST_EFFORT: usize = 4;

impl Saved {
    /// Judges crash images of every moment. Gives one of them, any, to go on from.
    pub fn judge_crashes(&self, random: &mut Random, tally: &mut Tally) -> Result<Vec<u8>, String> {
        let effort = (LONG_RECORD / self.record.len().max(1)).clamp(1, MOST_EFFORT);
        let mut kept = Kept::new(self.start.clone());
        let epochs = epochs(&self.start, &self.record);
        let headers = epochs.iter().map(headers_of).sum();
        let mut headers_landed = 0;
        for epoch in epochs.iter().filter(|epoch| !epoch.writes.is_empty()) {
            for asked in 0..=epoch.writes.len() {
                let moment = epoch.moment(asked);
                for landings in moment.choose_landings(random, effort) {
                    let header_landed = headers_landed + moment.headers_in(&landings) == headers;
                    let image =
                        self.judge_crash(random, tally, &moment, &landings, header_landed).map_err(|complaint| {
                            format!("a crash after {asked} of {} unsynced writes: {complaint}", epoch.writes.len())
                        })?;
                    kept.offer(random, image);
                }
            }
            headers_landed += headers_of(epoch);
        }
        Ok(kept.image)
    }

    /// Judges one crash image, and gives it.
    pub fn judge_crash(
        &self,
        random: &mut Random,
        tally: &mut Tally,
        moment: &Moment,
        landings: &[Landing],
        header_landed: bool,
    ) -> Result<Vec<u8>, String> {
        let image = moment.image(landings);
        tally.note(IMAGES);
        tally.note_if(is_torn(landings), TORN);
        tally.note_if(header_landed, LANDED);
        self.judge(&image, header_landed, random)?;
        Ok(image)
    }

    /// An image that a crash has left answers as before the step, or as after it once the header has landed.
    pub fn judge(&self, image: &[u8], header_landed: bool, random: &mut Random) -> Result<(), String> {
        let expected = match header_landed {
            true => self.after.clone(),
            false => self.before.with_in_place(image, &self.after, &self.in_place)?,
        };
        let moment = if header_landed { "after" } else { "before" };
        expected
            .check(image, &self.signing_key, random)
            .map_err(|complaint| format!("it does not answer as {moment} the step: {complaint}"))
    }

    /// What was reported is there to stay: it is on the medium even if nothing lands of what no sync has followed.
    /// Gives that medium.
    pub fn judge_report(&self, random: &mut Random, tally: &mut Tally) -> Result<Vec<u8>, String> {
        let Epoch { synced, .. } = epochs(&self.start, &self.record).pop().expect("there is one");
        tally.note(IMAGES);
        tally.note(LANDED);
        self.judge(&synced, true, random).map_err(|complaint| format!("a crash after the report: {complaint}"))?;
        Ok(synced)
    }

    /// Stores before the header lie in bytes that nothing rests on, or in what the session wrote in place; and the
    /// header is one store within its sector. A byte that is stored again as it was shows in no crash image, so this is
    /// asked of the record.
    pub fn judge_stores(&self) -> Result<(), String> {
        let opened = open(&self.start).map_err(|refusal| format!("the medium does not open: {refusal:?}"))?;
        let mut free = free_bytes(&self.start, &opened);
        self.in_place.positions().iter().for_each(|range| free[range.clone()].fill(true));
        let mut headers = 0;
        for operation in &self.record {
            let Operation::Write { place, bytes } = operation else { continue };
            let range = *place..place + bytes.len();
            if range.start < SECTOR {
                headers += 1;
                require(range.end <= SECTOR, || format!("a store of {range:x?} leaves the header's sector"))?;
            } else {
                let live = range.clone().find(|place| !free[*place]);
                require(live.is_none(), || format!("a store of {range:x?} covers a live byte at {live:x?}"))?;
            }
        }
        require(headers == 1, || format!("there are {headers} stores of a header, not one"))
    }
}

/// How many pieces of a header are written between two syncs. A header has landed when all have that the step writes:
/// of the host as it is shipped, one.
fn headers_of(epoch: &Epoch) -> usize {
    let moment = epoch.moment(epoch.writes.len());
    moment.headers_in(&vec![Landing::Whole; moment.pieces.len()])
}

/// One of the images that were offered, each as likely as another.
struct Kept {
    image: Vec<u8>,
    offered: u64,
}

impl Kept {
    fn new(image: Vec<u8>) -> Kept {
        Kept { image, offered: 1 }
    }

    fn offer(&mut self, random: &mut Random, image: Vec<u8>) {
        self.offered += 1;
        if random.below(self.offered) == 0 {
            self.image = image;
        }
    }
}
