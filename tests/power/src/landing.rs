//! What may be on a medium when power fails. Everything before the last sync has landed. Of what was written since, any
//! part may have: each sector of each write lands or not, in any order, and a sector outside the header's may be torn
//! at any byte.

use outside::generate::random::Random;

use crate::disk::Operation;

/// The unit that a medium stores in one piece.
pub const SECTOR: usize = 0x200;

/// The part of one write that lies in one sector.
#[derive(Clone, Copy, Debug)]
pub struct Piece<'a> {
    place: usize,
    bytes: &'a [u8],
}

/// What has become of a piece.
#[derive(Clone, Copy, Debug, PartialEq, Eq)]
pub enum Landing {
    Missing,
    Whole,
    /// So many bytes at the front are new, those behind them old.
    Front(usize),
    /// So many bytes at the front are old, those behind them new.
    Back(usize),
}

impl Piece<'_> {
    /// Is it in the sector of the header? That one lands whole or not at all.
    pub fn is_header(&self) -> bool {
        self.place < SECTOR
    }

    fn can_be_torn(&self) -> bool {
        !self.is_header() && self.bytes.len() > 1
    }

    fn land(&self, image: &mut [u8], landing: Landing) {
        let landed = match landing {
            Landing::Missing => 0..0,
            Landing::Whole => 0..self.bytes.len(),
            Landing::Front(cut) => 0..cut,
            Landing::Back(cut) => cut..self.bytes.len(),
        };
        image[self.place..][landed.clone()].copy_from_slice(&self.bytes[landed]);
    }

    /// Torn at any of its bytes, either way round.
    fn tear(&self, random: &mut Random) -> Landing {
        let cut = random.between(1, self.bytes.len() as u64 - 1) as usize;
        random.pick(&[Landing::Front(cut), Landing::Back(cut)])
    }
}

/// The pieces of a write, sector by sector.
fn pieces_of<'a>(place: usize, bytes: &'a [u8], pieces: &mut Vec<Piece<'a>>) {
    let mut rest = Piece { place, bytes };
    while !rest.bytes.is_empty() {
        let length = rest.bytes.len().min(SECTOR - rest.place % SECTOR);
        let (bytes, behind) = rest.bytes.split_at(length);
        pieces.push(Piece { place: rest.place, bytes });
        rest = Piece { place: rest.place + length, bytes: behind };
    }
}

/// The writes between two syncs, and the medium before them.
pub struct Epoch<'a> {
    pub synced: Vec<u8>,
    pub writes: Vec<(usize, &'a [u8])>,
}

/// The record cut at its syncs. The last epoch is what no sync has followed, and may be without writes.
pub fn epochs<'a>(start: &[u8], record: &'a [Operation]) -> Vec<Epoch<'a>> {
    let mut epochs = vec![Epoch { synced: start.to_vec(), writes: Vec::new() }];
    for operation in record {
        let last = epochs.last_mut().expect("there is one");
        match operation {
            Operation::Write { place, bytes } => last.writes.push((*place, bytes)),
            Operation::Sync => {
                let synced = last.all_landed();
                epochs.push(Epoch { synced, writes: Vec::new() });
            }
        }
    }
    epochs
}

impl<'a> Epoch<'a> {
    pub fn all_landed(&self) -> Vec<u8> {
        let mut image = self.synced.clone();
        for (place, bytes) in &self.writes {
            image[*place..place + bytes.len()].copy_from_slice(bytes);
        }
        image
    }

    /// The moment right after so many of the writes were asked for.
    pub fn moment(&self, asked: usize) -> Moment<'_> {
        let mut pieces = Vec::new();
        let mut before_last = 0;
        for (place, bytes) in &self.writes[..asked] {
            before_last = pieces.len();
            pieces_of(*place, bytes, &mut pieces);
        }
        Moment { synced: &self.synced, pieces, before_last }
    }
}

/// A moment at which power may fail.
pub struct Moment<'a> {
    synced: &'a [u8],
    /// Of all writes that no sync has followed.
    pub pieces: Vec<Piece<'a>>,
    /// How many pieces those before the last write have.
    before_last: usize,
}

/// Up to so many pieces every subset is tried.
const FEW_PIECES: usize = 4;

impl Moment<'_> {
    pub fn image(&self, landings: &[Landing]) -> Vec<u8> {
        let mut image = self.synced.to_vec();
        for (piece, landing) in self.pieces.iter().zip(landings) {
            piece.land(&mut image, *landing);
        }
        image
    }

    /// How many of the pieces are a header's and have landed.
    pub fn headers_in(&self, landings: &[Landing]) -> usize {
        let pieces = self.pieces.iter().zip(landings);
        pieces.filter(|(piece, landing)| piece.is_header() && **landing == Landing::Whole).count()
    }

    /// Ways in which the pieces may have landed: every subset where there are few, else all, the first alone, the last
    /// alone and some at random; and as many with torn sectors. Where nothing of the last write has landed it is as at
    /// an earlier moment, and not made again; only where there is no last write, nothing has landed.
    pub fn choose_landings(&self, random: &mut Random, effort: usize) -> Vec<Vec<Landing>> {
        let count = self.pieces.len();
        let mut subsets: Vec<Vec<bool>> = if count <= FEW_PIECES {
            (0..1usize << count).map(|set| (0..count).map(|piece| set >> piece & 1 == 1).collect()).collect()
        } else {
            let only = |chosen: usize| (0..count).map(|piece| piece == chosen).collect();
            let mut subsets = vec![vec![true; count], only(count - 1), only(self.before_last)];
            subsets.dedup();
            subsets.extend((0..effort).map(|_| self.random_subset(random)));
            subsets
        };
        subsets.retain(|subset| count == 0 || subset[self.before_last..].contains(&true));
        let mut landings: Vec<Vec<Landing>> = subsets.iter().map(|subset| whole(subset)).collect();
        for subset in subsets.iter().take(effort.max(1)) {
            landings.extend(self.torn(random, subset));
        }
        landings
    }

    /// Any subset that has a piece of the last write.
    fn random_subset(&self, random: &mut Random) -> Vec<bool> {
        let share = random.pick(&[10, 50, 90]);
        let mut subset: Vec<bool> = self.pieces.iter().map(|_| random.chance(share)).collect();
        let last = random.between(self.before_last as u64, self.pieces.len() as u64 - 1);
        subset[last as usize] = true;
        subset
    }

    /// The subset with half of its pieces torn, and at least one; none if none of them can be.
    fn torn(&self, random: &mut Random, subset: &[bool]) -> Option<Vec<Landing>> {
        let can_be_torn: Vec<usize> =
            (0..subset.len()).filter(|piece| subset[*piece] && self.pieces[*piece].can_be_torn()).collect();
        if can_be_torn.is_empty() {
            return None;
        }
        let mut landings = whole(subset);
        let certain = random.pick(&can_be_torn);
        for piece in can_be_torn {
            if piece == certain || random.chance(50) {
                landings[piece] = self.pieces[piece].tear(random);
            }
        }
        Some(landings)
    }
}

fn whole(subset: &[bool]) -> Vec<Landing> {
    subset.iter().map(|landed| if *landed { Landing::Whole } else { Landing::Missing }).collect()
}

pub fn is_torn(landings: &[Landing]) -> bool {
    landings.iter().any(|landing| matches!(landing, Landing::Front(_) | Landing::Back(_)))
}

#[cfg(test)]
mod tests {
    use super::*;

    const LENGTH: usize = 4 * SECTOR;

    fn write(place: usize, length: usize) -> Operation {
        Operation::Write { place, bytes: vec![1; length] }
    }

    /// A write over three sectors has three pieces, each in its own.
    #[test]
    fn a_write_is_cut_at_sectors() {
        let record = [write(SECTOR + 500, SECTOR + 20)];
        let epochs = epochs(&[0; LENGTH], &record);
        let pieces = epochs[0].moment(1).pieces;
        let places: Vec<(usize, usize)> = pieces.iter().map(|piece| (piece.place, piece.bytes.len())).collect();
        assert_eq!(places, [(SECTOR + 500, 12), (2 * SECTOR, SECTOR), (3 * SECTOR, 8)]);
    }

    /// What a sync has followed is there; the rest is there or not, each in its turn.
    #[test]
    fn every_subset_of_few_pieces() {
        let record = [write(600, 1), Operation::Sync, write(601, 1), write(602, 1)];
        let epochs = epochs(&[0; LENGTH], &record);
        let mut found = Vec::new();
        for asked in 0..=2 {
            let moment = epochs[1].moment(asked);
            let landings = moment.choose_landings(&mut Random::new(1), 1);
            found.extend(landings.iter().map(|landings| moment.image(landings)[600..603].to_vec()));
        }
        found.sort();
        assert_eq!(found, [[1, 0, 0], [1, 0, 1], [1, 1, 0], [1, 1, 1]]);
    }

    /// Of many pieces each may be missing, whole or torn at any byte, but the header's is never torn.
    #[test]
    fn tears() {
        let record = [write(0, SECTOR), write(SECTOR, 3 * SECTOR), write(700, 3), write(800, 3)];
        let epochs = epochs(&[0; LENGTH], &record);
        let moment = epochs[0].moment(record.len());
        let random = &mut Random::new(1);
        let mut cuts = std::collections::BTreeSet::new();
        for landings in (0..5000).flat_map(|_| moment.choose_landings(random, 4)) {
            for (piece, landing) in moment.pieces.iter().zip(&landings) {
                let torn = matches!(landing, Landing::Front(_) | Landing::Back(_));
                assert!(!torn || !piece.is_header());
                if let (SECTOR, Landing::Front(cut) | Landing::Back(cut)) = (piece.place, landing) {
                    cuts.insert(*cut);
                }
            }
        }
        assert_eq!(cuts.len(), SECTOR - 1);
    }

    #[test]
    fn a_torn_piece_has_old_bytes_and_new_ones() {
        let piece = Piece { place: SECTOR, bytes: &[1; 4] };
        for (landing, expected) in [(Landing::Front(1), [1, 0, 0, 0]), (Landing::Back(1), [0, 1, 1, 1])] {
            let mut image = [0; LENGTH];
            piece.land(&mut image, landing);
            assert_eq!(image[SECTOR..SECTOR + 4], expected);
        }
    }
}
