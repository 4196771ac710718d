//! Which bytes of a file a commit stores, and which of them last.

use std::ops::Range;

use crate::boundary::{HEADER, HEADER_SIZE};
use crate::Extent;

/// The front of an image, its first sector: the signature, bytes that nobody changes, and the header. It is stored
/// last.
pub const FRONT_SIZE: usize = HEADER + HEADER_SIZE;

/// Bytes that are compared at once. Most of an image stays as it is, and long slices compare faster than bytes.
const CHUNK: usize = 4096;

/// Bytes that are stored by one write.
#[derive(Clone, Copy, Debug, PartialEq, Eq)]
pub struct Run {
    pub place: usize,
    pub length: usize,
}

impl Run {
    /// The places of its bytes.
    pub fn range(self) -> Range<usize> {
        self.place..self.place + self.length
    }

    pub(crate) fn overlaps(self, extent: Extent) -> bool {
        (self.place as u64) < extent.end() && extent.offset < self.range().end as u64
    }
}

/// What has to be stored: first the runs, in any order, and when they are there to stay, the front by one write.
#[derive(Clone, Debug, PartialEq, Eq)]
pub struct Plan {
    pub runs: Vec<Run>,
    pub front: Option<Run>,
}

/// From the image as it is stored, and the image as it is to be, to what has to be stored. The runs are the changed
/// bytes past the front and no others: a byte between two of them may be one that the committed data rests on, and such
/// a byte is not even stored again as it was. The front is the header, or the whole first sector if the signature
/// changed too.
///
/// Both images must have the same length.
///
/// ```
/// use teplovist::{plan, Run};
///
/// let before = vec![0; 0x300];
/// let mut after = before.clone();
/// after[0x168] = 1; // in the header
/// after[0x210..0x214].fill(2);
/// after[0x2FF] = 3;
/// let planned = plan(&before, &after);
/// assert_eq!(planned.runs, [Run { place: 0x210, length: 4 }, Run { place: 0x2FF, length: 1 }]);
/// assert_eq!(planned.front, Some(Run { place: 0x100, length: 0x100 }));
/// ```
pub fn plan(before: &[u8], after: &[u8]) -> Plan {
    assert_eq!(before.len(), after.len(), "an image never changes its length");
    Plan { runs: changed_runs(before, after), front: changed_front(before, after) }
}

fn changed_runs(before: &[u8], after: &[u8]) -> Vec<Run> {
    let mut runs = Vec::new();
    for start in (FRONT_SIZE..after.len()).step_by(CHUNK) {
        let chunk = start..after.len().min(start + CHUNK);
        if before[chunk.clone()] != after[chunk.clone()] {
            add_changed(&mut runs, before, after, chunk);
        }
    }
    runs
}

/// Adds the changed bytes of a chunk. A run that reached the chunk's start goes on in it.
fn add_changed(runs: &mut Vec<Run>, before: &[u8], after: &[u8], chunk: Range<usize>) {
    for place in chunk.filter(|place| before[*place] != after[*place]) {
        match runs.last_mut() {
            Some(run) if run.range().end == place => run.length += 1,
            _ => runs.push(Run { place, length: 1 }),
        }
    }
}

fn changed_front(before: &[u8], after: &[u8]) -> Option<Run> {
    if before[..HEADER] != after[..HEADER] {
        Some(Run { place: 0, length: FRONT_SIZE })
    } else if before[HEADER..FRONT_SIZE] != after[HEADER..FRONT_SIZE] {
        Some(Run { place: HEADER, length: HEADER_SIZE })
    } else {
        None
    }
}

#[cfg(test)]
mod tests {
    use super::*;

    const LENGTH: usize = 0x240;

    /// A plan where these bytes have changed.
    fn planned(places: &[usize]) -> Plan {
        let before = [0x55; LENGTH];
        let mut after = before;
        places.iter().for_each(|place| after[*place] ^= 1);
        plan(&before, &after)
    }

    #[test]
    fn nothing_changed() {
        assert_eq!(planned(&[]), Plan { runs: vec![], front: None });
    }

    #[test]
    fn runs_end_where_a_byte_stays() {
        let runs = planned(&[0x200, 0x201, 0x203, LENGTH - 1]).runs;
        let expected = [(0x200, 2), (0x203, 1), (LENGTH - 1, 1)].map(|(place, length)| Run { place, length });
        assert_eq!(runs, expected);
    }

    /// The runs by a plain walk: each begins at a changed byte behind one that stays, and ends before the next of these.
    fn walked(before: &[u8], after: &[u8]) -> Vec<Run> {
        let past_front = FRONT_SIZE..after.len();
        let changed = |place: &usize| past_front.contains(place) && before[*place] != after[*place];
        let starts = past_front.clone().filter(|place| changed(place) && !changed(&(place - 1)));
        starts.map(|place| Run { place, length: (place..).take_while(changed).count() }).collect()
    }

    /// Numbers that look random and are the same in every run.
    fn random_below(state: &mut u64, bound: usize) -> usize {
        *state = state.wrapping_mul(6364136223846793005).wrapping_add(1442695040888963407);
        (*state >> 33) as usize % bound
    }

    /// Changes some of the bytes in a random range of random length: about every second one, or nearly all.
    fn change_somewhere(bytes: &mut [u8], state: &mut u64) {
        let start = random_below(state, bytes.len());
        let longest = [3, CHUNK / 2, 3 * CHUNK][random_below(state, 3)];
        let end = bytes.len().min(start + random_below(state, longest));
        let flips = [2, 256][random_below(state, 2)];
        bytes[start..end].iter_mut().for_each(|byte| *byte ^= random_below(state, flips) as u8);
    }

    #[test]
    fn runs_are_those_of_a_walk_over_all_bytes() {
        let state = &mut 1u64;
        for turn in 0..500 {
            let length = FRONT_SIZE + random_below(state, 4 * CHUNK);
            let before: Vec<u8> = (0..length).map(|_| random_below(state, 256) as u8).collect();
            let mut after = before.clone();
            (0..random_below(state, 6)).for_each(|_| change_somewhere(&mut after, state));
            assert_eq!(plan(&before, &after).runs, walked(&before, &after), "turn {turn}");
        }
    }

    /// Two bytes before the border between two chunks and two behind it, changed or not in every way.
    #[test]
    fn runs_across_the_border_of_two_chunks() {
        let border = FRONT_SIZE + CHUNK;
        let before = vec![0; border + CHUNK];
        for ways in 0..1 << 4 {
            let mut after = before.clone();
            after[border - 2..border + 2].copy_from_slice(&[0, 1, 2, 3].map(|bit| ways >> bit & 1));
            assert_eq!(plan(&before, &after).runs, walked(&before, &after), "{ways:04b}");
        }
        let all = Run { place: FRONT_SIZE, length: 2 * CHUNK };
        assert_eq!(plan(&before, &vec![1; before.len()]).runs, [all]);
    }

    #[test]
    fn a_changed_header_is_stored_whole_and_alone() {
        for place in [0x100, 0x16C, 0x1FF] {
            assert_eq!(planned(&[place]), Plan { runs: vec![], front: Some(Run { place: 0x100, length: 0x100 }) });
        }
    }

    #[test]
    fn with_a_changed_signature_the_first_sector_is_stored() {
        for places in [vec![0], vec![15, 0x168], vec![0x100, 7]] {
            assert_eq!(planned(&places), Plan { runs: vec![], front: Some(Run { place: 0, length: 0x200 }) });
        }
    }

    #[test]
    fn runs_that_only_touch_do_not_overlap() {
        let run = Run { place: 0x210, length: 0x10 };
        for (offset, size, overlaps) in
            [(0x200, 0x10, false), (0x200, 0x11, true), (0x214, 1, true), (0x21F, 9, true), (0x220, 9, false)]
        {
            assert_eq!(run.overlaps(Extent { offset, size }), overlaps, "{offset:x}");
        }
    }

    #[test]
    #[should_panic(expected = "never changes its length")]
    fn two_lengths() {
        plan(&[0; 0x200], &[0; 0x201]);
    }
}
