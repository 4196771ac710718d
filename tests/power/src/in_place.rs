//! What a session writes in place: the ranges of external level 4s.

use std::collections::BTreeSet;
use std::ops::Range;

use outside::rules::opening::Opened;
use outside::trial::call::Call;

/// Ranges within level 4, by partition.
#[derive(Clone, Debug, Default)]
pub struct InPlace {
    ranges: [Vec<Range<usize>>; 2],
    /// The same as ranges of the image.
    positions: Vec<Range<usize>>,
}

impl InPlace {
    /// An accepted call may have written in place.
    pub fn note(&mut self, call: &Call, opened: &Opened) {
        let positions = call.written_in_place(opened);
        if let (false, Call::Write { partition, place, data }) = (positions.is_empty(), call) {
            let place = *place as usize;
            self.ranges[*partition as usize].push(place..place + data.len());
            self.positions.push(positions);
        }
    }

    pub fn is_empty(&self) -> bool {
        self.positions.is_empty()
    }

    pub fn ranges(&self, partition: usize) -> &[Range<usize>] {
        &self.ranges[partition]
    }

    /// The blocks that have a byte in one of the ranges.
    pub fn blocks(&self, partition: usize, block_size: usize) -> BTreeSet<usize> {
        self.ranges[partition]
            .iter()
            .flat_map(|range| range.start / block_size..range.end.div_ceil(block_size))
            .collect()
    }

    pub fn positions(&self) -> &[Range<usize>] {
        &self.positions
    }
}
