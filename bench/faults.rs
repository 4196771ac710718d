//! How the fault list's cost grows with the image, of images with the smallest blocks: every second hash block of level 3 is
//! damaged, so that half of level 3 and half of level 4 are faults.

use std::hint::black_box;

use crate::boundary::Library;
use crate::image::{blocks_within, damaged_of, filled, SMALLEST};
use crate::rows::{clock, print_cells};
use crate::rules::faults::FaultRecord;
use crate::subject::Subject;
use crate::timing::per_call;

/// The images' lengths in MiB, at most.
const LENGTHS: [usize; 2] = [1, 64];
/// How many turns each has; the best counts.
const TURNS: usize = 5;
/// A block of level 4.
const BLOCK: usize = 32;

const EMPTY: FaultRecord = FaultRecord { partition: 0, level: 0, block: 0 };

fn faults(image: &[u8], row: &mut [FaultRecord]) -> usize {
    let answer = Library.faults(image, row);
    assert_eq!(answer & 0xFF, 0, "an image that opens");
    (answer >> 8) as usize
}

/// The time of a list, with a row that holds it all, and how many blocks of level 4 there are, for each length.
pub struct Faults {
    times: [f64; 2],
    blocks: [usize; 2],
}

impl Faults {
    pub fn measured() -> Faults {
        let blocks = LENGTHS.map(|length| blocks_within(&SMALLEST, length << 20));
        let times = blocks.map(|blocks| {
            let image = damaged_of(&SMALLEST, &filled(blocks * BLOCK, blocks as u64));
            let number = faults(&image, &mut []);
            assert_eq!(number, blocks.div_ceil(2) * 2, "half of level 3 and what is below it");
            let mut row = vec![EMPTY; number];
            let mut turn = || per_call(1, || assert_eq!(faults(&image, black_box(&mut row)), number));
            (0..TURNS).map(|_| turn()).fold(f64::MAX, f64::min)
        });
        Faults { times, blocks }
    }

    /// The time for each block, in the longer image against the shorter.
    pub fn per_block(&self) -> f64 {
        let [one, most] = [0, 1].map(|index| self.times[index] / self.blocks[index] as f64);
        most / one
    }

    pub fn print(&self) {
        print_cells("fault list, image of at most", &["blocks", "time", "each block", "to 1 MiB"]);
        print_cells(":---", &["---:"; 4]);
        for ((length, time), blocks) in LENGTHS.iter().zip(self.times).zip(self.blocks) {
            let each = time / blocks as f64;
            let to_first = format!("{:.3}", each / (self.times[0] / self.blocks[0] as f64));
            print_cells(&format!("{length} MiB"), &[&blocks.to_string(), &clock(time), &clock(each), &to_first]);
        }
    }
}
