//! How cost grows with the image: the same small write and read in images of several lengths.

use crate::begun::Begun;
use crate::boundary::Library;
use crate::image::{blocks_within, filled, image_of, BLOCK, USUAL};
use crate::measures::INSIDE;
use crate::rows::{clock, print_cells};
use crate::timing::{best_turns, per_call};

/// The images' lengths in MiB, at most; the last is the longest that the library opens.
const LENGTHS: [usize; 3] = [1, 8, 64];

/// Times of a write and of a read of one byte, for each length.
pub struct Growth {
    writes: [f64; 3],
    reads: [f64; 3],
}

impl Growth {
    pub fn measured() -> Growth {
        let mut images = LENGTHS.map(|length| {
            let blocks = blocks_within(&USUAL, length << 20);
            let place = blocks / 2 * BLOCK + INSIDE;
            (Begun::new(&Library, &image_of(&USUAL, &filled(blocks * BLOCK, length as u64))), place)
        });
        let [one, eight, most] = &mut images;
        let data: [&[u8]; 2] = [&[1], &[2]];
        let writes = best_turns([
            &mut one.0.writing(one.1, data),
            &mut eight.0.writing(eight.1, data),
            &mut most.0.writing(most.1, data),
        ]);
        let turn = |(begun, place): &(Begun, usize)| per_call(1, || begun.read(*place, &mut [0]));
        let [one, eight, most] = &images;
        let reads = best_turns([&mut || turn(one), &mut || turn(eight), &mut || turn(most)]);
        Growth { writes, reads }
    }

    /// The write in the longest image against that in the shortest.
    pub fn of_writes(&self) -> f64 {
        self.writes[2] / self.writes[0]
    }

    pub fn print(&self) {
        print_cells("image of at most", &["write 1 B", "to 1 MiB", "read 1 B", "to 1 MiB"]);
        print_cells(":---", &["---:"; 4]);
        for ((length, write), read) in LENGTHS.iter().zip(self.writes).zip(self.reads) {
            let [to_first_write, to_first_read] =
                [write / self.writes[0], read / self.reads[0]].map(|ratio| format!("{ratio:.3}"));
            print_cells(&format!("{length} MiB"), &[&clock(write), &to_first_write, &clock(read), &to_first_read]);
        }
    }
}
