//! What a power failure leaves.

use crate::generate::random::Random;

/// Bytes that are open may hold anything: all of them, some, or a few are changed to noise.
pub fn scramble(random: &mut Random, image: &mut [u8], open: &[bool]) {
    let share = random.pick(&[100, 100, 50, 5]);
    for (byte, open) in image.iter_mut().zip(open) {
        if *open && random.chance(share) {
            *byte = random.below(256) as u8;
        }
    }
}
