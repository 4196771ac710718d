//! Leftovers in the header: each byte of B's fields is refused in a DISA of one partition, and no byte that is not read is.

use super::tally::Tally;
use super::{check_opening, refused_image};
use crate::generate::random::Random;
use crate::generate::shape::Wanted;
use crate::generate::valid_image;
use crate::rules::header::{Kind, B_FIELDS, HEADER, HEADER_LENGTH};
use crate::subject::Subject;

pub fn run(subject: Option<&dyn Subject>, tally: &mut Tally) -> Result<(), String> {
    let random = &mut Random::new(0);
    let one = small_image(random, Kind::Disa, 1);
    for place in B_FIELDS.into_iter().flat_map(|field| field..field + 8) {
        let mut image = one.clone();
        image[HEADER + place] = 1 << random.below(8);
        refused_image(random, image, 3, subject, tally)
            .map_err(|complaint| format!("byte {place:#x} of a DISA of one partition: {complaint}"))?;
    }
    let unread_in_disa: Vec<usize> = [0x0C..0x10, 0x69..0x6C, 0x8C..HEADER_LENGTH].into_iter().flatten().collect();
    let two = small_image(random, Kind::Disa, 2);
    let diff = small_image(random, Kind::Diff, 1);
    for (image, unread) in [(one, &unread_in_disa), (two, &unread_in_disa), (diff, &(0x54..HEADER_LENGTH).collect())] {
        for place in unread {
            let mut image = image.clone();
            image[HEADER + place] ^= 1 << random.below(8);
            check_opening(0, subject, |library, description| library.open(&image, description))
                .map_err(|complaint| format!("byte {place:#x}, which is not read: {complaint}"))?;
        }
    }
    Ok(())
}

fn small_image(random: &mut Random, kind: Kind, count: u64) -> Vec<u8> {
    let wanted =
        Wanted { kind: Some(kind), count: Some(count), data: Some((100, 6)), tight: true, ..Wanted::default() };
    valid_image(random, &wanted).image
}
