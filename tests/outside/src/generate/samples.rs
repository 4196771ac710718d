//! The sample images of the repository: the same at each run.

use super::random::Random;
use super::shape::Wanted;
use super::valid_image;
use crate::rules::blank::{blank_length, make_blank};
use crate::rules::header::Kind;

/// Name and bytes of each sample. One is blank: a DISA of two blocks.
pub fn samples() -> Vec<(&'static str, Vec<u8>)> {
    let loose = Wanted {
        external: Some(false),
        master_entries: Some(1),
        leftovers: Some(false),
        fresh: Some(false),
        ..Wanted::default()
    };
    let tight = Wanted { flag: Some(1), tight: true, all_verified: true, ..loose.clone() };
    let wanted = [
        ("disa-one.img", Wanted { kind: Some(Kind::Disa), count: Some(1), data: Some((4096, 12)), ..tight }),
        (
            "diff.img",
            Wanted {
                kind: Some(Kind::Diff),
                flag: Some(0),
                data: Some((2500, 9)),
                all_verified: true,
                leftovers: Some(true),
                ..loose.clone()
            },
        ),
        (
            "disa-two.img",
            Wanted { kind: Some(Kind::Disa), count: Some(2), flag: Some(1), data: Some((5000, 8)), ..loose.clone() },
        ),
        (
            "external.img",
            Wanted { external: Some(true), kind: Some(Kind::Diff), flag: Some(1), data: Some((3000, 10)), ..loose },
        ),
    ];
    wanted
        .into_iter()
        .enumerate()
        .map(|(index, (name, wanted))| (name, valid_image(&mut Random::new(index as u64 + 1), &wanted).image))
        .chain([("blank.img", blank_image())])
        .collect()
}

fn blank_image() -> Vec<u8> {
    let mut image = vec![0; blank_length(2).expect("two blocks are in range") as usize];
    make_blank(&mut image, Kind::Disa, 2).expect("the length is right");
    image
}
