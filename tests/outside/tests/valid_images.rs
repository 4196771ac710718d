//! Generated images: opening says what they were built from, and the committed view is what was put in.

use outside::generate::contents::{put, put_table_hash};
use outside::generate::random::Random;
use outside::generate::shape::Wanted;
use outside::generate::{valid_image, Sample};
use outside::rules::descriptor::{DPFS_LEVELS, IVFC_LEVELS};
use outside::rules::dpfs::View;
use outside::rules::faults::faults;
use outside::rules::opening::open;
use outside::trial::faults::known_faults;

/// The four bytes behind each logarithm may hold anything.
#[test]
fn leftovers_behind_logarithms() {
    for seed in 0..300 {
        let random = &mut Random::new(seed);
        let Sample { mut image, opened, .. } = valid_image(random, &Wanted::default());
        let table = opened.header.active_table();
        for partition in &opened.partitions {
            let descriptor = &partition.descriptor;
            let start = table.offset + partition.place.descriptor.offset;
            let ivfc = IVFC_LEVELS.map(|place| start + descriptor.ivfc.offset + place as u128);
            let dpfs = DPFS_LEVELS.map(|place| start + descriptor.dpfs.offset + place as u128);
            for level in ivfc.iter().chain(&dpfs) {
                put(&mut image, *level as usize + 0x14, &random.bytes(4));
            }
        }
        put_table_hash(&mut image, &opened);
        assert_eq!(open(&image), Ok(opened), "seed {seed}");
    }
}

#[test]
fn opening_and_views_agree_with_the_builder() {
    for seed in 0..3000 {
        let sample = valid_image(&mut Random::new(seed), &Wanted::default());
        let opened = open(&sample.image).expect("the image is valid");
        assert_eq!(opened, sample.opened, "seed {seed}");
        if seed % 5 == 0 {
            assert_eq!(faults(&sample.image), Ok(known_faults(&sample)), "seed {seed}");
        }
        for (partition, version) in opened.partitions.iter().zip(&sample.versions) {
            let view = View::committed(&sample.image, &opened, partition);
            assert_eq!(view.data(), version.bytes, "seed {seed}");
            assert_eq!(view.verified_blocks(4), version.verified, "seed {seed}");
            if seed % 10 == 0 {
                let one_by_one: Vec<bool> =
                    (0..version.verified.len()).map(|block| view.verified(4, block as u128)).collect();
                assert_eq!(one_by_one, version.verified, "seed {seed}");
            }
        }
    }
}
