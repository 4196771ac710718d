//! What the paper's program prints for an image on its standard input.

use crate::rules::calls::count_verified;
use crate::rules::opening::open;

pub const LONGEST_INPUT: usize = 65_536;

pub fn program_output(image: &[u8]) -> String {
    if image.len() > LONGEST_INPUT {
        return "too long\n".into();
    }
    let opened = match open(image) {
        Ok(opened) => opened,
        Err(refusal) => return format!("refused {}\n", refusal.number()),
    };
    let header = &opened.header;
    let table = if header.flag == 0 { "primary" } else { "secondary" };
    let mut text = format!("{}\npartitions {}\ntable {table}\n", header.kind.name(), header.partitions.len());
    for (number, (letter, partition)) in ["A", "B"].iter().zip(&opened.partitions).enumerate() {
        let level = partition.descriptor.hash_level(4);
        let verified = count_verified(image, number as u64).expect("the image has opened");
        text += &format!("{letter} level4 {} blocks {} stands {verified}\n", level.extent.size, level.blocks());
    }
    text
}
