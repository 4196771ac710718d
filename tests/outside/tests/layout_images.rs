//! The images that tests/make_layout_images.py wrote, with the answers noted there by hand.

use std::fs;
use std::path::Path;

use outside::rules::opening::open;

#[test]
fn opening_answers_as_noted() {
    let folder = Path::new(env!("CARGO_MANIFEST_DIR")).join("../../crates/layout_images");
    let images = fs::read(folder.join("stdin")).expect("the images are there");
    let answers = fs::read_to_string(folder.join("stdout")).expect("the answers are there");
    let mut rest = &images[..];
    for (number, answer) in answers.lines().enumerate() {
        let length = u32::from_le_bytes(rest[..4].try_into().unwrap()) as usize;
        let image = &rest[4..4 + length];
        rest = &rest[4 + length..];
        let given = match open(image) {
            Ok(opened) => {
                let header = opened.header;
                format!("0 {} {} {}", header.kind.name(), header.partitions.len(), header.flag)
            }
            Err(refusal) => refusal.number().to_string(),
        };
        assert_eq!(given, answer, "image {number}");
    }
    assert_eq!(rest, [0xff; 4]);
}
