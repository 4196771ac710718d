//! Writes docs/map.svg, the picture for the README: a save with a session under way and two damaged places. In host/:
//!
//!     cargo run --offline --example docs_map

use teplovist::{map, Image, Kind, Live, Partition, Refusal, Session};

const BLOCK: u64 = 0x1000;

const COMMENT: &str = "<!-- Made by host/examples/docs_map.rs, which says how to make it again. -->\n";

fn main() -> Result<(), Box<dyn std::error::Error>> {
    std::fs::write(concat!(env!("CARGO_MANIFEST_DIR"), "/../docs/map.svg"), document())?;
    Ok(())
}

pub fn document() -> String {
    COMMENT.to_string() + &image().and_then(|image| map(&image)).expect("the image opens")
}

/// 1,000 blocks. One session is committed, another has staged a write; then a block of data and a block of hashes
/// are damaged.
fn image() -> Result<Image<Vec<u8>>, Refusal> {
    let mut image = Image::blank(Kind::Disa, 1000)?;
    let mut session = Session::new();
    image.begin(&mut session)?;
    image.write(&mut session, Partition::A, 40 * BLOCK, &[1; 200 * BLOCK as usize])?;
    image.commit(&mut session)?;
    image.begin(&mut session)?;
    image.write(&mut session, Partition::A, 700 * BLOCK, &[2; 24 * BLOCK as usize])?;
    let image = damaged(image, 4, 333)?;
    damaged(image, 3, 4)
}

/// The image with one byte of a block changed, in its live copy.
fn damaged(image: Image<Vec<u8>>, level: usize, block: u64) -> Result<Image<Vec<u8>>, Refusal> {
    let layout = image.open()?.a;
    let mut bytes = image.into_inner();
    let pair = layout.dpfs_level3;
    let place = layout.levels[level - 1].offset + layout.levels[level - 1].block(block).offset;
    let copy = Live::new(&bytes, &layout).level3(place / pair.block_size());
    let half = layout.partition.offset + pair.offset + u64::from(copy) * pair.size;
    bytes[(half + place) as usize] ^= 1;
    Ok(Image::new(bytes))
}
