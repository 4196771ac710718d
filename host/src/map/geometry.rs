//! What lies where in an image, and which copies are live: facts from the description and the bytes, nothing of how
//! they are drawn. The image has opened, so every place that the description names lies in its bytes.

use crate::{Description, Extent, Live, Partition, PartitionLayout, Table, FRONT_SIZE};

/// Where a descriptor has its selector: the half of DPFS level 1 that is live.
const SELECTOR: u64 = 0x39;

/// A run of bytes and what it is; `None` is space that no field names.
#[derive(Clone, Copy, Debug, PartialEq, Eq)]
pub struct Piece<What> {
    pub what: Option<What>,
    pub place: Extent,
}

#[derive(Clone, Copy, Debug, PartialEq, Eq)]
pub enum InImage {
    Front,
    Table(Table),
    Partition(Partition),
}

#[derive(Clone, Copy, Debug, PartialEq, Eq)]
pub enum InPartition {
    /// Both halves of a DPFS level, 1 to 3.
    Pair(usize),
    ExternalLevel4,
}

/// The image from its first byte to its last.
pub fn pieces_of_image(description: &Description, length: u64) -> Vec<Piece<InImage>> {
    let mut named = vec![
        (InImage::Front, Extent { offset: 0, size: FRONT_SIZE as u64 }),
        (InImage::Table(Table::Primary), description.primary),
        (InImage::Table(Table::Secondary), description.secondary),
    ];
    named.extend(description.partitions().map(|(partition, layout)| (InImage::Partition(partition), layout.partition)));
    with_space_between(named, Extent { offset: 0, size: length })
}

/// A partition from its first byte to its last, in places of the image.
pub fn pieces_of_partition(layout: &PartitionLayout) -> Vec<Piece<InPartition>> {
    let halves = [layout.dpfs_level1, layout.dpfs_level2.extent(), layout.dpfs_level3.extent()];
    let pair = |half: Extent| Extent { offset: half.offset, size: 2 * half.size }.shifted(layout.partition.offset);
    let mut named: Vec<_> = (1..).zip(halves).map(|(level, half)| (InPartition::Pair(level), pair(half))).collect();
    named.extend(layout.external_extent().map(|place| (InPartition::ExternalLevel4, place)));
    with_space_between(named, layout.partition)
}

/// DPFS level 3, as its live copies make it, from its first byte to its last: the IVFC levels in it, by number.
pub fn pieces_of_level3(layout: &PartitionLayout) -> Vec<Piece<usize>> {
    let named = (1..=4)
        .zip(&layout.levels)
        .filter(|(number, _)| *number < 4 || layout.external.is_none())
        .map(|(number, level)| (number, level.extent()))
        .collect();
    with_space_between(named, Extent { offset: 0, size: layout.dpfs_level3.size })
}

/// The pieces by their places, and what is left of the whole before, between and after them.
fn with_space_between<What>(mut named: Vec<(What, Extent)>, whole: Extent) -> Vec<Piece<What>> {
    named.sort_by_key(|(_, place)| place.offset);
    let mut pieces = Vec::new();
    let mut reached = whole.offset;
    for (what, place) in named {
        pieces.extend(unnamed(reached, place.offset));
        pieces.push(Piece { what: Some(what), place });
        reached = place.end();
    }
    pieces.extend(unnamed(reached, whole.end()));
    pieces
}

fn unnamed<What>(from: u64, to: u64) -> Option<Piece<What>> {
    (from < to).then(|| Piece { what: None, place: Extent { offset: from, size: to - from } })
}

/// Which copy of each block of a pair is live, and which one the inactive table names. A copy is 0 or 1.
#[derive(Clone, Debug, PartialEq, Eq)]
pub struct Copies {
    pub live: Vec<u8>,
    /// None if the inactive table does not name copies of this layout.
    pub inactive: Option<Vec<u8>>,
}

impl Copies {
    pub fn blocks(&self) -> u64 {
        self.live.len() as u64
    }
}

/// The pairs of DPFS levels 1 to 3 of a partition. Level 1 is one block: the selector says which half is live.
pub type Pairs = [Copies; 3];

pub fn pairs(image: &[u8], description: &Description, layout: &PartitionLayout) -> Pairs {
    let [live1, live2, live3] = copies(image, layout);
    match inactive_layout(image, description, layout).map(|layout| copies(image, &layout)) {
        None => [live1, live2, live3].map(|live| Copies { live, inactive: None }),
        Some([inactive1, inactive2, inactive3]) => [(live1, inactive1), (live2, inactive2), (live3, inactive3)]
            .map(|(live, inactive)| Copies { live, inactive: Some(inactive) }),
    }
}

fn copies(image: &[u8], layout: &PartitionLayout) -> [Vec<u8>; 3] {
    let live = Live::new(image, layout);
    let level2 = (0..layout.dpfs_level2.blocks()).map(|block| live.level2(block)).collect();
    let level3 = (0..layout.dpfs_level3.blocks()).map(|block| live.level3(block)).collect();
    [vec![live.level1()], level2, level3]
}

/// The partition as the inactive table has it, if that table is the active one but for flipped selectors and master
/// hashes. It is then what a session has staged, or what was committed before; if not, it is nothing that the
/// library reads.
fn inactive_layout(image: &[u8], description: &Description, layout: &PartitionLayout) -> Option<PartitionLayout> {
    let table = |place: Extent| &image[place.offset as usize..place.end() as usize];
    let mut expected = table(description.active_extent()).to_vec();
    let inactive = table(description.inactive_extent());
    for (_, layout) in description.partitions() {
        expected[(layout.descriptor.offset + SELECTOR) as usize] = 1 - layout.selector;
        let entries = layout.master_hash.shifted(layout.descriptor.offset);
        let entries = entries.offset as usize..entries.end() as usize;
        expected[entries.clone()].copy_from_slice(&inactive[entries]);
    }
    (expected == inactive).then_some(PartitionLayout { selector: 1 - layout.selector, ..*layout })
}

#[cfg(test)]
mod tests {
    use super::*;
    use crate::{Fault, Image, Kind, Level, Session};

    const SAMPLES: [&str; 5] = ["blank", "diff", "disa-one", "disa-two", "external"];

    fn sample(name: &str) -> Image<Vec<u8>> {
        Image::new(std::fs::read(format!("../samples/{name}.img")).expect("the sample is there"))
    }

    fn pairs_of(image: &Image<Vec<u8>>) -> Vec<(PartitionLayout, Pairs)> {
        let description = image.open().expect("a sample opens");
        description.partitions().map(|(_, layout)| (*layout, pairs(image.bytes(), &description, layout))).collect()
    }

    fn digits(copies: &[u8]) -> String {
        copies.iter().map(|copy| char::from(b'0' + copy)).collect()
    }

    /// What the independent implementation (tests/outside, `rules/dpfs.rs`) says of the samples, for each
    /// partition: the half of level 1, and the copies of the blocks of levels 2 and 3.
    #[test]
    fn live_copies_of_the_samples() {
        let two_a = "0110101100100000010111100000100011010001001111110011101101100111110001001111000101000100100000\
                     0100100001001011000011000100111100001011100000110001011001100011111000011100101001011100011100\
                     1";
        let two_b = "0001000010111001101011101100011011000000100110110100011000010011100100111010111001111010101";
        let expected = [
            ("blank", vec![["0", "0", "000"]]),
            ("diff", vec![["1", "0", "0000000000000000000000"]]),
            ("disa-one", vec![["0", "1", "10"]]),
            ("disa-two", vec![["0", "01", two_a], ["0", "0", two_b]]),
            ("external", vec![["0", "0", "11000101010001"]]),
        ];
        for (name, partitions) in expected {
            let found: Vec<[String; 3]> = pairs_of(&sample(name))
                .into_iter()
                .map(|(_, pairs)| pairs.map(|copies| digits(&copies.live)))
                .collect();
            assert_eq!(found, partitions, "{name}");
        }
    }

    /// The library itself says which copy it reads: a byte changed in a free copy changes no answer, and one
    /// changed in the live copy of a verified block of level 4 is a fault.
    #[test]
    fn the_library_reads_the_copies_that_are_called_live() {
        for name in SAMPLES {
            let image = sample(name);
            let faults = image.faults().expect("a sample opens");
            for (number, (layout, pairs)) in (0..).zip(pairs_of(&image)) {
                let Level { offset, size, .. } = layout.levels[3];
                for block in 0..pairs[2].blocks() {
                    let place = block * layout.dpfs_level3.block_size();
                    let live = pairs[2].live[block as usize];
                    assert_eq!(faults_if_changed(&image, &layout, place, 1 - live), faults, "{name} {block}");
                    if layout.external.is_none() && (offset..offset + size).contains(&place) {
                        let level4 = (place - offset) / layout.levels[3].block_size();
                        let fault = Fault { partition: number, level: 4, block: level4 };
                        assert!(faults_if_changed(&image, &layout, place, live).contains(&fault), "{name} {block}");
                    }
                }
            }
        }
    }

    /// The fault list after a change of DPFS level 3's byte `place` in one of the copies.
    fn faults_if_changed(image: &Image<Vec<u8>>, layout: &PartitionLayout, place: u64, copy: u8) -> Vec<Fault> {
        let level = layout.dpfs_level3;
        let mut bytes = image.bytes().to_vec();
        bytes[(layout.partition.offset + level.offset + u64::from(copy) * level.size + place) as usize] ^= 1;
        Image::new(bytes).faults().expect("it still opens")
    }

    #[test]
    fn a_session_moves_the_copies_that_it_writes_and_a_commit_exchanges_both_views() {
        let mut image = Image::blank(Kind::Disa, 300).expect("300 blocks are in range");
        let mut session = Session::new();
        image.begin(&mut session).expect("an idle session");
        let begun = &pairs_of(&image)[0].1;
        assert_eq!(begun[0], Copies { live: vec![0], inactive: Some(vec![1]) });
        assert_eq!(begun[1].inactive.as_ref(), Some(&begun[1].live));
        assert_eq!(begun[2].inactive.as_ref(), Some(&begun[2].live));

        image.write(&mut session, Partition::A, 7 * 0x1000, &[1; 0x1000]).expect("block 7 is there");
        let (layout, staged) = pairs_of(&image).remove(0);
        let moved = |block: u64| staged[2].inactive.as_ref().map(|inactive| inactive[block as usize]) != Some(0);
        let written = (layout.levels[3].offset + 7 * 0x1000) >> layout.dpfs_level3.log;
        assert!(moved(written) && !moved(written + 1), "{staged:?}");

        image.commit(&mut session).expect("the session is begun");
        let exchanged = staged.map(|Copies { live, inactive }| Copies {
            live: inactive.expect("there is a staged view"),
            inactive: Some(live),
        });
        assert_eq!(pairs_of(&image)[0].1, exchanged);
    }

    #[test]
    fn an_inactive_table_of_something_else_names_no_copies() {
        for name in SAMPLES {
            let mut bytes = sample(name).into_inner();
            let description = Image::new(&bytes).open().expect("a sample opens");
            let table = description.inactive_extent();
            bytes[table.offset as usize..table.end() as usize].fill(0x5A);
            for (_, pairs) in pairs_of(&Image::new(bytes)) {
                assert!(pairs.iter().all(|copies| copies.inactive.is_none()), "{name}");
            }
        }
    }

    #[test]
    fn the_pieces_of_a_sample_are_where_its_header_says() {
        let image = sample("disa-two");
        let pieces = pieces_of_image(&image.open().expect("a sample opens"), image.bytes().len() as u64);
        let piece = |what, offset, size| Piece { what, place: Extent { offset, size } };
        let expected = [
            piece(Some(InImage::Front), 0, 0x200),
            piece(None, 0x200, 1),
            piece(Some(InImage::Table(Table::Primary)), 0x201, 602),
            piece(None, 1115, 1),
            piece(Some(InImage::Partition(Partition::B)), 1116, 11_611),
            piece(Some(InImage::Partition(Partition::A)), 12_727, 12_111),
            piece(None, 24_838, 1),
            piece(Some(InImage::Table(Table::Secondary)), 24_839, 602),
        ];
        assert_eq!(pieces, expected);
    }

    #[test]
    fn the_pieces_of_every_sample_follow_each_other_to_the_end() {
        for name in SAMPLES {
            let image = sample(name);
            let length = image.bytes().len() as u64;
            let description = image.open().expect("a sample opens");
            assert_end(&pieces_of_image(&description, length), 0, length);
            for (_, layout) in description.partitions() {
                assert_end(&pieces_of_partition(layout), layout.partition.offset, layout.partition.end());
                assert_end(&pieces_of_level3(layout), 0, layout.dpfs_level3.size);
            }
        }
    }

    fn assert_end<What: std::fmt::Debug>(pieces: &[Piece<What>], start: u64, end: u64) {
        let reached = pieces.iter().fold(start, |reached, piece| {
            assert_eq!(piece.place.offset, reached, "{pieces:?}");
            piece.place.end()
        });
        assert_eq!(reached, end, "{pieces:?}");
    }

    #[test]
    fn an_external_level_4_lies_in_the_partition_and_not_in_level_3() {
        let description = sample("external").open().expect("a sample opens");
        let place = Extent { offset: 515 + 5, size: 3000 };
        let external = Piece { what: Some(InPartition::ExternalLevel4), place };
        assert!(pieces_of_partition(&description.a).contains(&external));
        let levels: Vec<usize> = pieces_of_level3(&description.a).iter().filter_map(|piece| piece.what).collect();
        assert_eq!(levels, [2, 3, 1]);
    }
}
