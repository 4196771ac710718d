//! Pictures of images: well-formed, self-contained, and true to what the library answers.

mod reader;

use std::sync::LazyLock;

use reader::Element;
use teplovist::{map, Fault, Image, Kind, Live, Partition, PartitionLayout, Refusal, Session};

#[allow(dead_code)] // its `main` writes the picture; here it is only compared
#[path = "../../examples/docs_map.rs"]
mod docs_map;

fn sample(name: &str) -> Image<Vec<u8>> {
    Image::new(std::fs::read(format!("../samples/{name}.img")).expect("the sample is there"))
}

fn blank(blocks: u64) -> Image<Vec<u8>> {
    Image::blank(Kind::Diff, blocks).expect("so many blocks are in range")
}

/// A change of one byte of a block, in its live copy.
fn spoil(image: Image<Vec<u8>>, partition: Partition, level: usize, block: u64) -> Image<Vec<u8>> {
    let description = image.open().expect("it opens");
    let layout = description.partition(partition).expect("it is there");
    let place = place_of_block(image.bytes(), layout, level, block);
    let mut bytes = image.into_inner();
    bytes[place as usize] ^= 1;
    Image::new(bytes)
}

fn place_of_block(bytes: &[u8], layout: &PartitionLayout, level: usize, block: u64) -> u64 {
    let within = layout.levels[level - 1].block(block).offset;
    if let (4, Some(external)) = (level, layout.external_extent()) {
        return external.offset + within;
    }
    let (whole, place) = (layout.dpfs_level3, layout.levels[level - 1].offset + within);
    let copy = Live::new(bytes, layout).level3(place / whole.block_size());
    layout.partition.offset + whole.offset + u64::from(copy) * whole.size + place
}

/// An image in which a session has staged something that is not committed.
fn in_session(mut image: Image<Vec<u8>>, place: u64, length: usize) -> Image<Vec<u8>> {
    let mut session = Session::new();
    image.begin(&mut session).expect("the session is idle");
    image.write(&mut session, Partition::A, place, &vec![7; length]).expect("it is in range");
    image
}

/// Images of every sort, with a name for messages.
fn images() -> Vec<(String, Image<Vec<u8>>)> {
    let mut images = Vec::new();
    for name in ["blank", "diff", "disa-one", "disa-two", "external"] {
        images.push((name.to_string(), sample(name)));
        for level in 1..=4 {
            images.push((format!("{name}, level {level} spoilt"), spoil(sample(name), Partition::A, level, 0)));
        }
    }
    images.push(("B spoilt".into(), spoil(sample("disa-two"), Partition::B, 3, 1)));
    images.push(("two in a session".into(), in_session(sample("disa-two"), 256, 512)));
    for blocks in [1, 4, 257, 1000] {
        images.push((format!("{blocks} blocks"), blank(blocks)));
        images.push((format!("{blocks} blocks, the last spoilt"), spoil(blank(blocks), Partition::A, 4, blocks - 1)));
    }
    let large = in_session(blank(4096), 3000 * 0x1000, 0x2000);
    let spoilt = spoil(spoil(large, Partition::A, 3, 17), Partition::A, 4, 3);
    images.push(("large, in a session, a hash block spoilt".into(), spoilt));
    images
}

/// An image with its picture, which is well-formed.
struct Drawn {
    name: String,
    image: Image<Vec<u8>>,
    picture: Element,
}

/// Every image, drawn once for all tests.
static DRAWN: LazyLock<Vec<Drawn>> = LazyLock::new(|| {
    let draw = |(name, image): (String, Image<Vec<u8>>)| {
        let picture = map(&image).expect("it opens");
        let picture = reader::read(&picture).unwrap_or_else(|wrong| panic!("{name}: {wrong}"));
        Drawn { name, image, picture }
    };
    images().into_iter().map(draw).collect()
});

#[test]
fn pictures_are_well_formed_and_need_nothing_from_outside() {
    for Drawn { name, picture, .. } in DRAWN.iter() {
        assert_eq!(picture.name, "svg", "{name}");
        assert_eq!(picture.attribute("xmlns"), Some("http://www.w3.org/2000/svg"), "{name}");
        for element in picture.all() {
            let known = ["svg", "title", "desc", "style", "defs", "pattern", "rect", "path", "text", "g"];
            assert!(known.contains(&element.name.as_str()), "{name}: {}", element.name);
            let values = element.attributes.iter().filter(|(name, _)| name != "xmlns").map(|(_, value)| value);
            for text in values.chain([&element.text]) {
                assert!(!text.contains("://") && !text.contains("@import"), "{name}: {text}");
                assert!(text.matches("url(").count() == text.matches("url(#free)").count(), "{name}: {text}");
            }
        }
    }
}

/// First and last block of a cell, and what is said of them.
fn cell(title: &str) -> (u64, u64, &str) {
    let (blocks, said) = title.split_once(": ").expect("a title names blocks");
    let blocks = blocks.split_once(", ").map_or(blocks, |(blocks, _copy)| blocks);
    let numbers: Vec<u64> = blocks.split(' ').filter_map(|word| word.parse().ok()).collect();
    (numbers[0], *numbers.last().expect("there is a first"), said)
}

fn number(word: &str) -> u64 {
    word.replace(',', "").parse().unwrap_or_else(|_| panic!("{word} is no number"))
}

/// How many blocks of a cell are not verified, by its title.
fn not_verified(said: &str) -> u64 {
    let words: Vec<&str> = said.split(' ').collect();
    match words[..] {
        ["verified"] | ["all", "verified"] => 0,
        ["not", "verified"] => 1,
        ["none", "of", all, "verified"] => number(all),
        [some, "of", _, "blocks", "not", "verified"] => number(some),
        _ => panic!("{said}"),
    }
}

/// The shapes of a cell, which follow its title, by what they are.
fn shapes(cell: &Element) -> Vec<&str> {
    cell.children.iter().skip(1).map(|shape| shape.attribute("class").expect("a shape has a class")).collect()
}

#[test]
fn cells_show_every_block_once_and_the_librarys_faults() {
    for Drawn { name, image, picture } in DRAWN.iter() {
        let faults = image.faults().expect("it opens");
        let description = image.open().expect("it opens");
        for (partition, layout) in description.partitions() {
            for (number, level) in (1..).zip(layout.levels) {
                let group = picture.group(&format!("{partition}-IVFC-{number}")).expect("the level is drawn");
                let mut reached = 0;
                for drawn in &group.children {
                    let (first, last, said) = cell(drawn.title().expect("a cell has a title"));
                    assert_eq!(first, reached, "{name} {partition} {number}");
                    let here = |fault: &&Fault| {
                        (fault.partition, fault.level) == (partition.number(), number)
                            && (first..=last).contains(&fault.block)
                    };
                    let count = faults.iter().filter(here).count() as u64;
                    assert_eq!(not_verified(said), count, "{name} {partition} {number}: {said}");
                    assert_signs(drawn, count, last - first + 1);
                    reached = last + 1;
                }
                assert_eq!(reached, level.blocks(), "{name} {partition} {number}");
            }
        }
    }
}

/// A cell with a fault has a sign of its own: a cross if it is one block, else the number of faults.
fn assert_signs(cell: &Element, faults: u64, all: u64) {
    let count = cell.children.last().map(|last| last.text.clone());
    match (&shapes(cell)[..], faults) {
        (["verified"], 0) => {}
        (["not", "cross"], 1) => assert_eq!(all, 1, "{cell:?}"),
        (["not", "count light"], _) => assert_eq!((count, faults), (Some(faults.to_string()), all), "{cell:?}"),
        (["some", "count"], _) => assert_eq!((count, faults < all), (Some(faults.to_string()), true), "{cell:?}"),
        _ => panic!("{faults} faults: {cell:?}"),
    }
}

/// Live blocks, and free ones that the inactive table names, of one row of cells.
fn copies_shown(group: &Element, copy: u8) -> (u64, u64) {
    let row = |title: &str| title.contains(&format!("half {copy}: ")) || title.contains(&format!("copy {copy}: "));
    let cells = group.children.iter().filter(|child| child.title().is_some_and(row));
    cells.map(copies_in_cell).fold((0, 0), |(live, named), cell| (live + cell.0, named + cell.1))
}

fn copies_in_cell(drawn: &Element) -> (u64, u64) {
    let (first, last, said) = cell(drawn.title().expect("a cell has a title"));
    let all = last - first + 1;
    let words: Vec<&str> = said.split(' ').collect();
    let live = match words[0].trim_end_matches(',') {
        "live" => all,
        "free" => 0,
        some => number(some),
    };
    let named = match words.iter().position(|word| *word == "named") {
        None => 0,
        Some(_) if all == 1 => 1,
        Some(place) => number(words[place - 4]),
    };
    let expected = [("free", live < all), ("live", live > 0), ("named", named > 0)];
    assert_eq!(shapes(drawn), expected.into_iter().filter(|(_, is)| *is).map(|(class, _)| class).collect::<Vec<_>>());
    (live, named)
}

#[test]
fn copies_are_live_once_and_as_many_as_the_library_counts() {
    for Drawn { name, image, picture } in DRAWN.iter() {
        let description = image.open().expect("it opens");
        for (partition, layout) in description.partitions() {
            let live = Live::new(image.bytes(), layout);
            let copies: [Vec<u8>; 3] = [
                vec![live.level1()],
                (0..layout.dpfs_level2.blocks()).map(|block| live.level2(block)).collect(),
                (0..layout.dpfs_level3.blocks()).map(|block| live.level3(block)).collect(),
            ];
            for (number, copies) in (1..).zip(copies) {
                let group = picture.group(&format!("{partition}-DPFS-{number}")).expect("the pair is drawn");
                for copy in [0, 1] {
                    let expected = copies.iter().filter(|live| **live == copy).count() as u64;
                    assert_eq!(copies_shown(group, copy).0, expected, "{name} {partition} {number} {copy}");
                }
            }
        }
    }
}

#[test]
fn staged_copies_are_marked() {
    let before = sample("disa-two");
    let after = in_session(before.clone(), 256, 512);
    let picture = reader::read(&map(&after).expect("it opens")).expect("it is well-formed");
    let group = picture.group("A-DPFS-3").expect("the pair is drawn");
    let level3 = after.open().expect("it opens").a.dpfs_level3;
    let marked: u64 = [0, 1].iter().map(|copy| copies_shown(group, *copy).1).sum();

    // Begin and write change nothing of level 3 but copies that are moved, whole.
    let area = after.open().expect("it opens").a.partition.offset + level3.offset;
    let half = |image: &Image<Vec<u8>>, copy: u64, block: u64| {
        let extent = level3.block(block).shifted(area + copy * level3.size);
        image.bytes()[extent.offset as usize..extent.end() as usize].to_vec()
    };
    let changed = |block: &u64| [0, 1].iter().any(|copy| half(&before, *copy, *block) != half(&after, *copy, *block));
    assert_eq!(marked, (0..level3.blocks()).filter(changed).count() as u64);
    assert!(marked > 0);
}

/// First and last byte of a piece, by its title.
fn bytes_of_piece(title: &str) -> (u64, u64) {
    let hexadecimal = |word: &str| u64::from_str_radix(word.strip_prefix("0x")?.trim_end_matches(','), 16).ok();
    let places: Vec<u64> = title.split(' ').filter_map(hexadecimal).collect();
    (places[0], places[1])
}

#[test]
fn strips_show_every_byte_once() {
    for Drawn { name, image, picture } in DRAWN.iter() {
        let mut strips = vec![("image".to_string(), 0, image.bytes().len() as u64)];
        for (partition, layout) in image.open().expect("it opens").partitions() {
            let extent = layout.partition;
            strips.push((format!("{partition}-Pairs-of-halves"), extent.offset, extent.end()));
            strips.push((format!("{partition}-IVFC-levels"), 0, layout.dpfs_level3.size));
        }
        for (id, start, end) in strips {
            let strip = picture.group(&id).expect("the strip is drawn");
            let reached = strip.children.iter().filter_map(Element::title).fold(start, |reached, title| {
                let (first, last) = bytes_of_piece(title);
                assert_eq!(first, reached, "{name} {id}: {title}");
                last + 1
            });
            assert_eq!(reached, end, "{name} {id}");
        }
    }
}

/// A rectangle of the picture, and what is in it.
struct Area {
    left: f64,
    top: f64,
    right: f64,
    bottom: f64,
    what: String,
}

impl Area {
    fn overlaps(&self, other: &Area) -> bool {
        self.left < other.right && other.left < self.right && self.top < other.bottom && other.top < self.bottom
    }

    /// Where a text is, if a letter takes 0.6 of the font's size, which is more than it does in any usual font.
    fn of_text(text: &Element) -> Area {
        let size = [("title", 21.0), ("heading", 16.0), ("name", 12.0), ("small", 8.0), ("count", 10.0)]
            .into_iter()
            .find(|(class, _)| text.is(class))
            .map_or(11.0, |(_, size)| size);
        let place =
            |name: &str| -> f64 { text.attribute(name).and_then(|at| at.parse().ok()).expect("it has a place") };
        let width = text.text.chars().count() as f64 * size * 0.6;
        let before = match () {
            _ if text.is("end") => width,
            _ if text.is("middle") || text.is("count") => width / 2.0,
            _ => 0.0,
        };
        let (left, foot) = (place("x") - before, place("y"));
        let (top, bottom) = (foot - 0.8 * size, foot + 0.2 * size);
        Area { left, top, right: left + width, bottom, what: text.text.clone() }
    }

    /// Where a cell or a piece of a strip is: its first shape is a rectangle, `M` left, top `h` width `v` height
    /// and back.
    fn of_cell(cell: &Element) -> Area {
        let path = cell.children[1].attribute("d").expect("the first shape is a path");
        let numbers: Vec<f64> = path
            .split(|letter: char| !"0123456789.".contains(letter))
            .filter_map(|number| number.parse().ok())
            .collect();
        let [left, top, width, height, back] = numbers[..] else { panic!("{path} is no rectangle") };
        assert_eq!(width, back, "{path}");
        Area { left, top, right: left + width, bottom: top + height, what: cell.title().expect("it has one").into() }
    }
}

fn assert_clear(name: &str, areas: &[Area], picture: &Element) {
    let size =
        |name: &str| -> f64 { picture.attribute(name).and_then(|size| size.parse().ok()).expect("it has a size") };
    for (index, area) in areas.iter().enumerate() {
        let inside =
            area.left >= 0.0 && area.top >= 0.0 && area.right <= size("width") && area.bottom <= size("height");
        assert!(inside, "{name}: {} is outside", area.what);
        if let Some(other) = areas[index + 1..].iter().find(|other| area.overlaps(other)) {
            panic!("{name}: {} overlaps {}", area.what, other.what);
        }
    }
}

#[test]
fn texts_keep_clear_of_each_other_and_of_the_edges() {
    for Drawn { name, picture, .. } in DRAWN.iter() {
        let texts = picture.all().into_iter().filter(|element| element.name == "text");
        assert_clear(name, &texts.map(Area::of_text).collect::<Vec<_>>(), picture);
    }
}

#[test]
fn cells_and_pieces_keep_clear_of_each_other_and_of_the_edges() {
    for Drawn { name, picture, .. } in DRAWN.iter() {
        let titled = picture.all().into_iter().filter(|element| element.name == "g" && element.title().is_some());
        assert_clear(name, &titled.map(Area::of_cell).collect::<Vec<_>>(), picture);
    }
}

#[test]
fn what_does_not_open_has_no_picture() {
    assert_eq!(map(&Image::new([0; 0x1FF])), Err(Refusal::Length));
    assert_eq!(map(&Image::new([0; 0x200])), Err(Refusal::Format));
    let mut bytes = sample("disa-one").into_inner();
    bytes[0x200] ^= 1; // the active table's first byte
    assert_eq!(map(&Image::new(bytes)), Err(Refusal::TableHash));
}

#[test]
fn the_picture_in_the_documents_is_the_one_that_is_drawn_today() {
    let stored = std::fs::read_to_string("../docs/map.svg").expect("the picture is there");
    assert!(stored == docs_map::document(), "docs/map.svg is not what is drawn today: make it again as it says");
    reader::read(&stored).expect("it is well-formed");
}
