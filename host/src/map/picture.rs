//! The picture of an image, from top to bottom: what it is, what the signs mean, where everything lies, and for each
//! partition which copies are live and which blocks are verified.

use super::cells::Grouping;
use super::facts::{Facts, PartitionFacts};
use super::grid::{copy_grouping, draw_copies, draw_level, MOST_LEVEL_CELLS};
use super::legend;
use super::page::{Page, BASELINE, CONTENT_X, MARGIN, WIDTH};
use super::stretches::{image_stretches, level3_stretches, partition_stretches};
use super::strip::{self, Stretch};
use super::svg::Px;
use super::words::{counted, grouped};
use crate::Level;

const HEADING: Px = 36;
const PARTITION_HEADING: Px = 31;

/// How to read a strip, in the lines of the left column.
const STRIPS_IN_WORDS: [&str; 4] =
    ["to scale, but tiny", "pieces are widened;", "dots are space that", "no field names"];

pub fn draw(facts: &Facts) -> String {
    let mut page = Page { y: MARGIN, ..Page::default() };
    draw_heading(&mut page, facts);
    page.section();
    legend::draw(&mut page);
    page.section();
    let details = STRIPS_IN_WORDS.map(|line| ("detail", line.to_string()));
    page.row("Image", &details, |page| page.group("image", |page| strip::draw(page, &image_stretches(facts))));
    for partition in &facts.partitions {
        page.section();
        draw_partition(&mut page, partition);
    }
    let title = format!("Map of a {} image", facts.description.kind);
    page.finish(&title, &format!("{}. {}.", summary(facts), judgement(facts)))
}

fn draw_heading(page: &mut Page, facts: &Facts) {
    page.text((MARGIN, page.y + BASELINE + 5), "title", &format!("{} image", facts.description.kind));
    page.text((CONTENT_X, page.y + BASELINE + 4), "detail", &summary(facts));
    page.verdict((WIDTH - MARGIN, page.y + 4), facts.faults() == 0, &judgement(facts));
    page.y += HEADING;
}

fn summary(facts: &Facts) -> String {
    let partitions = counted(facts.partitions.len() as u64, "partition");
    format!("{}, {partitions}, {} table active", counted(facts.length, "byte"), facts.description.active_table)
}

/// What is said of all blocks of levels 1 to 4 together.
fn judgement(facts: &Facts) -> String {
    match (facts.faults(), facts.blocks()) {
        (0, all) => format!("All {} verified", counted(all, "block")),
        (not, all) => format!("{} of {} not verified", grouped(not), counted(all, "block")),
    }
}

fn draw_partition(page: &mut Page, partition: &PartitionFacts) {
    let layout = &partition.layout;
    page.text((MARGIN, page.y + BASELINE), "heading", &format!("Partition {}", partition.name));
    page.text((CONTENT_X, page.y + BASELINE), "detail", &level4_in_words(partition));
    page.y += PARTITION_HEADING;
    draw_strip(page, partition, "Pairs of halves", "in the partition", &partition_stretches(partition));
    draw_strip(page, partition, "IVFC levels", "in DPFS level 3", &level3_stretches(layout));
    let halves = format!("2 halves of {}", counted(layout.dpfs_level1.size, "byte"));
    draw_pair(page, partition, 1, halves);
    draw_pair(page, partition, 2, in_words(layout.dpfs_level2));
    draw_pair(page, partition, 3, in_words(layout.dpfs_level3));
    (1..=4).for_each(|number| draw_verified(page, partition, number));
}

fn draw_strip(page: &mut Page, partition: &PartitionFacts, name: &str, within: &str, stretches: &[Stretch]) {
    let group = format!("{}-{}", partition.name, name.replace(' ', "-"));
    let details = [("detail", within.to_string())];
    page.row(name, &details, |page| page.group(&group, |page| strip::draw(page, stretches)));
}

/// Which copies of a DPFS level are live; `blocks` says in words how many there are.
fn draw_pair(page: &mut Page, partition: &PartitionFacts, number: usize, blocks: String) {
    let copies = &partition.pairs[number - 1];
    let what = if number == 1 { "half" } else { "copy" };
    let mut details = vec![("detail", blocks)];
    details.extend(cell_in_words(copy_grouping(copies)));
    let group = format!("{}-DPFS-{number}", partition.name);
    page.row(&format!("DPFS level {number}"), &details, |page| {
        page.group(&group, |page| draw_copies(page, copies, what));
    });
}

/// Which blocks of an IVFC level are verified.
fn draw_verified(page: &mut Page, partition: &PartitionFacts, number: usize) {
    let (level, faults) = (partition.layout.levels[number - 1], &partition.faults[number - 1]);
    let grouping = Grouping::new(level.blocks(), MOST_LEVEL_CELLS[number - 1]);
    let mut details = vec![("detail", in_words(level))];
    details.extend(cell_in_words(grouping));
    if !faults.is_empty() {
        details.push(("fault", format!("{} not verified", grouped(faults.len() as u64))));
    }
    let group = format!("{}-IVFC-{number}", partition.name);
    page.row(&format!("IVFC level {number}"), &details, |page| {
        page.group(&group, |page| draw_level(page, grouping, faults));
    });
}

fn cell_in_words(grouping: Grouping) -> Option<(&'static str, String)> {
    (grouping.per_cell > 1).then(|| ("detail", format!("{} to a cell", counted(grouping.per_cell, "block"))))
}

fn level4_in_words(partition: &PartitionFacts) -> String {
    let level = &partition.layout.levels[3];
    let where_it_is = match partition.layout.external {
        Some(_) => "external: one copy, written in place",
        None => "in DPFS level 3, doubled",
    };
    format!("Level 4: {}, {where_it_is}", counted(level.size, "byte"))
}

fn in_words(level: Level) -> String {
    format!("{} of {}", counted(level.blocks(), "block"), counted(level.block_size(), "byte"))
}

#[cfg(test)]
mod tests {
    use std::time::{Duration, Instant};

    use super::*;
    use crate::map::geometry::Copies;
    use crate::{Extent, Image, Kind, Partition, PartitionLayout};

    /// Facts that no image of the library's size has room for: two partitions with so many blocks on every level
    /// but the first, every other one not verified, and live copies on both sides.
    fn crowded(blocks: u64) -> Facts {
        let image = Image::blank(Kind::Disa, 1).expect("one block is in range");
        let mut description = image.open().expect("a blank image opens");
        let level = |blocks| Level { offset: 0, size: 32 * blocks, log: 5 };
        let layout = PartitionLayout {
            partition: Extent { offset: 0x1000, size: 1 << 40 },
            levels: [level(64), level(blocks), level(blocks), level(blocks)],
            dpfs_level2: level(blocks),
            dpfs_level3: level(blocks),
            ..description.a
        };
        description.a = layout;
        description.b = Some(layout);
        let copies = |blocks| Copies {
            live: (0..blocks).map(|block| (block % 2) as u8).collect(),
            inactive: Some((0..blocks).map(|block| (block / 2 % 2) as u8).collect()),
        };
        let partition = |name| PartitionFacts {
            name,
            layout,
            pairs: [copies(1), copies(blocks), copies(blocks)],
            faults: layout.levels.map(|level| (0..level.blocks()).step_by(2).collect()),
        };
        let partitions = Partition::ALL.map(partition).into();
        Facts { description, length: 1 << 41, partitions }
    }

    #[test]
    fn a_picture_of_however_many_blocks_stays_small() {
        for blocks in [4, 256, 16_384, 1 << 16] {
            let length = draw(&crowded(blocks)).len();
            assert!(length < 400_000, "{blocks} blocks make a picture of {length} bytes");
        }
    }

    /// The quickest of a few runs, so that a machine that is busy elsewhere does not decide.
    fn time_to_draw(blocks: u64) -> Duration {
        let facts = crowded(blocks);
        let time = |_| {
            let start = Instant::now();
            draw(&facts);
            start.elapsed()
        };
        (0..3).map(time).min().expect("there are three")
    }

    #[test]
    fn the_time_grows_no_faster_than_the_blocks() {
        let (few, many) = (time_to_draw(1 << 12), time_to_draw(1 << 16));
        assert!(many < few * 4 * 16, "16 times the blocks: {many:?} after {few:?}");
    }
}
