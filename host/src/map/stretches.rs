//! What lies where, made ready for strips: names, places and what is live.

use super::facts::{Facts, PartitionFacts};
use super::geometry::{pieces_of_image, pieces_of_level3, pieces_of_partition, Copies, InImage, InPartition, Piece};
use super::page::Share;
use super::strip::{Look, Part, Stretch};
use super::words::{counted, grouped, place, short_size};
use crate::{Extent, PartitionLayout, Table};

const LIVE: Share = Share { live: 1, all: 1 };
const FREE: Share = Share { live: 0, all: 1 };

pub fn image_stretches(facts: &Facts) -> Vec<Stretch> {
    let stretch = |piece: Piece<InImage>| {
        let Some(what) = piece.what else { return space(piece.place) };
        let (name, look, letter) = match what {
            InImage::Front => ("Header".into(), Look::Share(LIVE), String::new()),
            InImage::Table(table) if table == facts.description.active_table => {
                (format!("{}, active", table_name(table)), Look::Share(LIVE), String::new())
            }
            InImage::Table(table) => (format!("{}, free", table_name(table)), Look::Share(FREE), String::new()),
            InImage::Partition(partition) => (format!("Partition {partition}"), Look::Holder, partition.to_string()),
        };
        single(name, look, letter, piece.place)
    };
    pieces_of_image(&facts.description, facts.length).into_iter().map(stretch).collect()
}

fn table_name(table: Table) -> &'static str {
    match table {
        Table::Primary => "Primary table",
        Table::Secondary => "Secondary table",
    }
}

pub fn partition_stretches(partition: &PartitionFacts) -> Vec<Stretch> {
    let stretch = |piece: Piece<InPartition>| match piece.what {
        None => space(piece.place),
        Some(InPartition::ExternalLevel4) => {
            single("External level 4".into(), Look::Share(LIVE), String::new(), piece.place)
        }
        Some(InPartition::Pair(number)) => pair(number, piece.place, &partition.pairs[number - 1]),
    };
    pieces_of_partition(&partition.layout).into_iter().map(stretch).collect()
}

/// The IVFC levels lie in DPFS level 3 as its live copies make it, so their places count within that.
pub fn level3_stretches(layout: &PartitionLayout) -> Vec<Stretch> {
    let stretch = |piece: Piece<usize>| match piece.what {
        None => space(piece.place),
        Some(number) => single(format!("Level {number}"), Look::Holder, number.to_string(), piece.place),
    };
    pieces_of_level3(layout).into_iter().map(stretch).collect()
}

fn space(extent: Extent) -> Stretch {
    let title = format!("Space that no field names: {}", place(extent));
    Stretch { bytes: extent.size, parts: vec![Part { look: Look::Space, letter: String::new(), title }], label: None }
}

fn single(name: String, look: Look, letter: String, extent: Extent) -> Stretch {
    let title = format!("{name}: {}", place(extent));
    let detail = format!("{:#x} · {}", extent.offset, short_size(extent.size));
    Stretch { bytes: extent.size, parts: vec![Part { look, letter, title }], label: Some((name, detail)) }
}

fn pair(number: usize, both: Extent, copies: &Copies) -> Stretch {
    let size = both.size / 2;
    let half = |copy: u8| {
        let live = copies.live.iter().filter(|live| **live == copy).count() as u64;
        let extent = Extent { offset: both.offset + u64::from(copy) * size, size };
        Part {
            look: Look::Share(Share { live, all: copies.blocks() }),
            letter: copy.to_string(),
            title: format!(
                "DPFS level {number}, half {copy}: {}; {}",
                place(extent),
                live_in_words(live, copies.blocks())
            ),
        }
    };
    let detail = format!("{:#x} · 2 × {}", both.offset, short_size(size));
    Stretch { bytes: both.size, parts: vec![half(0), half(1)], label: Some((format!("DPFS level {number}"), detail)) }
}

fn live_in_words(live: u64, all: u64) -> String {
    match live {
        0 => "free".into(),
        _ if live == all => "live".into(),
        _ => format!("{} of {} live", grouped(live), counted(all, "block")),
    }
}
