//! `describe`: what an image is.

use std::io::{self, Write};

use teplovist::{Description, Extent, Level, Partition, PartitionLayout, Refusal, Table};

use super::answer::Answer;
use super::arguments::{Arguments, Form};
use super::command::{Command, Outcome};
use super::json::{Json, Member};
use super::opening::open_to_read;
use super::signing::{KEY_FILE, SIGNER};

pub const COMMAND: Command = Command {
    form: Form { name: "describe", words: 1..=1, options: &[KEY_FILE, SIGNER], flags: &[] },
    usage: "IMAGE [--key-file FILE --signer WHO]",
    summary: "what an image is: kind, tables, partitions, levels, and how many blocks are verified",
    details: "\
The first lines are those of the library's own program: `stands` is the number of blocks of level 4 that are
verified. With a key and a signer the image must be signed by them (help sign says how they are written).

examples:
  teplovist describe samples/disa-one.img
  teplovist describe samples/disa-two.img --json
  teplovist describe my.img --key-file my.key --signer title:0x0004000000033500",
    run,
};

struct Described {
    length: u64,
    signature_checked: bool,
    description: Description,
    /// Of each partition that is there: how many blocks of level 4 are verified.
    verified: Vec<u64>,
}

fn run(arguments: &Arguments) -> Outcome {
    let (file, description) = open_to_read(arguments)?;
    let image = file.image()?;
    let counts: Result<Vec<u64>, Refusal> =
        description.partitions().map(|(partition, _)| image.count_verified(partition)).collect();
    Ok(Box::new(Described {
        length: image.bytes().len() as u64,
        signature_checked: arguments.option(KEY_FILE).is_some(),
        verified: counts?,
        description,
    }))
}

impl Described {
    fn partitions(&self) -> impl Iterator<Item = (Partition, &PartitionLayout, u64)> {
        let counts = self.verified.iter();
        self.description.partitions().zip(counts).map(|((partition, layout), count)| (partition, layout, *count))
    }

    /// How many blocks each partition has, and how many of them are verified.
    fn write_counts(&self, out: &mut dyn Write) -> io::Result<()> {
        for (partition, layout, verified) in self.partitions() {
            let level4 = layout.level4();
            writeln!(out, "{partition} level4 {} blocks {} stands {verified}", level4.size, level4.blocks())?;
        }
        Ok(())
    }
}

impl Answer for Described {
    fn plain(&self, out: &mut dyn Write) -> io::Result<()> {
        let Description { kind, active_table, .. } = self.description;
        writeln!(out, "{kind}\npartitions {}\ntable {active_table}", self.verified.len())?;
        self.write_counts(out)?;
        writeln!(
            out,
            "\nimage             {} bytes{}",
            self.length,
            if self.signature_checked { ", signed" } else { "" }
        )?;
        write_table(out, &self.description, Table::Primary)?;
        write_table(out, &self.description, Table::Secondary)?;
        self.partitions()
            .try_for_each(|(partition, layout, verified)| write_partition(out, partition, layout, verified))
    }

    fn members(&self) -> Vec<Member> {
        let Description { kind, active_table, primary, secondary, .. } = self.description;
        let partitions = self.partitions().map(|(partition, layout, count)| partition_object(partition, layout, count));
        vec![
            ("kind", Json::text(kind.to_string())),
            ("length", self.length.into()),
            ("signature_checked", self.signature_checked.into()),
            ("table", Json::text(active_table.to_string())),
            ("primary", extent_object(primary)),
            ("secondary", extent_object(secondary)),
            ("partitions", Json::List(partitions.collect())),
        ]
    }
}

/// A part's name, its first byte and its size, and what else is to be said.
fn write_row(out: &mut dyn Write, name: &str, extent: Extent, note: &str) -> io::Result<()> {
    writeln!(out, "{name:<17} at {:#x}, {} bytes{note}", extent.offset, extent.size)
}

fn write_table(out: &mut dyn Write, description: &Description, table: Table) -> io::Result<()> {
    let note = if table == description.active_table { "; active" } else { "" };
    write_row(out, &format!("{table} table"), description.table(table), note)
}

fn write_level(out: &mut dyn Write, name: &str, level: Level, note: &str) -> io::Result<()> {
    let blocks = if level.blocks() == 1 { "block" } else { "blocks" };
    let note = format!("; {} {blocks} of {}{note}", level.blocks(), level.block_size());
    write_row(out, name, level.extent(), &note)
}

fn write_partition(
    out: &mut dyn Write,
    partition: Partition,
    layout: &PartitionLayout,
    verified: u64,
) -> io::Result<()> {
    writeln!(out)?;
    write_row(out, &format!("partition {partition}"), layout.partition, "")?;
    writeln!(out, "in the active table:")?;
    write_row(out, "  descriptor", layout.descriptor, "")?;
    writeln!(out, "in the descriptor:")?;
    write_row(out, "  IVFC", layout.ivfc, "")?;
    write_row(out, "  DPFS", layout.dpfs, "")?;
    write_row(out, "  master hash", layout.master_hash, "")?;
    writeln!(out, "in the partition, each a pair of halves:")?;
    write_row(out, "  DPFS level 1", layout.dpfs_level1, &format!("; half {} is live", layout.selector))?;
    write_level(out, "  DPFS level 2", layout.dpfs_level2, "")?;
    write_level(out, "  DPFS level 3", layout.dpfs_level3, "")?;
    writeln!(out, "in DPFS level 3:")?;
    for (index, level) in layout.levels[..3].iter().enumerate() {
        write_level(out, &format!("  IVFC level {}", index + 1), *level, "")?;
    }
    let note = format!(", {verified} verified");
    match layout.external {
        None => write_level(out, "  IVFC level 4", layout.level4(), &note),
        Some(offset) => {
            writeln!(out, "in the partition, once (external, so it is written in place):")?;
            write_level(out, "  IVFC level 4", Level { offset, ..layout.level4() }, &note)
        }
    }
}

fn extent_members(extent: Extent) -> Vec<Member> {
    vec![("offset", extent.offset.into()), ("size", extent.size.into())]
}

fn extent_object(extent: Extent) -> Json {
    Json::Object(extent_members(extent))
}

fn level_object(level: Level) -> Json {
    let mut members = extent_members(level.extent());
    members.extend([("block_size", level.block_size().into()), ("blocks", level.blocks().into())]);
    Json::Object(members)
}

fn partition_object(partition: Partition, layout: &PartitionLayout, verified: u64) -> Json {
    Json::Object(vec![
        ("name", Json::text(partition.to_string())),
        ("size", layout.level4().size.into()),
        ("blocks", layout.level4().blocks().into()),
        ("verified", verified.into()),
        ("external", layout.external.into()),
        ("selector", u64::from(layout.selector).into()),
        ("partition", extent_object(layout.partition)),
        ("descriptor", extent_object(layout.descriptor)),
        ("ivfc", extent_object(layout.ivfc)),
        ("dpfs", extent_object(layout.dpfs)),
        ("master_hash", extent_object(layout.master_hash)),
        ("ivfc_levels", Json::List(layout.levels.map(level_object).into())),
        ("dpfs_level1", extent_object(layout.dpfs_level1)),
        ("dpfs_level2", level_object(layout.dpfs_level2)),
        ("dpfs_level3", level_object(layout.dpfs_level3)),
    ])
}
