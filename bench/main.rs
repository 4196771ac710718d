//! The proved library through its C boundary against (a) a straightforward Rust version of the same calls, (b) the best
//! plain Rust SHA-256, (c) openssl. `bench/run` builds and runs it.

mod begun;
mod calls;
mod counting;
mod faults;
mod growth;
mod image;
mod measures;
mod names;
mod openssl;
mod plain_sha256;
mod rows;
mod straightforward;
mod timing;

#[path = "../tests/outside/src/boundary.rs"]
#[allow(dead_code)]
mod boundary;
#[path = "../host/src/boundary.rs"]
#[allow(dead_code)]
mod declarations;
#[path = "../tests/outside/src/description.rs"]
#[allow(dead_code)]
mod description;
#[path = "../tests/outside/src/subject.rs"]
#[allow(dead_code)]
mod subject;

/// The independent rules, with a SHA-256 that counts.
#[path = "../tests/outside/src/rules"]
#[allow(dead_code)]
mod rules {
    pub mod aes;
    pub mod blank;
    pub mod block_hash;
    pub mod calls;
    pub mod cmac;
    pub mod compression;
    pub mod descriptor;
    pub mod dpfs;
    pub mod extent;
    pub mod faults;
    pub mod header;
    pub mod ivfc;
    pub mod names;
    pub mod opening;
    pub mod refusal;
    pub mod running;
    pub mod session;
    pub mod signing;
    pub mod staging;
    pub mod sha256 {
        pub use crate::counting::sha256;
    }
}

use std::process::ExitCode;

use faults::Faults;
use growth::Growth;
use measures::World;
use rows::{print_cells, print_head, Row, BLANK, COMMIT, DIGEST_OF_BLOCK, FRESH_WRITE, LONG_READ, LONG_WRITE, ROWS};

const GROWTH: &str = "growth";
const FAULTS: &str = "faults";

fn main() -> ExitCode {
    let words: Vec<String> = std::env::args().skip(1).collect();
    let wanted = |name: &str| words.is_empty() || words.iter().any(|word| name.contains(word.as_str()));
    if !ROWS.iter().map(|(name, _)| *name).chain([GROWTH, FAULTS]).any(wanted) {
        eprintln!("bench: no row has one of these words in its name");
        return ExitCode::FAILURE;
    }
    let mut rows = Vec::new();
    let world = World::new();
    print_head();
    for (name, measure) in ROWS.into_iter().filter(|(name, _)| wanted(name)) {
        match measure(&world) {
            Some(row) => {
                row.print(name);
                rows.push((name, row));
            }
            None => print_cells(name, &["no openssl"]),
        }
    }
    let growth = wanted(GROWTH).then(Growth::measured);
    if let Some(growth) = &growth {
        println!();
        growth.print();
    }
    let faults = wanted(FAULTS).then(Faults::measured);
    if let Some(faults) = &faults {
        println!();
        faults.print();
    }
    println!();
    if print_bars(&rows, growth.as_ref(), faults.as_ref()) {
        ExitCode::SUCCESS
    } else {
        ExitCode::FAILURE
    }
}

/// Prints the bars of what was measured: whether all hold.
fn print_bars(rows: &[(&str, Row)], growth: Option<&Growth>, faults: Option<&Faults>) -> bool {
    let row = |name| rows.iter().find(|(other, _)| *other == name).map(|(_, row)| row);
    let bars = [
        row(DIGEST_OF_BLOCK).map(|row| at_least("digest of 4 KiB, speed/(b)", row.speed_to_b(), 0.97)),
        row(LONG_READ).map(|row| at_least("verified read of 4096 blocks, speed/(b)", row.speed_to_b(), 1.8)),
        row(LONG_WRITE).and_then(Row::time_to_a).map(|ratio| at_most("write of 64 blocks, time/(a)", ratio, 0.25)),
        row(FRESH_WRITE).and_then(Row::time_to_a).map(|ratio| at_most("64 blocks on fresh ground, time/(a)", ratio, 0.25)),
        row(COMMIT).and_then(Row::time_to_a).map(|ratio| at_most("commit, time/(a)", ratio, 1.0)),
        row(BLANK).map(|row| at_most("blank image of 4096 blocks, time/(b)", 1.0 / row.speed_to_b(), 1.5)),
        growth.map(|growth| at_most("write of 1 byte, 64 MiB to 1 MiB", growth.of_writes(), 1.2)),
        faults.map(|faults| at_most("fault list, each block, 64 MiB to 1 MiB", faults.per_block(), 1.5)),
    ];
    bars.into_iter().flatten().fold(true, |all, holds| all & holds)
}

fn at_least(name: &str, value: f64, bar: f64) -> bool {
    print_bar(name, value, &format!("at least {bar}"), value >= bar)
}

fn at_most(name: &str, value: f64, bar: f64) -> bool {
    print_bar(name, value, &format!("at most {bar}"), value <= bar)
}

fn print_bar(name: &str, value: f64, bar: &str, holds: bool) -> bool {
    println!("{name:<40} {value:>6.3} {bar:>13}: {}", if holds { "holds" } else { "FAILS" });
    holds
}
