//! The table's rows: what is measured under which name, and how it is printed.

use crate::image::BLOCK;
use crate::measures::{World, BLOCKS, INSIDE, WRITTEN};

pub const DIGEST_OF_BLOCK: &str = "digest of 4 KiB";
pub const LONG_READ: &str = "verified read of 4096 blocks";
pub const LONG_WRITE: &str = "write of 64 blocks";
pub const FRESH_WRITE: &str = "64 blocks on fresh ground";
pub const COMMIT: &str = "commit";
pub const BLANK: &str = "blank image of 4096 blocks";

/// A row's name, and how it is measured; nothing comes of it if openssl is missing.
pub const ROWS: [(&str, fn(&World) -> Option<Row>); 21] = [
    ("digest of 32 B", |world| world.digest(32, 1000)),
    (DIGEST_OF_BLOCK, |world| world.digest(BLOCK, 10)),
    ("digest of 1 MiB", |world| world.digest(1 << 20, 1)),
    ("(c) openssl, digest of 4 KiB", |world| world.openssl(true)),
    ("(c) openssl, no hardware help", |world| world.openssl(false)),
    ("opening", |world| world.opening()),
    ("verified read of 1 block", |world| world.read(1)),
    ("verified read of 64 blocks", |world| world.read(64)),
    (LONG_READ, |world| world.read(BLOCKS)),
    ("count of 4096 verified blocks", |world| world.count()),
    ("first write of 1 byte", |world| world.first_write(WRITTEN + INSIDE, 1)),
    ("write of 1 byte", |world| world.write(WRITTEN + INSIDE, 1)),
    ("write of 1 block", |world| world.write(WRITTEN, BLOCK)),
    (LONG_WRITE, |world| world.write(WRITTEN, 64 * BLOCK)),
    (FRESH_WRITE, |world| world.fresh_write(WRITTEN, 64 * BLOCK)),
    ("64 first writes of 1 block", |world| world.writes(64, BLOCK, BLOCK)),
    ("4096 first writes of 1 byte", |world| world.writes(4096, 1, 64)),
    (COMMIT, |world| world.commit()),
    ("listing of 10,000 files", |world| world.listing(10_000)),
    ("finding 1 of 10,000 files", |world| world.finding(10_000)),
    (BLANK, |world| world.blank()),
];

/// Best times in nanoseconds, and bytes hashed.
pub struct Row {
    /// Of the proved library; in the rows of (c), of openssl.
    pub time: f64,
    pub time_of_a: Option<f64>,
    /// Of (b) for hashing once what the call is about: the message; the table, of a commit both; of a blank image the
    /// hash levels, and clearing the image; else the blocks of level 4 that it touches, one by one.
    pub time_of_b: f64,
    /// How many bytes the caller asks for; 0 if the call is not about bytes.
    pub asked: usize,
    pub must_hash: usize,
    pub a_hashes: Option<usize>,
}

impl Row {
    pub fn time_to_a(&self) -> Option<f64> {
        self.time_of_a.map(|time| self.time / time)
    }

    pub fn speed_to_b(&self) -> f64 {
        self.time_of_b / self.time
    }

    /// Bytes hashed for each byte asked for, or in all.
    fn share(&self, hashed: usize) -> String {
        match self.asked {
            0 => format!("{hashed} B"),
            asked if hashed < 100 * asked => format!("{:.2}", hashed as f64 / asked as f64),
            asked => format!("{}", hashed / asked),
        }
    }

    pub fn print(&self, name: &str) {
        let cells = [
            clock(self.time),
            or_dash(self.time_of_a.map(clock)),
            clock(self.time_of_b),
            or_dash(self.time_to_a().map(|ratio| format!("{ratio:.3}"))),
            format!("{:.3}", self.speed_to_b()),
            self.share(self.must_hash),
            or_dash(self.a_hashes.map(|hashed| self.share(hashed))),
        ];
        print_cells(name, &cells.each_ref().map(String::as_str));
    }
}

pub fn print_head() {
    print_cells("", &["time", "of (a)", "of (b)", "time/(a)", "speed/(b)", "must hash", "(a) hashes"]);
    print_cells(":---", &["---:"; 7]);
}

pub fn print_cells(name: &str, cells: &[&str]) {
    print!("| {name:<29} |");
    for cell in cells {
        print!(" {cell:>10} |");
    }
    println!();
}

/// Nanoseconds, as text.
pub fn clock(time: f64) -> String {
    match time {
        _ if time < 1e3 => format!("{time:.0} ns"),
        _ if time < 1e6 => format!("{:.2} us", time / 1e3),
        _ => format!("{:.2} ms", time / 1e6),
    }
}

fn or_dash(text: Option<String>) -> String {
    text.unwrap_or("-".into())
}
