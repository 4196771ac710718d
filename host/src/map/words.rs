//! Numbers in words, as people read them.

use crate::Extent;

/// A number with a comma before every three digits.
pub fn grouped(number: u64) -> String {
    if number < 1000 {
        return number.to_string();
    }
    format!("{},{:03}", grouped(number / 1000), number % 1000)
}

/// So many of something, in the singular or the plural.
pub fn counted(number: u64, one: &str) -> String {
    let ending = if number == 1 { "" } else { "s" };
    format!("{} {one}{ending}", grouped(number))
}

/// Blocks `first` to `last`, both counted in.
pub fn block_range(first: u64, last: u64) -> String {
    if first == last {
        format!("Block {first}")
    } else {
        format!("Blocks {first} to {last}")
    }
}

/// A size in few letters: exact as long as that is short.
pub fn short_size(bytes: u64) -> String {
    const KIB: u64 = 1024;
    const MIB: u64 = 1024 * KIB;
    match bytes {
        0..10_000 => counted(bytes, "byte"),
        10_000..MIB => format!("{:.1} KiB", bytes as f64 / KIB as f64),
        _ => format!("{:.1} MiB", bytes as f64 / MIB as f64),
    }
}

/// A run of bytes by its first and its last; no run that a picture shows is empty.
pub fn place(extent: Extent) -> String {
    let last = extent.end() - 1;
    format!("{:#x} to {last:#x}, {}", extent.offset, counted(extent.size, "byte"))
}

#[cfg(test)]
mod tests {
    use super::*;

    #[test]
    fn commas_before_every_three_digits() {
        let numbers = [(0, "0"), (999, "999"), (1000, "1,000"), (16384, "16,384"), (1_004_567, "1,004,567")];
        for (number, text) in numbers {
            assert_eq!(grouped(number), text);
        }
    }

    #[test]
    fn one_is_singular() {
        assert_eq!(counted(1, "block"), "1 block");
        assert_eq!(counted(4096, "block"), "4,096 blocks");
        assert_eq!(counted(0, "byte"), "0 bytes");
    }

    #[test]
    fn sizes_are_exact_where_that_is_short() {
        let sizes = [(1, "1 byte"), (9_999, "9,999 bytes"), (25_441, "24.8 KiB"), (1 << 24, "16.0 MiB")];
        for (bytes, text) in sizes {
            assert_eq!(short_size(bytes), text);
        }
    }

    #[test]
    fn a_place_names_its_last_byte() {
        assert_eq!(place(Extent { offset: 0x200, size: 0x100 }), "0x200 to 0x2ff, 256 bytes");
    }
}
