//! AES-128 of FIPS 197: the cipher alone, for nothing here decrypts. The substitution table is computed from its rule.

use std::sync::OnceLock;

pub type Key = [u8; 16];
/// The state: its row r and column c is byte r + 4c (3.4).
pub type Block = [u8; 16];

const ROUNDS: usize = 10;

/// `block` under `key` (5.1).
pub fn encrypt(key: &Key, block: &Block) -> Block {
    let round_keys = expand(key);
    let mut state = sum(block, &round_keys[0]);
    for round_key in &round_keys[1..ROUNDS] {
        state = sum(&mix_columns(&shift_rows(&substitute(&state))), round_key);
    }
    sum(&shift_rows(&substitute(&state)), &round_keys[ROUNDS])
}

/// The bitwise sum of two blocks.
pub fn sum(one: &Block, other: &Block) -> Block {
    std::array::from_fn(|place| one[place] ^ other[place])
}

/// The product with x in the field of 256 elements, modulo x^8 + x^4 + x^3 + x + 1 (4.2.1).
fn times_x(byte: u8) -> u8 {
    byte << 1 ^ if byte & 0x80 == 0 { 0 } else { 0x1B }
}

/// The product of two elements of the field (4.2).
fn product(one: u8, other: u8) -> u8 {
    let mut result = 0;
    let mut shifted = one;
    for bit in 0..8 {
        if other >> bit & 1 == 1 {
            result ^= shifted;
        }
        shifted = times_x(shifted);
    }
    result
}

/// The element whose product with this one is 1; 0, which has none, stays as it is (5.1.1).
fn inverse(byte: u8) -> u8 {
    (0..=255).find(|other| product(byte, *other) == 1).unwrap_or(0)
}

/// The affine step (5.1.1): bit i becomes the sum of bits i, i + 4, i + 5, i + 6 and i + 7 modulo 8, and of bit i of 0x63.
fn affine(byte: u8) -> u8 {
    let bit = |place: u32| byte >> (place % 8) & 1;
    (0..8).fold(0x63, |result, i| result ^ (bit(i) ^ bit(i + 4) ^ bit(i + 5) ^ bit(i + 6) ^ bit(i + 7)) << i)
}

/// A byte's substitute; the search for inverses is made once.
fn substitute_byte(byte: u8) -> u8 {
    static TABLE: OnceLock<[u8; 256]> = OnceLock::new();
    TABLE.get_or_init(|| std::array::from_fn(|byte| affine(inverse(byte as u8))))[usize::from(byte)]
}

fn substitute(state: &Block) -> Block {
    state.map(substitute_byte)
}

/// Row r moves r places to the left, cyclically (5.1.2).
fn shift_rows(state: &Block) -> Block {
    std::array::from_fn(|place| {
        let (row, column) = (place % 4, place / 4);
        state[row + 4 * ((column + row) % 4)]
    })
}

/// In each column, row r becomes 2 times row r, plus 3 times the next row, plus the two rows behind that (5.1.3).
fn mix_columns(state: &Block) -> Block {
    std::array::from_fn(|place| {
        let row = |behind: usize| state[place / 4 * 4 + (place + behind) % 4];
        times_x(row(0)) ^ times_x(row(1)) ^ row(1) ^ row(2) ^ row(3)
    })
}

/// The round keys, four words each (5.2).
fn expand(key: &Key) -> [Block; ROUNDS + 1] {
    let mut round_keys = [*key; ROUNDS + 1];
    let mut constant = 1;
    for round in 1..=ROUNDS {
        let before = round_keys[round - 1];
        for place in 0..16 {
            // A round key's first word takes the last word before it, rotated and substituted; the others take it as it is.
            let previous = match place {
                0..=3 => substitute_byte(before[12 + (place + 1) % 4]) ^ if place == 0 { constant } else { 0 },
                _ => round_keys[round][place - 4],
            };
            round_keys[round][place] = before[place] ^ previous;
        }
        constant = times_x(constant);
    }
    round_keys
}

#[cfg(test)]
mod tests {
    use super::*;

    fn block(number: u128) -> Block {
        number.to_be_bytes()
    }

    /// The examples in 4.2, 4.2.1 and 5.1.1.
    #[test]
    fn the_field() {
        assert_eq!(product(0x57, 0x83), 0xC1);
        assert_eq!(product(0x57, 0x13), 0xFE);
        assert_eq!([0x57, 0xAE, 0x47, 0x8E].map(times_x), [0xAE, 0x47, 0x8E, 0x07]);
        assert_eq!(substitute_byte(0x53), 0xED);
        for byte in 1..=255 {
            assert_eq!(product(byte, inverse(byte)), 1);
        }
        assert_eq!(inverse(0), 0);
    }

    /// The first and the last row of figure 7; no two bytes have the same substitute.
    #[test]
    fn the_substitution_table() {
        assert_eq!(std::array::from_fn(|low| substitute_byte(low as u8)), block(0x637c777bf26b6fc53001672bfed7ab76));
        let last: Block = std::array::from_fn(|low| substitute_byte(0xF0 + low as u8));
        assert_eq!(last, block(0x8ca1890dbfe6426841992d0fb054bb16));
        let mut seen = [false; 256];
        (0..=255).for_each(|byte| seen[usize::from(substitute_byte(byte))] = true);
        assert_eq!(seen, [true; 256]);
    }

    /// Appendix A.1: the expanded key's words 4 to 7 and 40 to 43.
    #[test]
    fn the_key_expansion() {
        let round_keys = expand(&block(0x2b7e151628aed2a6abf7158809cf4f3c));
        assert_eq!(round_keys[1], block(0xa0fafe1788542cb123a339392a6c7605));
        assert_eq!(round_keys[10], block(0xd014f9a8c9ee2589e13f0cc8b6630ca6));
    }

    /// Appendix B: the state at the start of round 1 and through it.
    #[test]
    fn the_first_round() {
        let key = block(0x2b7e151628aed2a6abf7158809cf4f3c);
        let start = sum(&block(0x3243f6a8885a308d313198a2e0370734), &key);
        assert_eq!(start, block(0x193de3bea0f4e22b9ac68d2ae9f84808));
        let substituted = substitute(&start);
        assert_eq!(substituted, block(0xd42711aee0bf98f1b8b45de51e415230));
        let shifted = shift_rows(&substituted);
        assert_eq!(shifted, block(0xd4bf5d30e0b452aeb84111f11e2798e5));
        assert_eq!(mix_columns(&shifted), block(0x046681e5e0cb199a48f8d37a2806264c));
    }

    /// Appendix B, and appendix C.1.
    #[test]
    fn published_vectors() {
        let vectors = [
            (
                0x2b7e151628aed2a6abf7158809cf4f3c,
                0x3243f6a8885a308d313198a2e0370734,
                0x3925841d02dc09fbdc118597196a0b32,
            ),
            (
                0x000102030405060708090a0b0c0d0e0f,
                0x00112233445566778899aabbccddeeff,
                0x69c4e0d86a7b0430d8cdb78070b4c55a,
            ),
        ];
        for (key, plain, cipher) in vectors {
            assert_eq!(encrypt(&block(key), &block(plain)), block(cipher));
        }
    }
}
