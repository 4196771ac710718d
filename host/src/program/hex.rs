//! Bytes as hexadecimal digits, two for each.

pub fn hex(bytes: &[u8]) -> String {
    const DIGITS: [char; 16] = ['0', '1', '2', '3', '4', '5', '6', '7', '8', '9', 'a', 'b', 'c', 'd', 'e', 'f'];
    bytes.iter().flat_map(|byte| [DIGITS[usize::from(byte >> 4)], DIGITS[usize::from(byte & 0xF)]]).collect()
}

/// Reads what [`hex`] writes; capital letters are digits too.
pub fn from_hex(digits: &[u8]) -> Option<Vec<u8>> {
    let digit = |byte: &u8| char::from(*byte).to_digit(16).map(|value| value as u8);
    digits.chunks(2).map(|pair| Some(digit(&pair[0])? << 4 | digit(pair.get(1)?)?)).collect()
}

#[cfg(test)]
mod tests {
    use super::*;

    #[test]
    fn digits_and_back() {
        let bytes: Vec<u8> = (0..=255).collect();
        assert_eq!(hex(&[0x00, 0x9A, 0xFF]), "009aff");
        assert_eq!(from_hex(hex(&bytes).as_bytes()), Some(bytes));
        assert_eq!(from_hex(b"aB0"), None);
        assert_eq!(from_hex(b"0g"), None);
        assert_eq!(from_hex(b""), Some(vec![]));
    }
}
