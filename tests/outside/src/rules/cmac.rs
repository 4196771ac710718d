//! CMAC with AES-128, of RFC 4493.

use super::aes::{encrypt, sum, Block, Key};

/// The message's authentication code (2.4).
pub fn cmac(key: &Key, message: &[u8]) -> Block {
    let [for_whole, for_padded] = subkeys(key);
    let blocks = message.len().div_ceil(16).max(1);
    let (front, rest) = message.split_at(16 * (blocks - 1));
    let mut last = [0; 16];
    last[..rest.len()].copy_from_slice(rest);
    let last = if rest.len() == 16 {
        sum(&last, &for_whole)
    } else {
        last[rest.len()] = 0x80;
        sum(&last, &for_padded)
    };
    let chained = front.chunks_exact(16).fold([0; 16], |state, block| {
        let block: &Block = block.try_into().expect("16 bytes");
        encrypt(key, &sum(&state, block))
    });
    encrypt(key, &sum(&chained, &last))
}

/// K1 and K2 (2.3): for a last block that is whole, and for one that was padded.
fn subkeys(key: &Key) -> [Block; 2] {
    let first = doubled(&encrypt(key, &[0; 16]));
    [first, doubled(&first)]
}

/// The bits moved one place to the left; a bit that falls out is made up for by 0x87.
fn doubled(block: &Block) -> Block {
    let number = u128::from_be_bytes(*block);
    (number << 1 ^ if number >> 127 == 0 { 0 } else { 0x87 }).to_be_bytes()
}

#[cfg(test)]
mod tests {
    use super::*;

    const KEY: Key = 0x2b7e151628aed2a6abf7158809cf4f3cu128.to_be_bytes();

    /// The examples in section 4: the subkeys, with AES-128(key, 0).
    #[test]
    fn the_subkeys() {
        assert_eq!(encrypt(&KEY, &[0; 16]), 0x7df76b0c1ab899b33e42f047b91b546fu128.to_be_bytes());
        let [first, second] = subkeys(&KEY);
        assert_eq!(first, 0xfbeed618357133667c85e08f7236a8deu128.to_be_bytes());
        assert_eq!(second, 0xf7ddac306ae266ccf90bc11ee46d513bu128.to_be_bytes());
    }

    /// The examples in section 4: messages of 0, 16, 40 and 64 bytes.
    #[test]
    fn published_vectors() {
        let message: Vec<u8> = [
            0x6bc1bee22e409f96e93d7e117393172au128,
            0xae2d8a571e03ac9c9eb76fac45af8e51,
            0x30c81c46a35ce411e5fbc1191a0a52ef,
            0xf69f2445df4f9b17ad2b417be66c3710,
        ]
        .iter()
        .flat_map(|block| block.to_be_bytes())
        .collect();
        let vectors: [(usize, u128); 4] = [
            (0, 0xbb1d6929e95937287fa37d129b756746),
            (16, 0x070a16b46b4d4144f79bdd9dd04a287c),
            (40, 0xdfa66747de9ae63030ca32611497c827),
            (64, 0x51f0bebf7e3b9d92fc49741779363cfe),
        ];
        for (length, code) in vectors {
            assert_eq!(cmac(&KEY, &message[..length]), code.to_be_bytes(), "{length} bytes");
        }
    }
}
