//! SHA-256 of FIPS 180-4.

use super::compression::{compress, finish, Digest, BLOCK, INITIAL};

/// The hash of `message`.
pub fn sha256(message: &[u8]) -> Digest {
    let mut state = INITIAL;
    let mut blocks = message.chunks_exact(BLOCK);
    for block in blocks.by_ref() {
        state = compress(state, block);
    }
    finish(state, blocks.remainder(), message.len() as u64)
}

#[cfg(test)]
mod tests {
    use super::sha256;

    fn hex(digest: [u8; 32]) -> String {
        digest.iter().map(|byte| format!("{byte:02x}")).collect()
    }

    /// The examples of FIPS 180-4 and NIST's test vectors (byte-oriented, short and long messages).
    #[test]
    fn published_vectors() {
        let vectors: [(&[u8], &str); 8] = [
            (b"", "e3b0c44298fc1c149afbf4c8996fb92427ae41e4649b934ca495991b7852b855"),
            (b"abc", "ba7816bf8f01cfea414140de5dae2223b00361a396177a9cb410ff61f20015ad"),
            (
                b"abcdbcdecdefdefgefghfghighijhijkijkljklmklmnlmnomnopnopq",
                "248d6a61d20638b8e5c026930c3e6039a33ce45964ff2167f6ecedd419db06c1",
            ),
            (
                b"abcdefghbcdefghicdefghijdefghijkefghijklfghijklmghijklmnhijklmnoijklmnopjklmnopqklmnopqrlmnopqrsmnopqrstnopqrstu",
                "cf5b16a778af8380036ce59e7b0492370b249b11e8f07a51afac45037afee9d1",
            ),
            (&[0xd3], "28969cdfa74a12c82f3bad960b0b000aca2ac329deea5c2328ebc6f2ba9802c1"),
            (&[0x11, 0xaf], "5ca7133fa735326081558ac312c620eeca9970d1e70a4b95533d956f072d1f98"),
            (&[0xbd], "68325720aabd7c82f30f554b313d0570c95accbb7dc4b5aae11204c08ffe732b"),
            (&[0xc9, 0x8c, 0x8e, 0x55], "7abc22c0ae5af26ce93dbb94433a0e0b2e119d014f8e7f65bd56c61ccccd9504"),
        ];
        for (message, digest) in vectors {
            assert_eq!(hex(sha256(message)), digest);
        }
    }

    #[test]
    fn a_million_letters() {
        let message = vec![b'a'; 1_000_000];
        assert_eq!(hex(sha256(&message)), "cdc76e5c9914fb9281a1c7e284d73e67f1809a48a497200e046d39ccc7112cd0");
    }

    /// NIST's additional vectors: runs of zero bytes around the padding's edges.
    #[test]
    fn zeros_around_the_edge() {
        let vectors = [
            (55, "02779466cdec163811d078815c633f21901413081449002f24aa3e80f0b88ef7"),
            (56, "d4817aa5497628e7c77e6b606107042bbba3130888c5f47a375e6179be789fbb"),
            (57, "65a16cb7861335d5ace3c60718b5052e44660726da4cd13bb745381b235a1785"),
            (64, "f5a5fd42d16a20302798ef6ed309979b43003d2320d9f0e8ea9831a92759fb4b"),
            (1000, "541b3e9daa09b20bf85fa273e5cbd3e80185aa4ec298e765db87742b70138a53"),
        ];
        for (length, digest) in vectors {
            assert_eq!(hex(sha256(&vec![0; length])), digest);
        }
    }
}
