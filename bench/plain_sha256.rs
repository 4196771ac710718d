//! (b): SHA-256 in plain Rust, written for speed: what the proved library is measured against. The 64 rounds are
//! written out in full (no loop, no array index that is not a constant), the working variables change names instead of
//! places, and the schedule is 16 words that are renewed as they are used. Three forms of the functions Ch and Maj are
//! tried; the fastest one counts.

pub type Sha256 = fn(&[u8]) -> [u8; 32];

pub const FORMS: [Sha256; 3] = [standard, shorter, early];

#[rustfmt::skip]
const K: [u32; 64] = [
    0x428a2f98, 0x71374491, 0xb5c0fbcf, 0xe9b5dba5, 0x3956c25b, 0x59f111f1, 0x923f82a4, 0xab1c5ed5,
    0xd807aa98, 0x12835b01, 0x243185be, 0x550c7dc3, 0x72be5d74, 0x80deb1fe, 0x9bdc06a7, 0xc19bf174,
    0xe49b69c1, 0xefbe4786, 0x0fc19dc6, 0x240ca1cc, 0x2de92c6f, 0x4a7484aa, 0x5cb0a9dc, 0x76f988da,
    0x983e5152, 0xa831c66d, 0xb00327c8, 0xbf597fc7, 0xc6e00bf3, 0xd5a79147, 0x06ca6351, 0x14292967,
    0x27b70a85, 0x2e1b2138, 0x4d2c6dfc, 0x53380d13, 0x650a7354, 0x766a0abb, 0x81c2c92e, 0x92722c85,
    0xa2bfe8a1, 0xa81a664b, 0xc24b8b70, 0xc76c51a3, 0xd192e819, 0xd6990624, 0xf40e3585, 0x106aa070,
    0x19a4c116, 0x1e376c08, 0x2748774c, 0x34b0bcb5, 0x391c0cb3, 0x4ed8aa4a, 0x5b9cca4f, 0x682e6ff3,
    0x748f82ee, 0x78a5636f, 0x84c87814, 0x8cc70208, 0x90befffa, 0xa4506ceb, 0xbef9a3f7, 0xc67178f2,
];

const START: [u32; 8] =
    [0x6a09e667, 0xbb67ae85, 0x3c6ef372, 0xa54ff53a, 0x510e527f, 0x9b05688c, 0x1f83d9ab, 0x5be0cd19];

#[inline(always)]
fn sum0(x: u32) -> u32 {
    x.rotate_right(2) ^ x.rotate_right(13) ^ x.rotate_right(22)
}

#[inline(always)]
fn sum1(x: u32) -> u32 {
    x.rotate_right(6) ^ x.rotate_right(11) ^ x.rotate_right(25)
}

#[inline(always)]
fn sigma0(x: u32) -> u32 {
    x.rotate_right(7) ^ x.rotate_right(18) ^ (x >> 3)
}

#[inline(always)]
fn sigma1(x: u32) -> u32 {
    x.rotate_right(17) ^ x.rotate_right(19) ^ (x >> 10)
}

// One round: the standard's Ch and Maj.
macro_rules! standard {
    ($old:ident, $a:ident, $b:ident, $c:ident, $d:ident, $e:ident, $f:ident, $g:ident, $h:ident, $k:expr, $w:expr) => {
        let t = $h.wrapping_add(sum1($e)).wrapping_add(($e & $f) ^ (!$e & $g)).wrapping_add($k).wrapping_add($w);
        $d = $d.wrapping_add(t);
        $h = t.wrapping_add(sum0($a).wrapping_add(($a & $b) ^ ($a & $c) ^ ($b & $c)));
    };
}

// One round: Ch with one operation less; Maj by what the round before left of it.
macro_rules! shorter {
    ($old:ident, $a:ident, $b:ident, $c:ident, $d:ident, $e:ident, $f:ident, $g:ident, $h:ident, $k:expr, $w:expr) => {
        let t = $h.wrapping_add(sum1($e)).wrapping_add($g ^ ($e & ($f ^ $g))).wrapping_add($k).wrapping_add($w);
        let new = $a ^ $b;
        $d = $d.wrapping_add(t);
        $h = t.wrapping_add(sum0($a).wrapping_add($b ^ (new & $old)));
        $old = new;
    };
}

// One round: the same, with the sums in another order (the word, the constant and h first, which are there early).
macro_rules! early {
    ($old:ident, $a:ident, $b:ident, $c:ident, $d:ident, $e:ident, $f:ident, $g:ident, $h:ident, $k:expr, $w:expr) => {
        let t = $h.wrapping_add($k.wrapping_add($w)).wrapping_add($g ^ ($e & ($f ^ $g))).wrapping_add(sum1($e));
        let new = $a ^ $b;
        $d = $d.wrapping_add(t);
        $h = t.wrapping_add(sum0($a).wrapping_add($b ^ (new & $old)));
        $old = new;
    };
}

macro_rules! eight {
    ($round:ident, $old:ident, $a:ident, $b:ident, $c:ident, $d:ident, $e:ident, $f:ident, $g:ident, $h:ident,
     $t:expr, $w:ident, $i:expr) => {
        $round!($old, $a, $b, $c, $d, $e, $f, $g, $h, K[$t], $w[$i]);
        $round!($old, $h, $a, $b, $c, $d, $e, $f, $g, K[$t + 1], $w[$i + 1]);
        $round!($old, $g, $h, $a, $b, $c, $d, $e, $f, K[$t + 2], $w[$i + 2]);
        $round!($old, $f, $g, $h, $a, $b, $c, $d, $e, K[$t + 3], $w[$i + 3]);
        $round!($old, $e, $f, $g, $h, $a, $b, $c, $d, K[$t + 4], $w[$i + 4]);
        $round!($old, $d, $e, $f, $g, $h, $a, $b, $c, K[$t + 5], $w[$i + 5]);
        $round!($old, $c, $d, $e, $f, $g, $h, $a, $b, K[$t + 6], $w[$i + 6]);
        $round!($old, $b, $c, $d, $e, $f, $g, $h, $a, K[$t + 7], $w[$i + 7]);
    };
}

macro_rules! renew {
    ($w:ident, $($i:expr),*) => {
        $($w[$i] = $w[$i]
            .wrapping_add(sigma0($w[($i + 1) % 16]))
            .wrapping_add($w[($i + 9) % 16])
            .wrapping_add(sigma1($w[($i + 14) % 16]));)*
    };
}

macro_rules! compress {
    ($name:ident, $round:ident) => {
        #[allow(unused_assignments, unused_mut, unused_variables)]
        fn $name(state: &mut [u32; 8], block: &[u8; 64]) {
            let mut w = [0u32; 16];
            for i in 0..16 {
                w[i] = u32::from_be_bytes(block[i * 4..i * 4 + 4].try_into().unwrap());
            }
            let [mut a, mut b, mut c, mut d, mut e, mut f, mut g, mut h] = *state;
            let mut old = b ^ c;
            eight!($round, old, a, b, c, d, e, f, g, h, 0, w, 0);
            eight!($round, old, a, b, c, d, e, f, g, h, 8, w, 8);
            renew!(w, 0, 1, 2, 3, 4, 5, 6, 7);
            eight!($round, old, a, b, c, d, e, f, g, h, 16, w, 0);
            renew!(w, 8, 9, 10, 11, 12, 13, 14, 15);
            eight!($round, old, a, b, c, d, e, f, g, h, 24, w, 8);
            renew!(w, 0, 1, 2, 3, 4, 5, 6, 7);
            eight!($round, old, a, b, c, d, e, f, g, h, 32, w, 0);
            renew!(w, 8, 9, 10, 11, 12, 13, 14, 15);
            eight!($round, old, a, b, c, d, e, f, g, h, 40, w, 8);
            renew!(w, 0, 1, 2, 3, 4, 5, 6, 7);
            eight!($round, old, a, b, c, d, e, f, g, h, 48, w, 0);
            renew!(w, 8, 9, 10, 11, 12, 13, 14, 15);
            eight!($round, old, a, b, c, d, e, f, g, h, 56, w, 8);
            for (x, y) in state.iter_mut().zip([a, b, c, d, e, f, g, h]) {
                *x = x.wrapping_add(y);
            }
        }
    };
}

compress!(compress_standard, standard);
compress!(compress_shorter, shorter);
compress!(compress_early, early);

#[inline(always)]
fn digest(message: &[u8], compress: impl Fn(&mut [u32; 8], &[u8; 64])) -> [u8; 32] {
    let mut state = START;
    let mut blocks = message.chunks_exact(64);
    for block in &mut blocks {
        compress(&mut state, block.try_into().unwrap());
    }
    let rest = blocks.remainder();
    let mut last = [0u8; 128];
    last[..rest.len()].copy_from_slice(rest);
    last[rest.len()] = 0x80;
    let end = if rest.len() < 56 { 64 } else { 128 };
    last[end - 8..end].copy_from_slice(&((message.len() as u64) << 3).to_be_bytes());
    for block in last[..end].chunks_exact(64) {
        compress(&mut state, block.try_into().unwrap());
    }
    let mut out = [0u8; 32];
    for (bytes, word) in out.chunks_exact_mut(4).zip(state) {
        bytes.copy_from_slice(&word.to_be_bytes());
    }
    out
}

fn standard(message: &[u8]) -> [u8; 32] {
    digest(message, compress_standard)
}

fn shorter(message: &[u8]) -> [u8; 32] {
    digest(message, compress_shorter)
}

fn early(message: &[u8]) -> [u8; 32] {
    digest(message, compress_early)
}
