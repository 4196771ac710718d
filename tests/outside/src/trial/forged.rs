//! Session values that no call has handed out, and the headers that they remember.

use crate::generate::contents::{put, put_header};
use crate::generate::random::Random;
use crate::rules::extent::Extent;
use crate::rules::header::{Header, Kind, PartitionPlace, HEADER_LENGTH};
use crate::rules::session::{header_bytes, HeaderBytes, Session, SessionBytes, SECOND, SESSION_LENGTH};
use crate::rules::sha256::sha256;

/// A session value that no call has handed out just now, for an image with this header; `kept` were handed out earlier.
pub fn forge_session(random: &mut Random, image: &[u8], header: &Header, kept: &[SessionBytes]) -> SessionBytes {
    let present = header_bytes(image);
    let mut session = match random.below(9) {
        0 => random.bytes(SESSION_LENGTH).try_into().expect("a session's length"),
        1..=2 if !kept.is_empty() => kept[random.below(kept.len() as u64) as usize],
        3..=5 => Session::Idle { former: forge_former(random, image, header), latter: present }.to_bytes(),
        _ => {
            let mut session = Session::Begun(present).to_bytes();
            session[0] = random.between(1, 255) as u8;
            put(&mut session, SECOND.start, &random.bytes(HEADER_LENGTH));
            session
        }
    };
    if random.chance(15) {
        session[random.below(SESSION_LENGTH as u64) as usize] ^= 1 << random.below(8);
    }
    session
}

/// A header that no commit was made on: one of the other table as it is, which an image may open under, one of the other
/// kind, one with other bytes where none is read, the present one, or noise.
fn forge_former(random: &mut Random, image: &[u8], header: &Header) -> HeaderBytes {
    let present = header_bytes(image);
    let noise = noise(random);
    match random.below(6) {
        0 | 1 => written_over(present, &with_other_table(header), image),
        2 | 3 => {
            let other = in_other_kind(random, header);
            // The other table is one to open under only where a session has staged it.
            let other = if random.chance(25) { with_other_table(&other) } else { other };
            written_over(random.pick(&[present, noise]), &other, image)
        }
        4 => with_other_unread_byte(random, present, header.kind),
        _ => random.pick(&[present, noise]),
    }
}

fn noise(random: &mut Random) -> HeaderBytes {
    random.bytes(HEADER_LENGTH).try_into().expect("a header's length")
}

fn with_other_unread_byte(random: &mut Random, mut bytes: HeaderBytes, kind: Kind) -> HeaderBytes {
    let unread = kind.hash_place() as u64 + 32;
    bytes[random.between(unread, HEADER_LENGTH as u64 - 1) as usize] ^= 1;
    bytes
}

fn with_other_table(header: &Header) -> Header {
    Header { flag: 1 - header.flag, ..header.clone() }
}

/// A header of the other kind with the same active table or a part of it, so that every image that opens under the one
/// opens under the other. A DIFF's descriptor is its whole table, and a DISA of one partition may have that too. Of a
/// DISA's partitions a DIFF has one, with that one's descriptor for its table.
fn in_other_kind(random: &mut Random, header: &Header) -> Header {
    if header.kind == Kind::Diff {
        return Header { kind: Kind::Disa, ..header.clone() };
    }
    let PartitionPlace { descriptor, area } = random.pick(&header.partitions);
    let part = |table: Extent| Extent { offset: table.offset + descriptor.offset, size: descriptor.size };
    Header {
        kind: Kind::Diff,
        flag: header.flag,
        secondary: part(header.secondary),
        primary: part(header.primary),
        partitions: vec![PartitionPlace { descriptor: Extent { offset: 0, ..descriptor }, area }],
    }
}

/// The fields of a header, with the hash of the table that it calls active, over bytes that stay where no field is.
fn written_over(mut bytes: HeaderBytes, header: &Header, image: &[u8]) -> HeaderBytes {
    put_header(&mut bytes, header);
    put(&mut bytes, header.kind.hash_place(), &sha256(header.active_table().of(image)));
    bytes
}

#[cfg(test)]
mod tests {
    use super::*;
    use crate::generate::shape::Wanted;
    use crate::generate::valid_image;
    use crate::rules::header::HEADER;
    use crate::rules::opening::open;

    /// An image opens under the header of the other kind that is made of its own, and under the one that is made of that.
    #[test]
    fn images_open_under_either_kind() {
        for seed in 0..200 {
            let random = &mut Random::new(seed);
            let sample = valid_image(random, &Wanted::default());
            let mut image = sample.image;
            let mut header = sample.opened.header;
            for _ in 0..2 {
                let other = in_other_kind(random, &header);
                assert_ne!(other.kind, header.kind);
                let bytes = written_over(noise(random), &other, &image);
                put(&mut image, HEADER, &bytes);
                assert_eq!(open(&image).map(|opened| opened.header), Ok(other.clone()), "seed {seed}");
                header = other;
            }
        }
    }
}
