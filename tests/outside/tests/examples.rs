//! Said by hand, on images built for it: the paper's examples P6 to P12 and the ones without a number; limits and the order
//! of refusals that the requests add; and whole sessions, from begin to commit and to a step back. (P1 to P5 are next to
//! the bits, in src/rules/dpfs.rs.) The samples in the repository are compared here too.

use outside::generate::contents;
use outside::generate::random::Random;
use outside::generate::samples::samples;
use outside::generate::shape::Wanted;
use outside::generate::{valid_image, Sample};
use outside::program::program_output;
use outside::rules::block_hash::with_stand_in;
use outside::rules::calls::{
    abandon, begin, commit, commit_signed, read_committed, read_staged, revert, revert_signed, verified, write,
};
use outside::rules::descriptor::{Descriptor, Level, DPFS_SIZE, ENTRY, IVFC_SIZE, MASTER_SIZE};
use outside::rules::dpfs::View;
use outside::rules::extent::Extent;
use outside::rules::header::{Header, Kind, PartitionPlace, HEADER};
use outside::rules::opening::{open, open_signed, Opened, Partition};
use outside::rules::protected::free_bytes;
use outside::rules::refusal::Refusal;
use outside::rules::session::{header_bytes, HeaderBytes, Session};
use outside::rules::sha256::sha256;
use outside::rules::signing::{signature, Signer};

/// Size and logarithm of each level; everything is packed without gaps.
struct Sizes {
    hash_levels: [(u128, u64); 4],
    level1: u128,
    level2: (u128, u64),
    level3: (u128, u64),
}

const DESCRIPTOR_SIZE: u128 = 0x12C;
const TABLE: u128 = 0x200;

/// A DIFF whose primary table is active, with exactly these sizes; every block is verified.
fn diff_image(sizes: &Sizes) -> Sample {
    let mut place = 0;
    let hash_levels = sizes.hash_levels.map(|(size, log)| {
        let extent = Extent { offset: place, size };
        place += size;
        Level { extent, log }
    });
    let level1 = Extent { offset: 0, size: sizes.level1 };
    let level2 = Extent { offset: level1.pair().end(), size: sizes.level2.0 };
    let level3 = Extent { offset: level2.pair().end(), size: sizes.level3.0 };
    let descriptor = Descriptor {
        ivfc: Extent { offset: 0x44, size: IVFC_SIZE },
        dpfs: Extent { offset: 0xBC, size: DPFS_SIZE },
        master: Extent { offset: 0x10C, size: MASTER_SIZE },
        selector: 0,
        external: None,
        hash_levels,
        level1,
        level2: Level { extent: level2, log: sizes.level2.1 },
        level3: Level { extent: level3, log: sizes.level3.1 },
    };
    let secondary = Extent { offset: TABLE, size: DESCRIPTOR_SIZE };
    let primary = Extent { offset: secondary.end(), size: DESCRIPTOR_SIZE };
    let area = Extent { offset: primary.end(), size: level3.pair().end() };
    let place = PartitionPlace { descriptor: Extent { offset: 0, size: DESCRIPTOR_SIZE }, area };
    let header = Header { kind: Kind::Diff, flag: 0, secondary, primary, partitions: vec![place] };
    let opened = Opened { header, partitions: vec![Partition { place, descriptor }] };
    let wanted = Wanted { tight: true, all_verified: true, ..Wanted::default() };
    contents::build(&mut Random::new(7), &wanted, opened, area.end() as usize)
}

/// A DIFF with a level 4 of this size and logarithm, and a level 3 with this logarithm.
fn diff_with_data(size: u128, log: u64, level3_log: u64) -> Sample {
    let entries = ENTRY * size.div_ceil(1 << log);
    let blocks = entries.div_ceil(1 << level3_log);
    let hash_levels = [(32, 5), (32 * blocks, 16), (entries, level3_log), (size, log)];
    let total: u128 = hash_levels.iter().map(|(size, _)| size).sum();
    diff_image(&Sizes { hash_levels, level1: 4, level2: (4 * total.div_ceil(32 << 9), 2), level3: (total, 9) })
}

fn number<T>(answer: Result<T, Refusal>) -> u64 {
    answer.map_or_else(Refusal::number, |_| 0)
}

#[test]
fn p6_bits_of_level_2() {
    let sizes = Sizes {
        hash_levels: [(32, 5), (32, 5), (32, 5), (64, 6)],
        level1: 4,
        level2: (0x370, 7),
        level3: (0x1B7F000, 12),
    };
    let Sample { mut image, opened, .. } = diff_image(&sizes);
    assert_eq!(number(open(&image)), 0);

    let table = opened.header.primary;
    let level2_size = (table.offset + 0xBC + 0x28) as usize;
    image[level2_size..level2_size + 8].copy_from_slice(&0x36Cu64.to_le_bytes());
    let digest = sha256(table.of(&image));
    image[HEADER + 0x34..HEADER + 0x54].copy_from_slice(&digest);
    assert_eq!(open(&image), Err(Refusal::DescriptorPlaces));
}

#[test]
fn p7_a_short_last_block() {
    let sample = diff_with_data(0x1001, 12, 5);
    let partition = &sample.opened.partitions[0];
    assert_eq!(partition.descriptor.hash_level(4).blocks(), 2);
    let view = View::committed(&sample.image, &sample.opened, partition);
    let mut second = vec![sample.versions[0].bytes[0x1000]];
    second.resize(0x1000, 0);
    assert_eq!(view.padded_block(4, 1), second);
    assert_eq!(verified(&sample.image, 0, 1), Ok(true));
    assert_eq!(verified(&sample.image, 0, 2), Err(Refusal::PastTheEnd));
}

#[test]
fn p8_to_p10_the_end_of_level_4() {
    let sample = diff_with_data(0x1000, 12, 5);
    let read = |place: u64, length: usize| number(read_committed(&sample.image, 0, place, &mut vec![0; length]));
    assert_eq!(read(0x1000, 0), 0);
    assert_eq!(read(0x1000, 1), 9);
    assert_eq!(read(0x1001, 0), 9);
    assert_eq!(read(u64::MAX, 1), 9);

    let mut image = sample.image.clone();
    let mut session = Session::FRESH;
    begin(&mut image, &mut session).expect("idle");
    let mut written = |place: u64, length: usize| number(write(&mut image, &mut session, 0, place, &vec![1; length]));
    assert_eq!(written(0x1000, 0), 0);
    assert_eq!(written(0x1000, 1), 9);
    assert_eq!(written(0x1001, 0), 9);
    assert_eq!(written(u64::MAX, 1), 9);
}

#[test]
fn p11_the_block_with_an_entry() {
    let sample = diff_with_data(131 * 32, 5, 12);
    let partition = &sample.opened.partitions[0];
    let view = View::committed(&sample.image, &sample.opened, partition);
    let entry = view.level_bytes(3, 0x1040, 0x1060);
    assert_eq!(view.entry(4, 130), entry);
    assert_eq!(entry, sha256(&sample.versions[0].bytes[130 * 32..]));
    assert_eq!(view.holder(3, 130), 1);
}

#[test]
fn p12_the_flag_of_a_diff() {
    let mut image = diff_with_data(40, 5, 5).image;
    assert_eq!(number(open(&image)), 0);
    image[HEADER + 0x30..HEADER + 0x34].copy_from_slice(&[0, 1, 0, 0]);
    assert_eq!(open(&image), Err(Refusal::Selection));
    image[HEADER + 0x30..HEADER + 0x34].copy_from_slice(&[1, 0, 0, 0]);
    // The secondary table is noise so far, and its hash is the one that counts now.
    assert_eq!(open(&image), Err(Refusal::TableHash));
    let table = Extent { offset: TABLE, size: DESCRIPTOR_SIZE };
    image.copy_within(table.end() as usize..(table.end() + table.size) as usize, TABLE as usize);
    let opened = open(&image).expect("the secondary table is a copy of the primary");
    assert_eq!(opened.header.active_table(), table);
}

/// Each of B's four fields alone, where there is no B. 3 comes before 15, 16 and 4.
#[test]
fn leftover_fields_of_b() {
    let wanted = Wanted { kind: Some(Kind::Disa), count: Some(1), ..Wanted::default() };
    let mut image = valid_image(&mut Random::new(1), &wanted).image;
    assert_eq!(number(open(&image)), 0);
    for field in [0x38, 0x40, 0x58, 0x60] {
        for byte in 0..8 {
            image[HEADER + field + byte] = 0x80;
            assert_eq!(number(open(&image)), 3, "byte {byte} of the field at {field:#x}");
            let signer = Signer::Quota { extdata: 1 };
            assert_eq!(number(open_signed(&image, &[1; 16], signer)), 3);
            image[HEADER + field + byte] = 0;
        }
    }
    assert_eq!(number(open(&image)), 0);
}

#[test]
fn lengths() {
    assert_eq!(open(&[0; 0x1FF]), Err(Refusal::Length));
    assert_eq!(open(&[0; 0x200]), Err(Refusal::Kind));
    let mut image = diff_with_data(40, 5, 5).image;
    image.resize(0x4000000, 0x55);
    assert_eq!(number(open(&image)), 0);
    image.push(0);
    assert_eq!(open(&image), Err(Refusal::Length));
}

/// 1 to 64 entries in the master hash, and no part of one.
#[test]
fn sizes_of_the_master_hash() {
    let wanted = Wanted {
        kind: Some(Kind::Diff),
        external: Some(false),
        data: Some((40, 6)),
        master_entries: Some(64),
        table_size: Some(0x1000),
        tight: true,
        ..Wanted::default()
    };
    let Sample { mut image, opened, .. } = valid_image(&mut Random::new(1), &wanted);
    let table = opened.header.active_table();
    let ivfc = opened.partitions[0].descriptor.ivfc;
    let answers = [(0, 6), (0x1F, 6), (0x20, 0), (0x21, 6), (0x40, 0), (0x7E0, 0), (0x800, 0), (0x820, 6)];
    for (size, answer) in answers {
        for place in [table.offset + 0x30, table.offset + ivfc.offset + 8] {
            image[place as usize..place as usize + 8].copy_from_slice(&u64::to_le_bytes(size));
        }
        let digest = sha256(table.of(&image));
        image[HEADER + 0x34..HEADER + 0x54].copy_from_slice(&digest);
        assert_eq!(number(open(&image)), answer, "{size:#x}");
    }
}

#[test]
fn sizes_of_the_table() {
    for (size, answer) in [(0x1000, 0), (0x1001, 0), (0x1FFF, 0), (0x2000, 0), (0x2001, 4)] {
        let wanted = Wanted { table_size: Some(size), tight: true, ..Wanted::default() };
        let image = valid_image(&mut Random::new(size), &wanted).image;
        assert_eq!(number(open(&image)), answer, "{size:#x}");
    }
}

#[test]
fn the_program() {
    let samples = samples();
    let one = &samples.iter().find(|(name, _)| *name == "disa-one.img").expect("the sample is there").1;
    assert_eq!(program_output(one), "DISA\npartitions 1\ntable secondary\nA level4 4096 blocks 1 stands 1\n");
    let mut damaged = one.clone();
    damaged[HEADER + 0x6C] ^= 1;
    assert_eq!(program_output(&damaged), "refused 5\n");
    assert_eq!(program_output(&vec![0; 65_536]), "refused 2\n");
    assert_eq!(program_output(&vec![0; 65_537]), "too long\n");
}

/// The samples in the repository are the ones that the command writes.
#[test]
fn the_samples_are_up_to_date() {
    for (name, image) in samples() {
        let path = format!("{}/../../samples/{name}", env!("CARGO_MANIFEST_DIR"));
        let stored = std::fs::read(&path).unwrap_or_else(|error| panic!("{path}: {error}"));
        assert!(stored == image, "{name} differs: run `outside samples`");
        assert!(image.len() < 65_536);
    }
}

/// One session from begin to commit, said by hand.
#[test]
fn a_session() {
    let Sample { mut image, versions, .. } = diff_with_data(300, 6, 5);
    let old = &versions[0].bytes;
    let mut session = Session::FRESH;
    let mut buffer = [0; 20];
    assert_eq!(abandon(&mut session), Err(Refusal::WrongSession));
    begin(&mut image, &mut session).expect("idle");
    assert_eq!(begin(&mut image, &mut session.clone()), Err(Refusal::WrongSession));
    write(&mut image, &mut session, 0, 60, &[0xAA; 10]).expect("verified");
    write(&mut image, &mut session, 0, 65, &[0xBB; 10]).expect("verified");
    read_staged(&image, &session, 0, 58, &mut buffer).expect("verified");
    let mut expected = old[58..78].to_vec();
    expected[2..7].fill(0xAA);
    expected[7..17].fill(0xBB);
    assert_eq!(buffer[..], expected);
    read_committed(&image, 0, 58, &mut buffer).expect("verified");
    assert_eq!(buffer, old[58..78]);
    let mut stale = session.clone();
    commit(&mut image, &mut session).expect("begun");
    assert!(!session.is_begun());
    read_committed(&image, 0, 58, &mut buffer).expect("verified");
    assert_eq!(buffer[..], expected);
    assert_eq!(write(&mut image, &mut stale, 0, 0, &[]), Err(Refusal::Outdated));
}

/// Level 3 is one block with the entries of eight, and no longer matches its own entry: a write rebuilds it, and the
/// entries that were right stand in for nothing.
#[test]
fn a_first_write() {
    let Sample { mut image, opened, .. } = diff_with_data(8 * 32, 5, 8);
    let partition = &opened.partitions[0];
    let level2 = partition.descriptor.hash_level(2).extent.offset;
    let entry = View::committed(&image, &opened, partition).level3_position(level2);
    image[entry as usize] ^= 1;
    let mut session = Session::FRESH;
    begin(&mut image, &mut session).expect("idle");
    let before = image.clone();
    assert_eq!(write(&mut image, &mut session, 0, 33, &[0xAA; 70]), Err(Refusal::NotVerified(1)));
    assert_eq!(image, before);
    write(&mut image, &mut session, 0, 32, &[0xAA; 64]).expect("two whole blocks");
    let staged = View::staged(&image, &opened, partition);
    assert_eq!(staged.verified_blocks(4), [false, true, true, false, false, false, false, false]);
    for block in [0, 3, 4, 5, 6, 7] {
        assert_eq!(staged.entry(4, block), [0; 32]);
    }
    write(&mut image, &mut session, 0, 60, &[0xBB; 1]).expect("a part of a block that is verified now");
    commit(&mut image, &mut session).expect("begun");
    let mut buffer = [0; 64];
    read_committed(&image, 0, 32, &mut buffer).expect("verified");
    assert_eq!((buffer[27], buffer[28], buffer[29]), (0xAA, 0xBB, 0xAA));
    assert_eq!(read_committed(&image, 0, 32, &mut [0; 65]), Err(Refusal::NotVerified(3)));
}

/// An external level 4 is written in place: the committed view has the new bytes at once, and they are handed out there
/// only if the committed entry is theirs. The staged view has both, and abandoning brings nothing back.
#[test]
fn a_write_in_place() {
    let wanted = Wanted {
        kind: Some(Kind::Diff),
        external: Some(true),
        data: Some((200, 6)),
        all_verified: true,
        ..Wanted::default()
    };
    let Sample { mut image, versions, opened, .. } = valid_image(&mut Random::new(3), &wanted);
    let old = &versions[0].bytes;
    let mut session = Session::FRESH;
    begin(&mut image, &mut session).expect("idle");
    let before = image.clone();
    write(&mut image, &mut session, 0, 60, &[0xAA; 10]).expect("verified");
    let changed: Vec<usize> = (0..image.len()).filter(|place| image[*place] != before[*place]).collect();
    let free = free_bytes(&before, &opened);
    let external =
        (opened.partitions[0].place.area.offset as u64 + opened.partitions[0].descriptor.external.unwrap()) as usize;
    assert!(changed.iter().all(|place| free[*place] || (external + 60..external + 70).contains(place)));
    let mut buffer = [0; 200];
    assert_eq!(read_committed(&image, 0, 0, &mut buffer), Err(Refusal::NotVerified(0)));
    assert_eq!(read_committed(&image, 0, 64, &mut buffer), Err(Refusal::PastTheEnd));
    read_committed(&image, 0, 128, &mut buffer[128..]).expect("not touched");
    read_staged(&image, &session, 0, 0, &mut buffer).expect("verified");
    assert_eq!(buffer[60..70], [0xAA; 10]);

    write(&mut image, &mut session, 0, 60, &old[60..70]).expect("verified in the staged view");
    read_committed(&image, 0, 0, &mut buffer).expect("the bytes are the committed ones again");
    assert_eq!(buffer[..], old[..]);

    write(&mut image, &mut session, 0, 130, &[0xBB; 1]).expect("verified");
    abandon(&mut session).expect("begun");
    assert_eq!(verified(&image, 0, 2), Ok(false));
    begin(&mut image, &mut session).expect("idle");
    assert_eq!(write(&mut image, &mut session, 0, 131, &[0xCC; 1]), Err(Refusal::NotVerified(2)));
    write(&mut image, &mut session, 0, 128, &[0xDD; 64]).expect("a whole block");
    commit(&mut image, &mut session).expect("begun");
    read_committed(&image, 0, 0, &mut buffer).expect("verified");
    assert_eq!((buffer[127], buffer[128]), (old[127], 0xDD));
}

/// Under a hash that gives zeros for every message each write ends in 17, and the session with it.
#[test]
fn a_digest_of_zeros() {
    let Sample { mut image, opened, .. } = diff_with_data(300, 6, 5);
    let mut session = Session::FRESH;
    begin(&mut image, &mut session).expect("idle");
    let before = image.clone();
    with_stand_in(255, || {
        assert_eq!(write(&mut image, &mut session, 0, 0, &[]), Ok(()));
        assert_eq!(write(&mut image, &mut session, 0, 0, &[1; 301]), Err(Refusal::PastTheEnd));
        assert_eq!(write(&mut image, &mut session, 0, 0, &[1; 65]), Err(Refusal::NotVerified(1)));
        assert_eq!(image, before);
        assert_eq!(write(&mut image, &mut session, 0, 0, &[1; 64]), Err(Refusal::ZeroDigest));
    });
    assert_eq!(session, Session::FRESH);
    let free = free_bytes(&before, &opened);
    assert!((0..image.len()).all(|place| free[place] || image[place] == before[place]));
}

/// The order of signed opening's refusals, by damage that is added step by step.
#[test]
fn the_order_of_signed_opening() {
    let mut image = diff_with_data(300, 6, 5).image;
    let key = [7; 16];
    let signer = Signer::Quota { extdata: 5 };
    let sign = |image: &mut [u8]| {
        let signature = signature(image, &key, signer).expect("a DIFF");
        image[..16].copy_from_slice(&signature);
    };
    sign(&mut image);
    assert_eq!(number(open_signed(&image, &key, signer)), 0);
    image[HEADER + 0x34] ^= 1;
    assert_eq!(number(open_signed(&image, &key, signer)), 16);
    sign(&mut image);
    assert_eq!(number(open_signed(&image, &key, signer)), 5);
    image[HEADER + 0x2F] ^= 1;
    assert_eq!(number(open_signed(&image, &key, signer)), 16);
    assert_eq!(number(open_signed(&image, &key, Signer::Gamecard)), 15);
    sign(&mut image);
    assert_eq!(number(open_signed(&image, &key, signer)), 4);
    image[HEADER + 0x30] = 2;
    assert_eq!(number(open_signed(&image, &key, Signer::Gamecard)), 3);
    image[HEADER] = b'd';
    assert_eq!(number(open_signed(&image, &key, Signer::Gamecard)), 2);
    assert_eq!(number(open_signed(&image[..0x1FF], &key, Signer::Gamecard)), 1);
}

/// One step back, and no further; a begin bars the way, whoever made it.
#[test]
fn a_step_back() {
    let Sample { mut image, .. } = diff_with_data(300, 6, 5);
    let mut session = Session::FRESH;
    assert_eq!(revert(&mut image, &mut session), Err(Refusal::NoWayBack));
    begin(&mut image, &mut session).expect("idle");
    assert_eq!(revert(&mut image, &mut session), Err(Refusal::WrongSession));
    write(&mut image, &mut session, 0, 0, &[0xAA; 300]).expect("verified");
    let before = image.clone();
    commit(&mut image, &mut session).expect("begun");
    let remembered = session.clone();
    revert(&mut image, &mut session).expect("the last commit");
    assert_eq!(image, before);
    assert_eq!(session, Session::FRESH);
    assert_eq!(revert(&mut image, &mut session), Err(Refusal::NoWayBack));
    assert_eq!(revert(&mut image, &mut remembered.clone()), Err(Refusal::NoWayBack));

    // The staged view is still there, and a session that remembers this header may commit it again.
    let mut again = Session::begun(&image);
    commit(&mut image, &mut again).expect("as it was left");
    assert_eq!(again, remembered);
    let committed = image.clone();
    begin(&mut image, &mut Session::FRESH.clone()).expect("idle");
    assert_eq!(revert(&mut image, &mut again), Err(Refusal::NoWayBack));
    image.copy_from_slice(&committed);
    begin(&mut image, &mut again).expect("idle");
    abandon(&mut again).expect("begun");
    assert_eq!(revert(&mut image, &mut again), Err(Refusal::NoWayBack));

    image.copy_from_slice(&committed);
    let mut other = remembered.clone();
    let key = [3; 16];
    assert_eq!(revert_signed(&mut image, &mut other, &key, Signer::Gamecard), Err(Refusal::WrongSigner));
    assert_eq!((&image, &other), (&committed, &remembered));
    let signer = Signer::Quota { extdata: 9 };
    revert_signed(&mut image, &mut other, &key, signer).expect("the last commit");
    assert_eq!(image[16..], before[16..]);
    assert_eq!(number(open_signed(&image, &key, signer)), 0);
}

/// A session value that no commit left remembers a header of the other kind with the same tables. The signer must fit the
/// header that comes back, and the image is one of that kind then.
#[test]
fn a_step_back_to_the_other_kind() {
    let Sample { mut image, versions, .. } = diff_with_data(300, 6, 5);
    let diff = header_bytes(&image);
    let disa = as_disa(&diff);
    let (key, of_disa, of_diff) = ([3; 16], Signer::Gamecard, Signer::Quota { extdata: 9 });
    for (former, latter, fits, fits_not) in [(disa, diff, of_disa, of_diff), (diff, disa, of_diff, of_disa)] {
        let remembered = Session::Idle { former, latter };
        let before = image.clone();
        let mut session = remembered.clone();
        assert_eq!(revert_signed(&mut image, &mut session, &key, fits_not), Err(Refusal::WrongSigner));
        assert_eq!((&image, &session), (&before, &remembered));
        revert_signed(&mut image, &mut session, &key, fits).expect("it opens under either header");
        assert_eq!((header_bytes(&image), session), (former, Session::FRESH));
        assert_eq!(number(open_signed(&image, &key, fits)), 0);
        assert_eq!(number(open_signed(&image, &key, fits_not)), 15);
        let mut buffer = [0; 300];
        read_committed(&image, 0, 0, &mut buffer).expect("verified");
        assert_eq!(buffer[..], versions[0].bytes);
    }
}

/// A DISA's header for what a DIFF's says, field by field from the paper's table.
fn as_disa(diff: &HeaderBytes) -> HeaderBytes {
    let mut disa = [0; 0x100];
    disa[..8].copy_from_slice(b"DISA\x00\x00\x04\x00");
    disa[0x08] = 1;
    disa[0x10..0x28].copy_from_slice(&diff[0x08..0x20]);
    // A's descriptor is the whole table.
    disa[0x30..0x38].copy_from_slice(&diff[0x18..0x20]);
    disa[0x48..0x58].copy_from_slice(&diff[0x20..0x30]);
    disa[0x68] = diff[0x30];
    disa[0x6C..0x8C].copy_from_slice(&diff[0x34..0x54]);
    disa
}

/// The signature lands with the header, in one unit: with only one of the two the image is no longer signed.
#[test]
fn a_signed_session() {
    let Sample { mut image, versions, .. } = diff_with_data(300, 6, 5);
    let key = [0xA5; 16];
    let signer = Signer::Database { database: 3 };
    let mut session = Session::FRESH;
    assert_eq!(commit_signed(&mut image, &mut session, &key, Signer::Gamecard), Err(Refusal::WrongSession));
    begin(&mut image, &mut session).expect("idle");
    write(&mut image, &mut session, 0, 0, &[0xAA; 10]).expect("verified");
    let before = image.clone();
    assert_eq!(commit_signed(&mut image, &mut session, &key, Signer::Gamecard), Err(Refusal::WrongSigner));
    assert_eq!(image, before);
    commit_signed(&mut image, &mut session, &key, signer).expect("begun");
    assert!(!session.is_begun());
    assert_eq!(number(open_signed(&image, &key, signer)), 0);
    assert_eq!(image[0x10..0x100], before[0x10..0x100]);
    assert_eq!(image[0x200..], before[0x200..]);
    let mut buffer = [0; 20];
    read_committed(&image, 0, 0, &mut buffer).expect("verified");
    assert_eq!(buffer[..10], [0xAA; 10]);
    assert_eq!(buffer[10..], versions[0].bytes[10..20]);

    let with_parts = |signature: &[u8], header: &[u8]| [&signature[..0x100], &header[0x100..]].concat();
    for torn in [with_parts(&image, &before), with_parts(&before, &image)] {
        assert_eq!(number(open(&torn)), 0);
        assert_eq!(open_signed(&torn, &key, signer), Err(Refusal::WrongSignature));
    }
}
