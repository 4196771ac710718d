//! Copies of a sample with one rule broken, and the refusal of each.

use teplovist::Digest;

use crate::scene::Scene;
use crate::support::sample;

/// Places in samples/disa-one.img: of the header, and of its active table, which begins with the one descriptor.
const COUNT: usize = 0x108;
const PRIMARY_TABLE: usize = 0x118;
const TABLE_HASH: usize = 0x16C;
const ACTIVE_TABLE: usize = 0x200;
const TABLE_SIZE: usize = 300;
const IVFC_OFFSET: usize = ACTIVE_TABLE + 8;

fn sha256(bytes: &[u8]) -> [u8; 32] {
    let mut digest = Digest::new();
    digest.feed(bytes).expect("a short message");
    digest.finish().expect("a short message")
}

/// Changes a byte of the active table and names the new hash in the header, so that what the byte says is judged.
fn with_table_byte(place: usize, value: u8) -> Vec<u8> {
    let mut image = sample("disa-one.img");
    image[place] = value;
    let hash = sha256(&image[ACTIVE_TABLE..ACTIVE_TABLE + TABLE_SIZE]);
    image[TABLE_HASH..TABLE_HASH + hash.len()].copy_from_slice(&hash);
    image
}

fn with_byte(place: usize, value: u8) -> Vec<u8> {
    let mut image = sample("disa-one.img");
    image[place] = value;
    image
}

fn broken_images() -> Vec<(u64, Vec<u8>)> {
    let whole = sample("disa-one.img");
    vec![
        (1, vec![]),
        (1, whole[..0x1FF].to_vec()),
        (2, vec![0; 0x200]),
        (3, with_byte(COUNT, 3)),
        (4, with_byte(PRIMARY_TABLE + 7, 0x80)),
        (5, with_byte(TABLE_HASH, whole[TABLE_HASH] ^ 1)),
        (6, with_table_byte(ACTIVE_TABLE, b'X')),
        (7, with_table_byte(IVFC_OFFSET + 7, 0x80)),
    ]
}

/// The sample itself opens, also with its table hashed again: each of the images below differs from it in what it says
/// alone.
#[test]
fn the_sample_is_whole() {
    let scene = Scene::new();
    scene.put("x.img", with_table_byte(ACTIVE_TABLE, sample("disa-one.img")[ACTIVE_TABLE]));
    scene.done(&["verify", "x.img"]);
}

#[test]
fn images_that_do_not_open_are_refused_by_every_command() {
    for (number, image) in broken_images() {
        let scene = Scene::new();
        scene.put("x.img", &image);
        let words = scene.refused(number, &["describe", "x.img"]);
        for arguments in [
            &["verify", "x.img"][..],
            &["read", "x.img", "--at", "0", "--length", "1"],
            &["write", "x.img", "--at", "0"],
            &["revert", "x.img"],
            &["ls", "x.img"],
            &["find", "x.img", "1", "name"],
            &["map", "x.img"],
        ] {
            assert_eq!(scene.refused(number, arguments), words, "{arguments:?}");
        }
        assert_eq!(scene.bytes("x.img"), image, "refusal {number}");
        assert_eq!(scene.files(), ["x.img"], "refusal {number}");
    }
}

#[test]
fn too_long_a_file_is_refused() {
    let scene = Scene::new();
    let file = std::fs::File::create(scene.path("long.img")).expect("a file");
    file.set_len(0x400_0001).expect("a long file");
    scene.refused(1, &["describe", "long.img"]);
}
