//! `ls` and `find`, on a save that is put together here from document 004.

use crate::json::Json;
use crate::scene::Scene;

const LEVEL4_SIZE: usize = 0x1000;
/// Where things lie in the save: one bucket of files, and the two tables in a data region of blocks of 0x100 bytes.
const FOLDER_BUCKETS: usize = 0x88;
const FILE_BUCKETS: usize = 0xA0;
const REGION: usize = 0x100;
const REGION_BLOCK: usize = 0x100;
const FILES_BLOCK: usize = 4;
const FOLDER_TABLE: usize = REGION;
const FILE_TABLE: usize = REGION + FILES_BLOCK * REGION_BLOCK;
const FOLDER_SIZE: usize = 0x28;
const FILE_SIZE: usize = 0x30;

/// Parent, name, next sibling, first subfolder and first file of the folders from number 1 on.
const FOLDERS: [(u32, &[u8], u32, u32, u32); 6] = [
    (0, b"", 0, 2, 1),
    (1, b"saves", 4, 3, 2),
    (2, b"old", 0, 0, 3),
    (1, b"old", 0, 5, 4),
    (4, b"\xff\"\\", 6, 0, 0),
    (4, b"last", 0, 0, 0),
];
/// Folder, name and next sibling of the files from number 1 on.
const FILES: [(u32, &[u8], u32); 5] =
    [(1, b"readme", 5), (2, b"slot1", 0), (3, b"slot1", 0), (4, b"a/b", 0), (1, b"0123456789abcdef", 0)];

const LISTING: &str = r#"folder      1  /
file        1  /readme
file        5  /0123456789abcdef
folder      2  /saves
file        2  /saves/slot1
folder      3  /saves/old
file        3  /saves/old/slot1
folder      4  /old
file        4  /old/a\x2fb
folder      5  /old/\xff"\\
folder      6  /old/last
"#;

fn put_word(bytes: &mut [u8], place: usize, number: u32) {
    bytes[place..place + 4].copy_from_slice(&number.to_le_bytes());
}

fn put_name(bytes: &mut [u8], entry: usize, name: &[u8]) {
    bytes[entry + 4..entry + 4 + name.len()].copy_from_slice(name);
}

pub fn save() -> Vec<u8> {
    let mut bytes = vec![0; LEVEL4_SIZE];
    bytes[..8].copy_from_slice(b"SAVE\0\0\x04\0");
    let (folders, files) = (FOLDERS.len() as u32, FILES.len() as u32);
    for (place, number) in [
        (0x24, REGION_BLOCK as u32),
        (0x28, FOLDER_BUCKETS as u32),
        (0x30, 3),
        (0x38, FILE_BUCKETS as u32),
        (0x40, 1),
        (0x58, REGION as u32),
        (0x68, 0),
        (0x70, folders - 1),
        (0x78, FILES_BLOCK as u32),
        (0x80, files),
        (FILE_BUCKETS, 1),
        (FOLDER_TABLE, folders + 1),
        (FILE_TABLE, files + 1),
    ] {
        put_word(&mut bytes, place, number);
    }
    for (index, (parent, name, sibling, subfolder, file)) in FOLDERS.into_iter().enumerate() {
        let entry = FOLDER_TABLE + (index + 1) * FOLDER_SIZE;
        put_name(&mut bytes, entry, name);
        for (field, number) in [(0, parent), (0x14, sibling), (0x18, subfolder), (0x1C, file)] {
            put_word(&mut bytes, entry + field, number);
        }
    }
    for (index, (folder, name, sibling)) in FILES.into_iter().enumerate() {
        let entry = FILE_TABLE + (index + 1) * FILE_SIZE;
        put_name(&mut bytes, entry, name);
        // All files are in one bucket's chain, in the order of their numbers.
        let next = if index + 1 < FILES.len() { index as u32 + 2 } else { 0 };
        for (field, number) in [(0, folder), (0x14, sibling), (0x2C, next)] {
            put_word(&mut bytes, entry + field, number);
        }
    }
    bytes
}

/// The same with the data region at another place, in two blocks of level 4.
fn save_with_region_at(region: usize) -> Vec<u8> {
    let mut bytes = save();
    let moved = bytes.split_off(REGION);
    bytes.resize(region, 0);
    bytes.extend(moved);
    bytes.resize(2 * LEVEL4_SIZE, 0);
    put_word(&mut bytes, 0x58, region as u32);
    bytes
}

fn with_save() -> Scene {
    let scene = Scene::new();
    scene.done(&["new", "x.img", "--kind", "disa", "--blocks", "1"]);
    scene.done_with_input(&["write", "x.img", "--at", "0"], &save());
    scene
}

#[test]
fn names_and_where_they_are() {
    let scene = with_save();
    assert_eq!(String::from_utf8(scene.done(&["ls", "x.img"])).expect("text"), LISTING);
}

/// Next sibling and first subfolder of the folder with number 3 lie on both sides of the border of two blocks, as many
/// of their eight bytes before it as can be.
#[test]
fn an_entry_across_two_blocks() {
    let scene = Scene::new();
    scene.done(&["new", "x.img", "--kind", "disa", "--blocks", "2"]);
    for before_the_border in 0..=8 {
        let region = LEVEL4_SIZE - before_the_border - (3 * FOLDER_SIZE + 0x14);
        scene.done_with_input(&["write", "x.img", "--at", "0"], &save_with_region_at(region));
        assert_eq!(String::from_utf8(scene.done(&["ls", "x.img"])).expect("text"), LISTING, "{region:#x}");
    }
}

#[test]
fn names_for_programs() {
    let scene = with_save();
    let object = scene.json(0, &["ls", "x.img"]);
    let names = object.get("names").list();
    let paths: Vec<&str> = names.iter().map(|name| name.get("path").text()).collect();
    let listed: Vec<&str> = LISTING.lines().map(|line| &line[line.find('/').expect("a path")..]).collect();
    assert_eq!(paths, listed);
    assert_eq!(names[0].get("folder"), &Json::Null);
    let odd = &names[9];
    assert_eq!((odd.get("kind").text(), odd.get("number").number()), ("folder", 5));
    assert_eq!((odd.get("folder").number(), odd.get("bytes").text()), (4, "ff225c00000000000000000000000000"));
}

#[test]
fn find_by_path_and_by_folder() {
    let scene = with_save();
    for (path, answer) in [
        ("/readme", "file 1\n"),
        ("/saves/slot1", "file 2\n"),
        ("/saves/old/slot1", "file 3\n"),
        (r"/old/a\x2fb", "file 4\n"),
        ("//saves//old", "folder 3\n"),
        ("/old", "folder 4\n"),
        (r#"/old/\xff"\\"#, "folder 5\n"),
        ("/0123456789abcdef", "file 5\n"),
        ("/", "folder 1\n"),
    ] {
        assert_eq!(scene.done(&["find", "x.img", path]), answer.as_bytes(), "{path}");
    }
    assert_eq!(scene.done(&["find", "x.img", "3", "slot1"]), b"file 3\n");
    assert_eq!(scene.done(&["find", "x.img", "0x4", "a/b"]), b"file 4\n");
    let object = scene.json(0, &["find", "x.img", "/saves/slot1"]);
    assert_eq!((object.get("kind").text(), object.get("number").number()), ("file", 2));
}

#[test]
fn find_what_is_not_there() {
    let scene = with_save();
    for wanted in
        [&["/slot1"][..], &["/saves/old/slot1/x"], &["/nowhere/slot1"], &["1", "slot1"], &["0xFFFFFFFFFF", "slot1"]]
    {
        let ran = scene.run(&[&["find", "x.img"], wanted].concat());
        assert_eq!(
            (ran.status, ran.text().as_str(), ran.errors.as_str()),
            (1, "there is no such name\n", ""),
            "{wanted:?}"
        );
    }
    let object = scene.json(1, &["find", "x.img", "/slot1"]);
    assert_eq!((object.get("kind"), object.get("number")), (&Json::Null, &Json::Null));
}

#[test]
fn names_that_cannot_be() {
    let scene = with_save();
    for wanted in [&["slot1"][..], &["x", "slot1"], &["1", "0123456789abcdefg"], &["1", r"\q"], &["/a", "b"], &[]] {
        scene.fails(2, &[&["find", "x.img"], wanted].concat());
    }
}

#[test]
fn a_save_whose_tables_are_wrong() {
    let scene = with_save();
    // The folder in /saves is /saves itself.
    let subfolder = FOLDER_TABLE + 3 * FOLDER_SIZE + 0x18;
    scene.done_with_input(&["write", "x.img", "--at", &subfolder.to_string()], &2u32.to_le_bytes());
    scene.refused(18, &["ls", "x.img"]);
    scene.refused(18, &["find", "x.img", "/saves"]);
    // The bucket's chain is still right, and the tree is not walked.
    scene.done(&["find", "x.img", "1", "readme"]);
    scene.done_with_input(&["write", "x.img", "--at", "0"], b"none");
    scene.refused(19, &["ls", "x.img"]);
    for image in ["diff.img", "disa-two.img", "blank.img"] {
        scene.sample(image);
    }
    scene.refused(19, &["ls", "diff.img"]);
    scene.refused(19, &["find", "disa-two.img", "1", "x"]);
    scene.refused(19, &["ls", "blank.img"]);
}
