//! `new`, `write` and `revert`.

use std::fs;
use std::process::Stdio;

use crate::json::Json;
use crate::scene::Scene;
use crate::support::{sample, Random};

const SESSION_SIZE: usize = 513;

/// An idle session that remembers some commit.
fn old_memory() -> Vec<u8> {
    let mut memory = vec![7; SESSION_SIZE];
    memory[0] = 0;
    memory
}

fn read_all(scene: &Scene, image: &str) -> Vec<u8> {
    scene.done(&["read", image])
}

#[test]
fn new_is_the_blank_sample() {
    let scene = Scene::new();
    let out = scene.done(&["new", "x.img", "--kind", "disa", "--blocks", "2"]);
    assert_eq!(out, b"x.img: a blank DISA of 2 blocks, 32768 bytes\n");
    assert_eq!(scene.bytes("x.img"), sample("blank.img"));
    assert_eq!(scene.files(), ["x.img"]);
    let object = scene.json(0, &["new", "y.img", "--kind", "DIFF", "--blocks", "0x1"]);
    assert_eq!((object.get("kind").text(), object.get("blocks").number()), ("DIFF", 1));
    assert_eq!(object.get("length").number(), scene.bytes("y.img").len() as u64);
    scene.done(&["verify", "y.img"]);
    assert_eq!(read_all(&scene, "y.img"), [0; 4096]);
}

#[test]
fn new_replaces_a_file_only_if_told() {
    let scene = Scene::new();
    scene.put("x.img", "mine");
    let line = scene.fails(4, &["new", "x.img", "--kind", "disa", "--blocks", "2"]);
    assert_eq!(line, "x.img is there already: --force replaces it");
    assert_eq!(scene.bytes("x.img"), b"mine");
    scene.put("x.img.session", old_memory());
    scene.done(&["new", "x.img", "--kind", "disa", "--blocks", "2", "--force"]);
    assert_eq!(scene.bytes("x.img"), sample("blank.img"));
    scene.done(&["new", "y.img", "--kind", "disa", "--blocks", "2", "--force"]);
    assert_eq!(scene.files(), ["x.img", "y.img"]);
    let line = scene.fails(4, &["new", ".", "--kind", "disa", "--blocks", "2", "--force"]);
    assert_eq!(line, "cannot open .: it is no regular file");
}

/// A link that leads nowhere is a name that is taken.
#[test]
fn new_does_not_follow_a_link() {
    let scene = Scene::new();
    std::os::unix::fs::symlink("elsewhere", scene.path("x.img")).expect("a link");
    scene.fails(4, &["new", "x.img", "--kind", "disa", "--blocks", "1"]);
    assert_eq!(scene.files(), ["x.img"]);
}

#[test]
fn new_of_a_wrong_size_or_place() {
    let scene = Scene::new();
    scene.refused(20, &["new", "x.img", "--kind", "disa", "--blocks", "0"]);
    scene.refused(20, &["new", "x.img", "--kind", "diff", "--blocks", "4097"]);
    scene.fails(4, &["new", "nowhere/x.img", "--kind", "disa", "--blocks", "1"]);
    assert_eq!(scene.files(), [""; 0]);
}

#[test]
fn write_read_and_revert() {
    let scene = Scene::new();
    scene.sample("disa-one.img");
    let before = read_all(&scene, "disa-one.img");
    scene.put("data", "hello, save");
    let out = scene.done(&["write", "disa-one.img", "--at", "0x10", "data"]);
    assert_eq!(out, b"11 bytes written at 0x10 of A; committed; the primary table is active\n");
    let mut after = before.clone();
    after[16..27].copy_from_slice(b"hello, save");
    assert_eq!(read_all(&scene, "disa-one.img"), after);
    scene.done(&["verify", "disa-one.img"]);
    assert_eq!(scene.bytes("disa-one.img.session").len(), SESSION_SIZE);

    assert_eq!(scene.done(&["revert", "disa-one.img"]), b"reverted; the secondary table is active\n");
    assert_eq!(read_all(&scene, "disa-one.img"), before);
    assert_eq!(scene.files(), ["data", "disa-one.img"]);
    scene.refused(21, &["revert", "disa-one.img"]);
}

#[test]
fn write_and_revert_for_programs() {
    let scene = Scene::new();
    scene.sample("disa-two.img");
    scene.put("data", [7; 5000]);
    let object = scene.json(0, &["write", "disa-two.img", "--partition", "A", "--at", "0", "data"]);
    assert_eq!((object.get("partition").text(), object.get("length").number()), ("A", 5000));
    assert_eq!((object.get("table").text(), object.get("signed")), ("primary", &Json::Truth(false)));
    assert_eq!((object.get("can_revert"), object.get("external")), (&Json::Truth(true), &Json::Truth(false)));
    // Every block was covered in full, also those that were not verified.
    assert_eq!(scene.json(0, &["verify", "disa-two.img"]).get("faults").list(), []);
    let object = scene.json(0, &["revert", "disa-two.img"]);
    assert_eq!((object.get("table").text(), object.get("can_revert")), ("secondary", &Json::Truth(false)));
    assert_eq!(scene.json(1, &["verify", "disa-two.img"]).get("faults").list().len(), 5);
}

#[test]
fn write_from_standard_input() {
    let scene = Scene::new();
    scene.sample("blank.img");
    scene.done_with_input(&["write", "blank.img", "--at", "4090"], b"across blocks");
    assert_eq!(scene.done(&["read", "blank.img", "--at", "4090", "--length", "13"]), b"across blocks");
    scene.done_with_input(&["write", "blank.img", "--at", "0", "-"], b"dash");
    assert_eq!(scene.done(&["read", "blank.img", "--length", "4"]), b"dash");
    // Nothing to write is a session too.
    assert_eq!(
        scene.done(&["write", "blank.img", "--at", "0"]),
        b"0 bytes written at 0x0 of A; committed; the secondary table is active\n"
    );
    let all = scene.done(&["read", "blank.img"]);
    scene.done_with_input(&["write", "blank.img", "--at", "0"], &all.iter().map(|byte| !byte).collect::<Vec<_>>());
    assert_eq!(scene.done(&["read", "blank.img", "--at", "8191"]), [0xFF]);
}

#[test]
fn only_the_last_commit_is_taken_back() {
    let scene = Scene::new();
    scene.sample("blank.img");
    for text in ["one", "two"] {
        scene.done_with_input(&["write", "blank.img", "--at", "0"], text.as_bytes());
    }
    scene.done(&["revert", "blank.img"]);
    assert_eq!(scene.done(&["read", "blank.img", "--length", "3"]), b"one");
    scene.refused(21, &["revert", "blank.img"]);
}

/// A refused write leaves the image and what revert remembers.
#[test]
fn a_refused_write_changes_nothing() {
    let scene = Scene::new();
    scene.sample("disa-one.img");
    scene.done_with_input(&["write", "disa-one.img", "--at", "0"], b"kept");
    let image = scene.bytes("disa-one.img");
    scene.put("data", [1; 2]);
    scene.refused(9, &["write", "disa-one.img", "--at", "4095", "data"]);
    scene.refused(8, &["write", "disa-one.img", "--partition", "B", "--at", "0", "data"]);
    assert_eq!(scene.bytes("disa-one.img"), image);
    scene.done(&["revert", "disa-one.img"]);
}

#[test]
fn a_memory_that_does_not_fit_is_refused() {
    let scene = Scene::new();
    scene.sample("blank.img");
    scene.done_with_input(&["write", "blank.img", "--at", "0"], b"data");
    let (image, memory) = (scene.bytes("blank.img"), scene.bytes("blank.img.session"));
    let forged = |change: &dyn Fn(&mut Vec<u8>)| {
        let mut memory = memory.clone();
        change(&mut memory);
        memory
    };
    for wrong in [
        vec![],
        memory[1..].to_vec(),
        forged(&|memory| memory.push(0)),
        forged(&|memory| memory[20] ^= 1),
        forged(&|memory| memory[512] ^= 1),
        forged(&|memory| memory[0] = 1),
        vec![0; SESSION_SIZE],
    ] {
        scene.put("blank.img.session", wrong);
        scene.refused(21, &["revert", "blank.img"]);
        assert_eq!(scene.bytes("blank.img"), image);
    }
    scene.put("blank.img.session", memory);
    scene.done(&["revert", "blank.img"]);
}

/// A folder has the memory's name: no file can take its place.
#[test]
fn a_commit_whose_memory_cannot_be_kept_has_landed() {
    let scene = Scene::new();
    scene.sample("blank.img");
    fs::create_dir(scene.path("blank.img.session")).expect("a folder");
    let ran = scene.run_with_input(&["write", "blank.img", "--at", "0", "--json"], b"data");
    assert_eq!(ran.status, 0, "{}", ran.errors);
    assert!(ran.errors.contains("the commit has landed, but revert cannot take it back: "), "{}", ran.errors);
    let object = Json::parse(&ran.text()).expect("JSON");
    assert_eq!((object.get("ok"), object.get("can_revert")), (&Json::Truth(true), &Json::Truth(false)));
    assert_eq!(scene.done(&["read", "blank.img", "--length", "4"]), b"data");
    assert_eq!(scene.files(), ["blank.img", "blank.img.session"]);
    scene.refused(21, &["revert", "blank.img"]);
}

/// Nobody can tell whether there is a memory behind a link that leads to itself, so nothing is stored.
#[test]
fn a_memory_that_cannot_be_looked_for() {
    let scene = Scene::new();
    scene.sample("blank.img");
    scene.put("data", "data");
    std::os::unix::fs::symlink("blank.img.session", scene.path("blank.img.session")).expect("a link");
    let line = scene.fails(4, &["write", "blank.img", "--at", "0", "data"]);
    assert!(line.starts_with("cannot remove what revert remembers of blank.img: "), "{line}");
    assert_eq!(scene.bytes("blank.img"), sample("blank.img"));
    scene.refused(21, &["revert", "blank.img"]);
}

/// With `.session` behind it the name is longer than a name may be, so there is no memory and never was one.
#[test]
fn an_image_whose_name_leaves_no_room_for_a_memory() {
    let scene = Scene::new();
    let image = "x".repeat(250);
    scene.put(&image, sample("blank.img"));
    let ran = scene.run_with_input(&["write", &image, "--at", "0"], b"data");
    assert_eq!(ran.status, 0, "{}", ran.errors);
    assert!(ran.errors.contains("the commit has landed, but revert cannot take it back: "), "{}", ran.errors);
    assert_eq!(scene.done(&["read", &image, "--length", "4"]), b"data");
    assert_eq!(scene.files(), [image]);
}

#[test]
fn an_external_level_4_is_written_in_place() {
    let scene = Scene::new();
    scene.sample("external.img");
    let out =
        String::from_utf8(scene.done_with_input(&["write", "external.img", "--at", "1"], b"in place")).expect("text");
    assert!(out.contains("a revert does not bring its old bytes back"), "{out}");
    assert_eq!(scene.done(&["read", "external.img", "--at", "1", "--length", "8"]), b"in place");
    scene.done(&["revert", "external.img"]);
    scene.refused(10, &["read", "external.img", "--at", "1", "--length", "8"]);
    scene.put("data", [5; 3000]);
    assert_eq!(scene.json(0, &["write", "external.img", "--at", "0", "data"]).get("external"), &Json::Truth(true));
    scene.done(&["verify", "external.img"]);
}

/// Starts a run for each of some lists of arguments, all at once, and gives their exit statuses.
fn statuses_of_runs_at_once(scene: &Scene, runs: &[Vec<String>]) -> Vec<Option<i32>> {
    let started: Vec<_> = runs
        .iter()
        .map(|arguments| {
            let mut command = scene.command(arguments);
            command
                .stdin(Stdio::null())
                .stdout(Stdio::null())
                .stderr(Stdio::null())
                .spawn()
                .expect("the program starts")
        })
        .collect();
    started.into_iter().map(|mut child| child.wait().expect("the program ends").code()).collect()
}

/// Of many at once one makes the file, and the others find it there.
#[test]
fn new_by_many_at_once() {
    let scene = Scene::new();
    let runs: Vec<Vec<String>> = (1..=12)
        .map(|blocks| ["new", "x.img", "--kind", "disa", "--blocks", &blocks.to_string()].map(String::from).to_vec())
        .collect();
    let statuses = statuses_of_runs_at_once(&scene, &runs);
    let made: Vec<usize> = (0..runs.len()).filter(|index| statuses[*index] == Some(0)).collect();
    assert!(made.len() == 1 && statuses.iter().filter(|status| **status == Some(4)).count() == 11, "{statuses:?}");
    assert_eq!(scene.done(&["read", "x.img"]).len(), (made[0] + 1) * 4096);
    assert_eq!(scene.files(), ["x.img"]);
}

/// Each is done whole, or finds the lock held. The last one that was done can be taken back.
#[test]
fn write_by_many_at_once() {
    let scene = Scene::new();
    scene.sample("blank.img");
    let runs: Vec<Vec<String>> = (1..=8u8)
        .map(|number| {
            let name = format!("data{number}");
            scene.put(&name, [number; 8192]);
            ["write", "blank.img", "--at", "0", &name].map(String::from).to_vec()
        })
        .collect();
    for _ in 0..5 {
        let statuses = statuses_of_runs_at_once(&scene, &runs);
        assert!(statuses.iter().all(|status| matches!(status, Some(0 | 4))), "{statuses:?}");
        let bytes = scene.done(&["read", "blank.img"]);
        assert_eq!(statuses[usize::from(bytes[0]) - 1], Some(0), "{statuses:?}");
        assert!(bytes.iter().all(|byte| *byte == bytes[0]));
    }
    scene.done(&["revert", "blank.img"]);
    scene.done(&["verify", "blank.img"]);
}

/// What an image should hold: the bytes of a partition's level 4, and those before the last commit.
struct Model {
    now: Vec<u8>,
    before: Option<Vec<u8>>,
}

/// Writes, signatures and steps back in any order, each by a run of the program, compared with plain bytes after each.
#[test]
fn many_runs_follow_a_model() {
    let scene = Scene::new();
    scene.put("my.key", [5; 16]);
    ["disa-one.img", "diff.img", "disa-two.img", "blank.img"].iter().for_each(|name| scene.sample(name));
    scene.done(&["new", "new.img", "--kind", "diff", "--blocks", "9"]);
    for (seed, (image, partition, signer)) in [
        ("disa-one.img", "A", "card"),
        ("diff.img", "A", "quota:7"),
        ("disa-two.img", "B", "title:7"),
        ("blank.img", "A", "system:7"),
        ("new.img", "A", "device:7:8:9"),
    ]
    .into_iter()
    .enumerate()
    {
        let random = &mut Random::new(seed as u64 + 1);
        let now = scene.done(&["read", image, "--partition", partition]);
        let mut model = Model { now, before: None };
        for _ in 0..40 {
            take_a_step(&scene, random, &mut model, [image, partition, signer]);
            assert_eq!(scene.done(&["read", image, "--partition", partition]), model.now, "{image}");
        }
    }
}

fn take_a_step(scene: &Scene, random: &mut Random, model: &mut Model, [image, partition, signer]: [&str; 3]) {
    let signed = ["--key-file", "my.key", "--signer", signer];
    let signed = if random.below(2) == 0 { &signed[..] } else { &[] };
    match random.below(10) {
        0 => {
            scene.done(&["sign", image, "--key-file", "my.key", "--signer", signer]);
            model.before = Some(model.now.clone());
        }
        1..=3 => {
            let arguments = [&["revert", image][..], signed].concat();
            match model.before.take() {
                Some(before) => {
                    scene.done(&arguments);
                    model.now = before;
                }
                None => drop(scene.refused(21, &arguments)),
            }
        }
        _ => {
            let place = random.below(model.now.len() as u64) as usize;
            let length = random.below((model.now.len() - place) as u64 + 1).min(random.below(5000)) as usize;
            let data = random.bytes(length);
            let at = place.to_string();
            let arguments = [&["write", image, "--partition", partition, "--at", &at][..], signed].concat();
            scene.done_with_input(&arguments, &data);
            model.before = Some(model.now.clone());
            model.now[place..place + length].copy_from_slice(&data);
        }
    }
}
