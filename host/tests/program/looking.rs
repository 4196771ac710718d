//! `describe`, `verify`, `read` and `map`.

use crate::json::Json;
use crate::scene::Scene;

/// The library's own program prints these lines (tests/describe.sh); people may look for them here too.
const FIRST_LINES: [(&str, &str); 5] = [
    ("disa-one.img", "DISA\npartitions 1\ntable secondary\nA level4 4096 blocks 1 stands 1\n"),
    ("diff.img", "DIFF\npartitions 1\ntable primary\nA level4 2500 blocks 5 stands 5\n"),
    (
        "disa-two.img",
        "DISA\npartitions 2\ntable secondary\nA level4 5000 blocks 20 stands 15\nB level4 5000 blocks 20 stands 20\n",
    ),
    ("blank.img", "DISA\npartitions 1\ntable primary\nA level4 8192 blocks 2 stands 2\n"),
    ("external.img", "DIFF\npartitions 1\ntable secondary\nA level4 3000 blocks 3 stands 3\n"),
];

#[test]
fn describe_begins_as_the_papers_program_does() {
    let scene = Scene::new();
    for (name, lines) in FIRST_LINES {
        scene.sample(name);
        let text = scene.run(&["describe", name]).text();
        let rest = text.strip_prefix(lines).unwrap_or_else(|| panic!("{name}: {text}"));
        assert!(rest.starts_with("\nimage "), "{name}: {rest}");
        assert_eq!(text.contains("written in place"), name == "external.img", "{name}");
    }
}

#[test]
fn describe_for_programs() {
    let scene = Scene::new();
    scene.sample("disa-two.img");
    let object = scene.json(0, &["describe", "disa-two.img"]);
    assert_eq!(object.get("kind").text(), "DISA");
    assert_eq!(object.get("length").number(), 25441);
    assert_eq!(object.get("signature_checked"), &Json::Truth(false));
    assert_eq!(object.get("table").text(), "secondary");
    assert_eq!(object.get("secondary").get("offset").number(), 0x6107);
    let partitions = object.get("partitions").list();
    assert_eq!(partitions.iter().map(|one| one.get("name").text()).collect::<Vec<_>>(), ["A", "B"]);
    assert_eq!(partitions.iter().map(|one| one.get("verified").number()).collect::<Vec<_>>(), [15, 20]);
    let level4 = &partitions[0].get("ivfc_levels").list()[3];
    assert_eq!((level4.get("size").number(), level4.get("block_size").number()), (5000, 256));
    assert_eq!(level4.get("blocks"), partitions[0].get("blocks"));
    assert_eq!(partitions[0].get("external"), &Json::Null);
}

#[test]
fn verify_lists_the_faults() {
    let scene = Scene::new();
    scene.sample("disa-two.img");
    let ran = scene.run(&["verify", "disa-two.img"]);
    assert_eq!((ran.status, ran.errors.as_str()), (1, ""));
    let lines =
        "A level 4 block 0\nA level 4 block 3\nA level 4 block 9\nA level 4 block 11\nA level 4 block 13\n5 faults\n";
    assert_eq!(ran.text(), lines);
    let object = scene.json(1, &["verify", "disa-two.img"]);
    let blocks: Vec<u64> = object.get("faults").list().iter().map(|fault| fault.get("block").number()).collect();
    assert_eq!(blocks, [0, 3, 9, 11, 13]);
    let first = &object.get("faults").list()[0];
    assert_eq!((first.get("partition").text(), first.get("level").number()), ("A", 4));
}

#[test]
fn verify_of_a_whole_image() {
    let scene = Scene::new();
    scene.sample("disa-one.img");
    assert_eq!(scene.done(&["verify", "disa-one.img"]), b"no fault: every block of levels 1 to 4 is verified\n");
    assert_eq!(scene.json(0, &["verify", "disa-one.img"]).get("faults").list(), []);
}

/// Where level 4 of samples/external.img lies: `describe` says so, and the bytes there are the ones that are read.
fn external_level4(scene: &Scene) -> std::ops::Range<usize> {
    let partition = scene.json(0, &["describe", "external.img"]).get("partitions").list()[0].clone();
    let start = partition.get("partition").get("offset").number() + partition.get("external").number();
    start as usize..(start + partition.get("size").number()) as usize
}

#[test]
fn damage_is_a_fault_and_is_not_read() {
    let scene = Scene::new();
    scene.sample("external.img");
    let level4 = external_level4(&scene);
    let mut image = scene.bytes("external.img");
    image[level4.start + 1500] ^= 1;
    image[level4.start + 2500] ^= 1;
    scene.put("external.img", image);

    let ran = scene.run(&["verify", "external.img"]);
    assert_eq!((ran.status, ran.text().as_str()), (1, "A level 4 blocks 1 to 2\n2 faults\n"));
    let words = scene.refused(10, &["read", "external.img", "--at", "1023", "--length", "2"]);
    assert!(words.starts_with("block 1 "), "{words}");
    let refusal = scene.json(3, &["read", "external.img", "--at", "2048", "--length", "1"]).get("refusal").clone();
    assert_eq!(refusal.get("block").number(), 2);
    assert_eq!(scene.done(&["read", "external.img", "--at", "0", "--length", "1024"]).len(), 1024);
    // A block that is covered in part keeps bytes that nobody vouches for, so it is not written either.
    scene.put("data", "x");
    let words = scene.refused(10, &["write", "external.img", "--at", "1030", "data"]);
    assert!(words.starts_with("block 1 "), "{words}");
}

#[test]
fn read_to_standard_output_and_to_a_file() {
    let scene = Scene::new();
    scene.sample("external.img");
    let level4 = scene.bytes("external.img")[external_level4(&scene)].to_vec();
    assert_eq!(scene.done(&["read", "external.img"]), level4);
    assert_eq!(scene.done(&["read", "external.img", "--at", "0x10", "--length", "20"]), level4[16..36]);
    assert_eq!(scene.done(&["read", "external.img", "--partition=a", "--at=2990", "-o", "-"]), level4[2990..]);
    assert_eq!(scene.done(&["read", "external.img", "--at", "3000"]), b"");
    assert_eq!(scene.done(&["read", "external.img", "--length", "30", "-o", "out.bin"]), b"out.bin: 30 bytes\n");
    assert_eq!(scene.bytes("out.bin"), level4[..30]);
}

#[test]
fn read_for_programs() {
    let scene = Scene::new();
    scene.sample("external.img");
    let level4 = scene.bytes("external.img")[external_level4(&scene)].to_vec();
    let object = scene.json(0, &["read", "external.img", "--at", "7", "--length", "3"]);
    let digits: String = level4[7..10].iter().map(|byte| format!("{byte:02x}")).collect();
    assert_eq!((object.get("bytes").text(), object.get("file")), (digits.as_str(), &Json::Null));
    assert_eq!((object.get("at").number(), object.get("length").number()), (7, 3));
    let object = scene.json(0, &["read", "external.img", "-o", "all.bin"]);
    assert_eq!((object.get("bytes"), object.get("file").text()), (&Json::Null, "all.bin"));
    assert_eq!(scene.bytes("all.bin"), level4);
}

#[test]
fn read_where_nothing_is() {
    let scene = Scene::new();
    scene.sample("diff.img");
    scene.refused(8, &["read", "diff.img", "--partition", "B"]);
    scene.refused(8, &["read", "diff.img", "--partition", "B", "--at", "0", "--length", "0xFFFFFFFFFFFFFFFF"]);
    scene.refused(9, &["read", "diff.img", "--at", "2501"]);
    scene.refused(9, &["read", "diff.img", "--at", "2499", "--length", "2"]);
    scene.refused(9, &["read", "diff.img", "--length", "0xFFFFFFFFFFFFFFFF"]);
    scene.refused(9, &["read", "diff.img", "--at", "0xFFFFFFFFFFFFFFFF", "--length", "1"]);
}

#[test]
fn map_is_a_picture() {
    let scene = Scene::new();
    scene.sample("disa-two.img");
    let svg = String::from_utf8(scene.done(&["map", "disa-two.img"])).expect("text");
    assert!(svg.starts_with("<svg ") && svg.trim_end().ends_with("</svg>"), "{svg}");
    scene.done(&["map", "disa-two.img", "-o", "map.svg"]);
    assert_eq!(scene.bytes("map.svg"), svg.as_bytes());
    assert_eq!(scene.json(0, &["map", "disa-two.img"]).get("svg").text(), svg);
    assert_eq!(scene.json(0, &["map", "disa-two.img", "-o", "map.svg"]).get("file").text(), "map.svg");
}
