//! `sign`, and the signed forms of other commands.

use teplovist::Digest;

use crate::json::Json;
use crate::scene::Scene;

const KEY_DIGITS: &str = "000102030405060708090a0B0C0d0e0f";

/// A key as raw bytes and as digits, and another one.
fn put_keys(scene: &Scene) {
    scene.put("raw.key", (0..16).collect::<Vec<u8>>());
    scene.put("hex.key", format!("{KEY_DIGITS}\n"));
    scene.put("other.key", [9; 16]);
}

fn with<'a>(arguments: &[&'a str], key: &'a str, signer: &'a str) -> Vec<&'a str> {
    [arguments, &["--key-file", key, "--signer", signer]].concat()
}

#[test]
fn a_signed_round_trip() {
    let scene = Scene::new();
    scene.sample("disa-one.img");
    put_keys(&scene);
    let signer = "title:0x0004000000033500";
    scene.refused(16, &with(&["describe", "disa-one.img"], "raw.key", signer));
    let data = scene.done(&["read", "disa-one.img"]);
    let out = scene.done(&with(&["sign", "disa-one.img"], "raw.key", signer));
    assert_eq!(out, b"committed, signed; the primary table is active\n");

    // Raw bytes and digits are the same key.
    assert_eq!(scene.done(&with(&["read", "disa-one.img"], "hex.key", signer)), data);
    assert!(scene.run(&with(&["describe", "disa-one.img"], "hex.key", signer)).text().contains(" bytes, signed\n"));
    scene.done(&with(&["verify", "disa-one.img"], "hex.key", signer));

    scene.put("data", "signed");
    let object = scene.json(0, &with(&["write", "disa-one.img", "--at", "0", "data"], "hex.key", signer));
    assert_eq!(object.get("signed"), &Json::Truth(true));
    assert_eq!(scene.done(&with(&["read", "disa-one.img", "--length", "6"], "raw.key", signer)), b"signed");
    assert_eq!(
        scene.done(&with(&["revert", "disa-one.img"], "raw.key", signer)),
        b"reverted, signed; the primary table is active\n"
    );
    assert_eq!(scene.done(&with(&["read", "disa-one.img"], "raw.key", signer)), data);
}

#[test]
fn a_signature_of_another_is_refused() {
    let scene = Scene::new();
    scene.sample("disa-one.img");
    put_keys(&scene);
    scene.done(&with(&["sign", "disa-one.img"], "raw.key", "title:5"));
    for command in ["describe", "verify", "read"] {
        scene.done(&with(&[command, "disa-one.img"], "raw.key", "title:5"));
        scene.refused(16, &with(&[command, "disa-one.img"], "other.key", "title:5"));
        scene.refused(16, &with(&[command, "disa-one.img"], "raw.key", "title:6"));
        scene.refused(16, &with(&[command, "disa-one.img"], "raw.key", "card"));
        scene.refused(15, &with(&[command, "disa-one.img"], "raw.key", "quota:5"));
    }
    let image = scene.bytes("disa-one.img");
    for arguments in
        [&["sign", "disa-one.img"][..], &["write", "disa-one.img", "--at", "0"], &["revert", "disa-one.img"]]
    {
        scene.refused(15, &with(arguments, "raw.key", "device:1:2:3"));
    }
    assert_eq!(scene.bytes("disa-one.img"), image);
    // None of these has made revert forget.
    scene.done(&["revert", "disa-one.img"]);
}

#[test]
fn a_plain_commit_leaves_the_signature_behind() {
    let scene = Scene::new();
    scene.sample("diff.img");
    put_keys(&scene);
    scene.done(&with(&["sign", "diff.img"], "raw.key", "database:2"));
    scene.done_with_input(&["write", "diff.img", "--at", "0"], b"plain");
    scene.refused(16, &with(&["verify", "diff.img"], "raw.key", "database:2"));
    scene.done(&with(&["sign", "diff.img"], "raw.key", "database:2"));
    scene.done(&with(&["verify", "diff.img"], "raw.key", "database:2"));
}

#[test]
fn every_signer_signs_its_kind() {
    let scene = Scene::new();
    put_keys(&scene);
    let signers = ["card", "title:1", "system:1", "quota:1", "device:1:2:3", "database:1"];
    for (index, signer) in signers.into_iter().enumerate() {
        let (own, other) = if index < 3 { ("disa-one.img", "diff.img") } else { ("diff.img", "disa-one.img") };
        scene.sample(own);
        scene.sample(other);
        scene.done(&with(&["sign", own], "raw.key", signer));
        scene.done(&with(&["verify", own], "raw.key", signer));
        scene.refused(15, &with(&["sign", other], "raw.key", signer));
        let others = signers.into_iter().filter(|other| *other != signer);
        assert_eq!(others.filter(|other| scene.run(&with(&["verify", own], "raw.key", other)).status == 0).count(), 0);
    }
}

/// A card's save: the SHA-256 of `CTR-NOR0` and the SHA-256 of `CTR-SAV0` and the header.
#[test]
fn the_digest_for_a_signing_box() {
    let scene = Scene::new();
    scene.sample("disa-one.img");
    let sha256 = |parts: [&[u8]; 2]| {
        let mut digest = Digest::new();
        parts.into_iter().for_each(|part| digest.feed(part).expect("a short message"));
        digest.finish().expect("a short message")
    };
    let image = scene.bytes("disa-one.img");
    let digest = sha256([b"CTR-NOR0", &sha256([b"CTR-SAV0", &image[0x100..0x200]])]);
    let digits: String = digest.iter().map(|byte| format!("{byte:02x}")).collect();
    assert_eq!(scene.done(&["sign", "disa-one.img", "--digest", "--signer", "card"]), format!("{digits}\n").as_bytes());
    let object = scene.json(0, &["sign", "disa-one.img", "--digest", "--signer", "card"]);
    assert_eq!(object.get("digest").text(), digits);
    scene.refused(15, &["sign", "disa-one.img", "--digest", "--signer", "quota:1"]);
    assert_eq!(scene.bytes("disa-one.img"), image);
    assert_eq!(scene.files(), ["disa-one.img"]);
}

#[test]
fn key_files_that_hold_no_key() {
    let scene = Scene::new();
    scene.sample("disa-one.img");
    let wrong: [(&str, &[u8]); 7] = [
        ("empty", b""),
        ("short", &[1; 15]),
        ("long", &[1; 17]),
        ("few-digits", b"000102030405060708090a0b0c0d0e"),
        ("many-digits", b"000102030405060708090a0b0c0d0e0f00"),
        ("no-digits", b"000102030405060708090a0b0c0d0eXY"),
        ("two-lines", b"0001020304050607\n08090a0b0c0d0e0f\n"),
    ];
    for (name, bytes) in wrong {
        scene.put(name, bytes);
        let line = scene.fails(2, &with(&["describe", "disa-one.img"], name, "card"));
        assert!(line.contains(&format!("{name} holds no key: 16 raw bytes or 32 hexadecimal digits")), "{line}");
        assert!(!line.contains("0001"), "a key must not be shown: {line}");
    }
    let line = scene.fails(4, &with(&["sign", "disa-one.img"], "nowhere.key", "card"));
    assert!(line.starts_with("cannot read the key file nowhere.key: "), "{line}");
    scene.fails(4, &with(&["sign", "disa-one.img"], ".", "card"));
    // A file that never ends is not read to its end.
    scene.fails(2, &with(&["sign", "disa-one.img"], "/dev/zero", "card"));
    assert_eq!(scene.bytes("disa-one.img"), crate::support::sample("disa-one.img"));
}

#[test]
fn a_key_and_a_signer_go_together() {
    let scene = Scene::new();
    scene.sample("disa-one.img");
    put_keys(&scene);
    for command in ["describe", "verify", "read", "revert", "sign"] {
        let line = scene.fails(2, &[command, "disa-one.img", "--key-file", "raw.key"]);
        assert!(line.contains("--key-file goes with --signer"), "{line}");
        let line = scene.fails(2, &[command, "disa-one.img", "--signer", "card"]);
        assert!(line.contains("--signer goes with --key-file"), "{line}");
    }
    scene.fails(2, &["sign", "disa-one.img"]);
    scene.fails(2, &["sign", "disa-one.img", "--digest"]);
    scene.fails(2, &with(&["sign", "disa-one.img", "--digest"], "raw.key", "card"));
    let line = scene.fails(2, &with(&["sign", "disa-one.img"], "raw.key", "title:0004000000033500"));
    assert!(line.contains("write 0x before hexadecimal digits"), "{line}");
    let line = scene.fails(2, &with(&["sign", "disa-one.img"], "raw.key", "tilte:5"));
    assert!(line.contains("card, title:ID"), "{line}");
}
