//! The declarations in src/boundary.rs are those of include/teplovist.h: each call's arguments by name and type, and
//! each number.

use std::collections::{BTreeMap, BTreeSet};
use std::fs;

use teplovist::{boundary, Refusal, Signer};

fn text_of(path: &str) -> String {
    fs::read_to_string(format!("{}/{path}", env!("CARGO_MANIFEST_DIR"))).expect("the repository has it")
}

/// A C argument, as Rust has it.
fn argument(c: &str) -> String {
    let (kind, name) = c.trim().rsplit_once([' ', '*']).expect("a type and a name");
    let pointed = c.contains('*');
    let (constant, plain) = match kind.trim().trim_end_matches('*').trim().strip_prefix("const ") {
        Some(plain) => ("const", plain),
        None => ("mut", kind.trim().trim_end_matches('*').trim()),
    };
    let rust = match plain {
        "uint8_t" => "u8",
        "uint64_t" => "u64",
        "size_t" => "usize",
        "teplovist_fault" => "Fault",
        other => panic!("a type that this test does not know: {other}"),
    };
    if pointed {
        format!("{name}: *{constant} {rust}")
    } else {
        format!("{name}: {rust}")
    }
}

/// The declarations of the header, as Rust has them, without white space that does not matter.
fn declared_in_c() -> BTreeSet<String> {
    let header = text_of("../include/teplovist.h");
    let calls = header.split(';').filter_map(|piece| {
        let start = piece.rfind("\nuint64_t teplovist_").or(piece.rfind("\nvoid teplovist_"))?;
        let (head, arguments) = piece[start..].trim().trim_end_matches(')').split_once('(')?;
        let (answer, name) = head.split_once(' ')?;
        let arguments: Vec<_> = arguments.split(',').map(argument).collect();
        let answer = if answer == "void" { "" } else { " -> u64" };
        Some(format!("fn {name}({}){answer}", arguments.join(", ")))
    });
    calls.collect()
}

fn declared_in_rust() -> BTreeSet<String> {
    let source = text_of("src/boundary.rs");
    let (_, block) = source.split_once("extern \"C\" {").expect("the declarations");
    let calls = block.split(';').filter_map(|piece| piece.trim().strip_prefix("pub "));
    let plain = |call: &str| call.split_whitespace().collect::<Vec<_>>().join(" ");
    calls.map(|call| plain(call).replace("( ", "(").replace(", )", ")")).collect()
}

#[test]
fn the_calls_are_those_of_the_header() {
    assert!(!declared_in_c().is_empty());
    assert_eq!(declared_in_c(), declared_in_rust());
}

/// The numbers that the header names, without their `TEPLOVIST_`.
fn numbers_in_c() -> BTreeMap<String, usize> {
    let header = text_of("../include/teplovist.h");
    let lines = header.lines().filter_map(|line| line.trim().trim_start_matches("#define ").strip_prefix("TEPLOVIST_"));
    let pairs = lines.filter_map(|line| {
        let mut words = line.split([' ', '=', ',']).filter(|word| !word.is_empty());
        Some((words.next()?.to_string(), words.next()?.parse().ok()?))
    });
    pairs.collect()
}

#[test]
fn the_numbers_are_those_of_the_header() {
    let in_c = numbers_in_c();
    let source = text_of("src/boundary.rs");
    let constants = source.lines().filter_map(|line| line.strip_prefix("pub const ")?.split_once(": usize = "));
    let mut own = BTreeSet::new();
    for (name, value) in constants {
        match in_c.get(name) {
            Some(number) => assert_eq!(value.trim_end_matches(';'), number.to_string(), "{name}"),
            None => drop(own.insert(name)),
        }
    }
    // The header has these in its text alone.
    assert_eq!(own, BTreeSet::from(["HEADER", "HEADER_SIZE", "MAX_IMAGE"]));
    assert_eq!((boundary::HEADER, boundary::HEADER_SIZE, boundary::MAX_IMAGE), (0x100, 256, 0x4000000));
}

const REFUSALS: [Refusal; 20] = [
    Refusal::Length,
    Refusal::Format,
    Refusal::Selection,
    Refusal::Geometry,
    Refusal::TableHash,
    Refusal::Descriptor,
    Refusal::Placement,
    Refusal::NoPartition,
    Refusal::OutOfRange,
    Refusal::Unverified { block: 0 },
    Refusal::SessionState,
    Refusal::Stale,
    Refusal::SignerKind,
    Refusal::Signature,
    Refusal::ZeroDigest,
    Refusal::InvalidEntry,
    Refusal::NoSave,
    Refusal::BlankSize,
    Refusal::NothingToRevert,
    Refusal::DigestTooLong,
];

const SIGNERS: [Signer; 6] = [
    Signer::Card,
    Signer::Title { id: 0 },
    Signer::System { id: 0 },
    Signer::Quota { id: 0 },
    Signer::Device { id: 0, file: 0, folder: 0 },
    Signer::Database { id: 0 },
];

/// The header's name of what Rust calls `TableHash` or `Device { .. }`: TABLE_HASH, DEVICE.
fn name_in_c(value: impl std::fmt::Debug) -> String {
    let written = format!("{value:?}");
    let name = written.split(' ').next().expect("a name");
    let split =
        name.chars().map(|letter| if letter.is_uppercase() { format!("_{letter}") } else { letter.to_string() });
    split.collect::<String>().trim_start_matches('_').to_uppercase()
}

#[test]
fn refusals_and_signers_have_the_header_s_names_and_numbers() {
    let in_c = numbers_in_c();
    for refusal in REFUSALS {
        assert_eq!(in_c.get(&name_in_c(refusal)), Some(&usize::from(refusal.number())), "{refusal:?}");
    }
    for signer in SIGNERS {
        assert_eq!(in_c.get(&name_in_c(signer)), Some(&(signer.numbers()[0] as usize)), "{signer:?}");
    }
}
