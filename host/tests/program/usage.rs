//! Help, the version, and what a mistyped line is answered.

use std::path::Path;
use std::process::Command;

use crate::json::Json;
use crate::scene::Scene;

const COMMANDS: [&str; 10] = ["describe", "verify", "read", "write", "revert", "new", "ls", "find", "sign", "map"];

#[test]
fn help_shows_examples() {
    let scene = Scene::new();
    let overview = scene.done(&["--help"]);
    let text = String::from_utf8(overview.clone()).expect("text");
    assert!(text.contains("examples:\n") && text.contains("exit statuses: "), "{text}");
    assert_eq!((scene.done(&["help"]), scene.done(&["-h"])), (overview.clone(), overview));
    for command in COMMANDS {
        assert!(text.contains(&format!("\n  {command} ")), "{command} is not listed");
        let help = scene.done(&["help", command]);
        assert_eq!(scene.done(&[command, "--help"]), help);
        assert_eq!(scene.done(&[command, "-h", "x.img"]), help);
        let help = String::from_utf8(help).expect("text");
        assert!(help.starts_with(&format!("teplovist {command} IMAGE")), "{help}");
        assert!(help.contains(&format!("examples:\n  teplovist {command} ")), "{help}");
        assert!(help.lines().all(|line| line.len() <= 120), "{help}");
    }
}

/// The examples are lines that run: on the samples, and on an image, a key and files with the names that they use.
#[test]
fn the_examples_of_help_run() {
    let mut count = 0;
    for command in COMMANDS {
        let scene = Scene::new();
        let help = String::from_utf8(scene.done(&["help", command])).expect("text");
        let (_, examples) = help.split_once("examples:\n").expect("examples");
        std::fs::create_dir(scene.path("samples")).expect("a folder");
        for sample in ["disa-one.img", "disa-two.img"] {
            scene.put(&format!("samples/{sample}"), crate::support::sample(sample));
        }
        scene.put("my.key", [3; 16]);
        scene.put("hello.txt", "hello\n");
        scene.put("save.bin", [1; 64]);
        for example in examples.lines() {
            run_example(&scene, command, example.trim());
            count += 1;
        }
    }
    assert!(count >= 20, "only {count} examples");
}

/// An image that an example can be done on: with a save for `ls` and `find`, signed where the example names a signer, and
/// with a commit that can be taken back.
fn prepare_image(scene: &Scene, command: &str, example: &str) {
    scene.done(&["new", "my.img", "--kind", "disa", "--blocks", "16", "--force"]);
    let data = if matches!(command, "ls" | "find") { crate::naming::save() } else { b"data".to_vec() };
    scene.done_with_input(&["write", "my.img", "--at", "0"], &data);
    if let Some((_, signer)) = example.split_once("--signer ") {
        scene.done(&["sign", "my.img", "--key-file", "my.key", "--signer", signer]);
    }
}

fn run_example(scene: &Scene, command: &str, example: &str) {
    if command != "new" {
        prepare_image(scene, command, example);
    }
    let has_faults = command == "verify" && example.contains("disa-two");
    assert_eq!(run_line(scene, example), (Some(i32::from(has_faults)), String::new()), "{example}");
}

/// Runs a line in a shell; gives its exit status and what it said on standard error.
fn run_line(scene: &Scene, line: &str) -> (Option<i32>, String) {
    let folder = Path::new(env!("CARGO_BIN_EXE_teplovist")).parent().expect("a folder").display();
    let path = format!("{folder}:{}", std::env::var("PATH").expect("a path"));
    // `od` is everywhere, `xxd` is not.
    let script = line.replace("| xxd", "| od");
    let mut shell = Command::new("bash");
    shell.args(["-o", "pipefail", "-c", &script]).env("PATH", path).current_dir(scene.path(""));
    let output = shell.output().expect("a shell");
    (output.status.code(), String::from_utf8_lossy(&output.stderr).into_owned())
}

/// Those of the overview are one story, told from an empty folder on.
#[test]
fn the_examples_of_the_overview_run() {
    let scene = Scene::new();
    let text = String::from_utf8(scene.done(&["help"])).expect("text");
    let (_, examples) = text.split_once("examples:\n").expect("examples");
    let lines: Vec<&str> = examples.lines().take_while(|line| !line.is_empty()).map(str::trim).collect();
    assert_eq!(lines.len(), 4);
    for line in lines {
        assert_eq!(run_line(&scene, line), (Some(0), String::new()), "{line}");
    }
}

#[test]
fn the_version() {
    let scene = Scene::new();
    assert_eq!(scene.done(&["--version"]), format!("teplovist {}\n", env!("CARGO_PKG_VERSION")).as_bytes());
    let object = scene.json(0, &["--version"]);
    assert_eq!(object.get("version").text(), format!("teplovist {}", env!("CARGO_PKG_VERSION")));
    assert!(scene.json(0, &["help", "read"]).get("help").text().starts_with("teplovist read IMAGE"));
}

#[test]
fn a_mistyped_line_is_answered_with_what_is_wrong() {
    let scene = Scene::new();
    scene.sample("disa-one.img");
    scene.sample("disa-two.img");
    for (arguments, words) in [
        (&[][..], "which command?"),
        (&["descibe", "disa-one.img"], "there is no command `descibe`; did you mean describe?"),
        (&["frobnicate"], "there is no command `frobnicate` ("),
        (&["help", "wirte"], "there is no command `wirte`; did you mean write?"),
        (&["help", "read", "write"], "`write` is one word too many"),
        (&["describe"], "describe: which image?"),
        (&["describe", "disa-one.img", "more"], "describe: `more` is one word too many"),
        (&["read", "disa-one.img", "--ofset", "3"], "read: there is no option --ofset"),
        (&["read", "disa-one.img", "--lenght", "3"], "read: there is no option --lenght; did you mean --length?"),
        (&["read", "disa-one.img", "--length", "3k"], "read: --length wants a number, decimal or 0x..., not `3k`"),
        (&["read", "disa-one.img", "--length", "-3"], "read: --length wants a value"),
        (&["read", "disa-one.img", "--length=-3"], "read: --length wants a number, decimal or 0x..., not `-3`"),
        (&["read", "none.img", "--partition", "C"], "read: --partition is A or B, not `C`"),
        (&["read", "disa-two.img"], "read: the image has two partitions: say --partition A or --partition B"),
        (&["write", "disa-two.img", "--at", "0"], "write: the image has two partitions"),
        (&["write", "disa-one.img"], "write: --at is missing"),
        (&["write", "disa-one.img", "--at", "0", "--key", "0011"], "write: there is no option --key ("),
        (&["new", "x.img", "--kind", "disa"], "new: --blocks is missing"),
        (&["new", "x.img", "--blocks", "1"], "new: --kind is missing"),
        (&["new", "x.img", "--blocks", "1", "--kind", "disk"], "new: --kind is disa or diff, not `disk`"),
        (&["find", "disa-one.img"], "find: a word is missing"),
        (&["sign", "disa-one.img"], "sign: who signs, and with which key?"),
    ] {
        let line = scene.fails(2, arguments);
        assert!(line.contains(words), "{arguments:?}: {line}");
        let error = scene.json(2, arguments).get("error").clone();
        assert_eq!((error.get("status").number(), error.get("words").text()), (2, line.as_str()));
    }
    assert_eq!(scene.files(), ["disa-one.img", "disa-two.img"]);
}

#[test]
fn json_may_be_asked_for_before_the_command() {
    let scene = Scene::new();
    scene.sample("disa-one.img");
    let ran = scene.run(&["--json", "describe", "disa-one.img"]);
    assert_eq!(ran.text(), scene.run(&["describe", "disa-one.img", "--json"]).text());
    assert_eq!(Json::parse(&ran.text()).expect("JSON").get("ok"), &Json::Truth(true));
}

/// The members that PROGRAM.md lists, of each command.
#[test]
fn the_manual_lists_the_members() {
    let manual = include_str!("../../PROGRAM.md");
    let scene = Scene::new();
    scene.put("my.key", [3; 16]);
    scene.done(&["new", "s.img", "--kind", "disa", "--blocks", "1"]);
    scene.done_with_input(&["write", "s.img", "--at", "0"], &crate::naming::save());
    for arguments in [
        &["new", "my.img", "--kind", "disa", "--blocks", "1"][..],
        &["describe", "my.img"],
        &["verify", "my.img"],
        &["read", "my.img", "--length", "1"],
        &["write", "my.img", "--at", "0"],
        &["revert", "my.img"],
        &["ls", "s.img"],
        &["find", "s.img", "/"],
        &["sign", "my.img", "--key-file", "my.key", "--signer", "card"],
        &["sign", "my.img", "--digest", "--signer", "card"],
        &["map", "my.img"],
    ] {
        let object = scene.json(0, arguments);
        let names = object.names();
        let (command, digest) = (arguments[0], arguments.contains(&"--digest"));
        let heading = if digest { "| `sign --digest` |".into() } else { format!("| `{command}` |") };
        let row = manual.lines().find(|line| line.starts_with(&heading)).unwrap_or_else(|| panic!("no row {heading}"));
        let listed = row.split('|').nth(2).expect("a second column");
        let mut listed: Vec<&str> = listed.split('`').skip(1).step_by(2).chain(["ok"]).collect();
        listed.sort_unstable();
        assert_eq!(names, listed, "{command}");
    }
}
