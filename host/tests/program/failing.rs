//! Files that cannot be had, locks that others hold, and output that nobody takes.

use std::ffi::OsString;
use std::fs::{self, File, Permissions};
use std::io::Read;
use std::os::unix::ffi::OsStringExt;
use std::os::unix::fs::{chown, MetadataExt, PermissionsExt};
use std::os::unix::process::CommandExt;
use std::path::Path;
use std::process::{Command, Stdio};

use crate::json::Json;
use crate::scene::Scene;
use crate::support::sample;

#[test]
fn files_that_are_not_there() {
    let scene = Scene::new();
    scene.sample("disa-one.img");
    for arguments in [
        &["describe", "none.img"][..],
        &["verify", "none.img"],
        &["read", "none.img"],
        &["write", "none.img", "--at", "0"],
        &["revert", "none.img"],
        &["ls", "none.img"],
        &["map", "none.img"],
        &["write", "disa-one.img", "--at", "0", "none.img"],
    ] {
        let line = scene.fails(4, arguments);
        assert!(line.contains("none.img: No such file"), "{line}");
        let error = scene.json(4, arguments).get("error").clone();
        assert_eq!((error.get("status").number(), error.get("words").text()), (4, line.as_str()));
    }
    assert!(scene.fails(4, &["describe", "."]).contains("no regular file"));
    scene.fails(4, &["read", "disa-one.img", "-o", "nowhere/out.bin"]);
    scene.fails(4, &["write", "disa-one.img", "--at", "0", "."]);
    assert_eq!(scene.bytes("disa-one.img"), sample("disa-one.img"));
}

#[test]
fn a_lock_that_somebody_holds() {
    let scene = Scene::new();
    scene.sample("disa-one.img");
    let path = scene.path("disa-one.img");
    let changes = [
        &["write", "disa-one.img", "--at", "0"][..],
        &["revert", "disa-one.img"],
        &["new", "disa-one.img", "--kind", "disa", "--blocks", "1", "--force"],
    ];
    let looks = [&["describe", "disa-one.img"][..], &["read", "disa-one.img"], &["map", "disa-one.img"]];

    let file = File::open(&path).expect("the image");
    file.lock().expect("an exclusive lock");
    for arguments in changes.iter().chain(&looks) {
        let line = scene.fails(4, arguments);
        assert_eq!(line, "somebody else has disa-one.img open: try again later", "{arguments:?}");
    }
    file.unlock().expect("no lock");
    file.lock_shared().expect("a shared lock");
    for arguments in changes {
        assert!(scene.fails(4, arguments).contains("try again later"), "{arguments:?}");
    }
    for arguments in looks {
        scene.done(arguments);
    }
    assert_eq!(scene.bytes("disa-one.img"), sample("disa-one.img"));
    drop(file);
    scene.done(&["write", "disa-one.img", "--at", "0"]);
}

/// A write waits for its data before it locks the image, so that a pipe from the image to itself works.
#[test]
fn data_comes_before_the_lock() {
    let scene = Scene::new();
    scene.sample("disa-one.img");
    let mut writer = scene
        .command(&["write", "disa-one.img", "--at", "0"])
        .stdin(Stdio::piped())
        .stdout(Stdio::null())
        .spawn()
        .expect("the program starts");
    scene.done(&["read", "disa-one.img"]);
    drop(writer.stdin.take());
    assert!(writer.wait().expect("the program ends").success());
}

#[test]
fn output_over_the_image_itself() {
    let scene = Scene::new();
    scene.sample("disa-one.img");
    fs::hard_link(scene.path("disa-one.img"), scene.path("same.img")).expect("a link");
    std::os::unix::fs::symlink("disa-one.img", scene.path("link.img")).expect("a link");
    for output in ["disa-one.img", "./disa-one.img", "same.img", "link.img"] {
        for command in ["read", "map"] {
            let line = scene.fails(2, &[command, "disa-one.img", "-o", output]);
            assert!(line.contains("is the image itself"), "{line}");
        }
    }
    assert_eq!(scene.bytes("disa-one.img"), sample("disa-one.img"));
}

/// The reader goes away after some bytes, or before any: nothing is said, and the status is the command's own.
#[test]
fn a_reader_that_goes_away() {
    let scene = Scene::new();
    scene.sample("disa-two.img");
    scene.done(&["new", "large.img", "--kind", "disa", "--blocks", "256"]);
    for (arguments, status, taken) in [
        (&["read", "large.img"][..], 0, 1000),
        (&["read", "large.img", "--json"], 0, 1000),
        (&["read", "large.img"], 0, 0),
        (&["verify", "disa-two.img"], 1, 0),
        (&["describe", "nothing.img", "--json"], 4, 0),
    ] {
        let mut child = scene
            .command(arguments)
            .stdin(Stdio::piped())
            .stdout(Stdio::piped())
            .stderr(Stdio::piped())
            .spawn()
            .expect("the program starts");
        let mut out = child.stdout.take().expect("a pipe");
        out.read_exact(&mut vec![0; taken]).expect("so many bytes");
        drop(out);
        let output = child.wait_with_output().expect("the program ends");
        assert_eq!(output.status.code(), Some(status), "{arguments:?}");
        let says_something = !output.stderr.is_empty();
        assert_eq!(says_something, status == 4, "{arguments:?}: {}", String::from_utf8_lossy(&output.stderr));
    }
}

fn run_on_full_device(scene: &Scene, arguments: &[&str]) -> (Option<i32>, String) {
    let full = File::options().write(true).open("/dev/full").expect("a device without space");
    let output = scene.command(arguments).stdin(Stdio::null()).stdout(full).output().expect("the program runs");
    (output.status.code(), String::from_utf8_lossy(&output.stderr).into_owned())
}

#[test]
fn output_that_finds_no_space() {
    let scene = Scene::new();
    scene.sample("disa-one.img");
    let (status, line) = run_on_full_device(&scene, &["describe", "disa-one.img"]);
    assert_eq!(status, Some(4));
    assert!(line.starts_with("teplovist: cannot write to standard output: No space left"), "{line}");
    scene.put("data", "landed");
    // The commit has landed, and status 4 would deny it.
    let (status, line) = run_on_full_device(&scene, &["write", "disa-one.img", "--at", "0", "data"]);
    assert!(status == Some(0) && line.contains("cannot write to standard output"), "{status:?} {line}");
    assert_eq!(scene.done(&["read", "disa-one.img", "--length", "6"]), b"landed");
    assert!(scene.fails(4, &["read", "disa-one.img", "-o", "/dev/full"]).starts_with("cannot write /dev/full: "));
}

/// The program where no file can be stored to past so many kilobytes: every such store fails, while the bytes are there
/// to be read.
fn with_stores_up_to(scene: &Scene, kilobytes: u32, program: &Path, arguments: &[&str]) -> Command {
    let script = format!("trap '' XFSZ; ulimit -f {kilobytes}; exec \"$0\" \"$@\"");
    let mut command = Command::new("bash");
    command.args(["-c", &script]).arg(program).args(arguments).current_dir(scene.path(""));
    command
}

fn outcome(mut command: Command) -> (Option<i32>, String) {
    let output = command.stdin(Stdio::null()).output().expect("a shell");
    (output.status.code(), String::from_utf8_lossy(&output.stderr).into_owned())
}

fn run_with_stores_up_to(scene: &Scene, kilobytes: u32, arguments: &[&str]) -> (Option<i32>, String) {
    outcome(with_stores_up_to(scene, kilobytes, Path::new(env!("CARGO_BIN_EXE_teplovist")), arguments))
}

/// The same by somebody whom the modes of files bind. They do not bind root: who runs the tests as root hands the folder
/// over to another user, and a copy of the program with it, which may lie where only root can go.
fn run_bound_by_modes(scene: &Scene, kilobytes: u32, arguments: &[&str]) -> (Option<i32>, String) {
    const ROOT: u32 = 0;
    const SOMEBODY_ELSE: Option<u32> = Some(65534);
    let program = scene.path("program");
    // Another process copies it: a file that this one had open to write might not start, if a test beside forks then.
    let copied = Command::new("cp").arg(env!("CARGO_BIN_EXE_teplovist")).arg(&program).status();
    assert!(copied.expect("cp").success());
    let mut command = with_stores_up_to(scene, kilobytes, &program, arguments);
    if fs::metadata(scene.path("")).expect("the test's folder").uid() == ROOT {
        for name in scene.files().iter().map(String::as_str).chain([""]) {
            chown(scene.path(name), SOMEBODY_ELSE, SOMEBODY_ELSE).expect("root may do that");
        }
        SOMEBODY_ELSE.map(|user| command.uid(user).gid(user));
    }
    outcome(command)
}

fn set_mode(scene: &Scene, name: &str, mode: u32) {
    fs::set_permissions(scene.path(name), Permissions::from_mode(mode)).expect("the file is the test's own");
}

#[test]
fn a_store_that_fails_before_the_header() {
    let scene = Scene::new();
    scene.sample("blank.img");
    scene.done_with_input(&["write", "blank.img", "--at", "0"], b"first");
    scene.put("data", "second");
    let (status, line) = run_with_stores_up_to(&scene, 4, &["write", "blank.img", "--at", "0", "data"]);
    assert_eq!(status, Some(4), "{line}");
    assert!(line.starts_with("teplovist: nothing was saved, the file still holds the old state: "), "{line}");
    assert_eq!(scene.done(&["read", "blank.img", "--length", "6"]), b"first\0");
    scene.done(&["verify", "blank.img"]);
    // Stores have gone to where the state before the first commit lies, so nobody must step back to it.
    assert_eq!(scene.files(), ["blank.img", "data"]);
    scene.refused(21, &["revert", "blank.img"]);
    scene.done(&["write", "blank.img", "--at", "0", "data"]);
    assert_eq!(scene.done(&["read", "blank.img", "--length", "6"]), b"second");
}

#[test]
fn a_header_that_may_not_have_landed() {
    let scene = Scene::new();
    scene.sample("blank.img");
    scene.done_with_input(&["write", "blank.img", "--at", "0"], b"first");
    let image = scene.bytes("blank.img");
    // A revert stores the header alone.
    let (status, line) = run_with_stores_up_to(&scene, 0, &["revert", "blank.img"]);
    assert_eq!(status, Some(5), "{line}");
    assert!(line.starts_with("teplovist: the header may or may not have been stored"), "{line}");
    assert_eq!(line.lines().count(), 1, "{line}");
    // Here it has not, and it can be tried again.
    assert_eq!(scene.bytes("blank.img"), image);
    scene.done(&["revert", "blank.img"]);
}

#[test]
fn a_store_in_place_that_fails() {
    let scene = Scene::new();
    scene.sample("external.img");
    scene.put("data", [9; 3000]);
    let (status, line) = run_with_stores_up_to(&scene, 1, &["write", "external.img", "--at", "0", "data"]);
    assert_eq!(status, Some(5), "{line}");
    assert!(line.contains("external level 4"), "{line}");
}

#[test]
fn a_new_image_that_finds_no_room() {
    let scene = Scene::new();
    let arguments = ["new", "x.img", "--kind", "disa", "--blocks", "16"];
    let (status, line) = run_with_stores_up_to(&scene, 4, &arguments);
    assert_eq!((status, scene.files()), (Some(4), vec![]), "{line}");
    scene.put("x.img", "mine");
    let (status, line) = run_with_stores_up_to(&scene, 4, &[&arguments[..], &["--force"]].concat());
    assert_eq!((status, scene.bytes("x.img")), (Some(4), b"mine".to_vec()), "{line}");
}

/// The folder takes new names, but cannot be opened to be synced: the old file is gone, and status 4 would deny it.
#[test]
fn a_new_image_whose_name_may_not_stay() {
    for forced in [&["--force"][..], &[]] {
        let scene = Scene::new();
        if !forced.is_empty() {
            scene.put("x.img", "mine");
        }
        let arguments = [&["new", "x.img", "--kind", "disa", "--blocks", "2"], forced].concat();
        set_mode(&scene, "", 0o300);
        let (status, line) = run_bound_by_modes(&scene, 1000, &arguments);
        set_mode(&scene, "", 0o700);
        assert_eq!(status, Some(5), "{line}");
        assert!(line.starts_with("teplovist: x.img: the new file is in its place, but a power failure may"), "{line}");
        assert_eq!(line.lines().count(), 1, "{line}");
        assert_eq!(scene.bytes("x.img"), sample("blank.img"));
        assert_eq!(scene.files(), ["program", "x.img"]);
    }
}

/// What cannot be read is forgotten all the same: a store fails, and then nobody must find it.
#[test]
fn a_memory_that_cannot_be_read() {
    let scene = Scene::new();
    scene.sample("blank.img");
    scene.done_with_input(&["write", "blank.img", "--at", "0"], b"first");
    scene.put("data", "second");
    set_mode(&scene, "blank.img.session", 0o000);
    let (status, line) = run_bound_by_modes(&scene, 4, &["write", "blank.img", "--at", "0", "data"]);
    assert_eq!(status, Some(4), "{line}");
    assert!(line.starts_with("teplovist: nothing was saved"), "{line}");
    assert_eq!(scene.files(), ["blank.img", "data", "program"]);
}

#[test]
fn names_of_files_that_are_no_text() {
    let scene = Scene::new();
    let name = OsString::from_vec(b"odd \xff\"\n.img".to_vec());
    fs::write(scene.path(&name), sample("disa-one.img")).expect("a file with an odd name");
    let run = |arguments: &[&str]| {
        let mut all: Vec<OsString> = arguments.iter().map(OsString::from).collect();
        all.insert(1, name.clone());
        scene.run_with_input(&all, b"odd")
    };
    assert_eq!(run(&["write", "--at", "0"]).status, 0);
    assert_eq!(run(&["read", "--length", "3"]).out, b"odd");
    let made = run(&["new", "--kind", "disa", "--blocks", "1", "--json", "--force"]);
    let object = Json::parse(&made.text()).expect("JSON");
    assert_eq!(object.get("file").text(), "odd \u{fffd}\"\n.img");
    let again = run(&["new", "--kind", "disa", "--blocks", "1"]);
    assert_eq!((again.status, again.errors.lines().count()), (4, 1), "{}", again.errors);
}
