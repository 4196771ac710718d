//! A folder for one test, and the program run in it.

use std::ffi::OsStr;
use std::fs;
use std::io::Write;
use std::path::{Path, PathBuf};
use std::process::{Command, Stdio};
use std::sync::atomic::{AtomicU32, Ordering};

use crate::json::Json;
use crate::support::{sample, Folder};

pub struct Scene {
    folder: Folder,
}

/// What came of a run.
pub struct Ran {
    pub status: i32,
    pub out: Vec<u8>,
    pub errors: String,
}

impl Scene {
    pub fn new() -> Scene {
        static NEXT: AtomicU32 = AtomicU32::new(0);
        Scene { folder: Folder::new(&format!("program-{}", NEXT.fetch_add(1, Ordering::Relaxed))) }
    }

    pub fn path(&self, name: impl AsRef<Path>) -> PathBuf {
        self.folder.path("").join(name)
    }

    pub fn files(&self) -> Vec<String> {
        let entries = fs::read_dir(self.path("")).expect("the test's folder");
        let mut names: Vec<String> =
            entries.map(|entry| entry.expect("an entry").file_name().to_string_lossy().into_owned()).collect();
        names.sort();
        names
    }

    pub fn bytes(&self, name: &str) -> Vec<u8> {
        fs::read(self.path(name)).unwrap_or_else(|error| panic!("{name}: {error}"))
    }

    pub fn put(&self, name: &str, bytes: impl AsRef<[u8]>) {
        fs::write(self.path(name), bytes).expect("a file of the test");
    }

    /// A copy of one of the repository's samples, under the same name.
    pub fn sample(&self, name: &str) {
        self.put(name, sample(name));
    }

    /// The program with these arguments, in the folder, with nothing to read.
    pub fn run(&self, arguments: &[&str]) -> Ran {
        self.run_with_input(arguments, b"")
    }

    pub fn run_with_input(&self, arguments: &[impl AsRef<OsStr>], input: &[u8]) -> Ran {
        let mut command = self.command(arguments);
        command.stdin(Stdio::piped()).stdout(Stdio::piped()).stderr(Stdio::piped());
        let mut child = command.spawn().expect("the program starts");
        let mut standard_input = child.stdin.take().expect("a pipe");
        // A program that refuses before it reads closes its end: that is its right.
        let _ = standard_input.write_all(input);
        drop(standard_input);
        let output = child.wait_with_output().expect("the program ends");
        Ran {
            status: output.status.code().expect("the program ends by itself"),
            out: output.stdout,
            errors: String::from_utf8(output.stderr).expect("text on standard error"),
        }
    }

    pub fn command(&self, arguments: &[impl AsRef<OsStr>]) -> Command {
        let mut command = Command::new(env!("CARGO_BIN_EXE_teplovist"));
        command.args(arguments).current_dir(self.path(""));
        command
    }

    /// A run with `--json` that must print one object and end with this status.
    pub fn json(&self, status: i32, arguments: &[&str]) -> Json {
        let ran = self.run(&[arguments, &["--json"]].concat());
        assert_eq!(ran.status, status, "{arguments:?}: {}", ran.errors);
        let object = Json::parse(&ran.text()).unwrap_or_else(|error| panic!("{arguments:?}: {error}: {}", ran.text()));
        assert_eq!(object.get("ok"), &Json::Truth(status == 0), "{arguments:?}");
        object
    }

    /// A run that must be done, and what it printed.
    pub fn done(&self, arguments: &[&str]) -> Vec<u8> {
        self.done_with_input(arguments, b"")
    }

    pub fn done_with_input(&self, arguments: &[&str], input: &[u8]) -> Vec<u8> {
        let ran = self.run_with_input(arguments, input);
        assert_eq!((ran.status, ran.errors.as_str()), (0, ""), "{arguments:?}");
        ran.out
    }

    /// A run that must fail with this status and say so in one line, which is handed back without the program's name.
    pub fn fails(&self, status: i32, arguments: &[&str]) -> String {
        let ran = self.run(arguments);
        assert_eq!(ran.status, status, "{arguments:?}: {}", ran.errors);
        assert_eq!(ran.out, b"", "{arguments:?} printed something");
        let line = ran.errors.strip_prefix("teplovist: ").expect("the program's name first");
        let line = line.strip_suffix('\n').expect("a whole line");
        assert!(!line.contains('\n'), "{arguments:?}: more than one line: {line}");
        line.into()
    }

    /// A run that must be refused with this number, in words and in JSON alike. Gives the words.
    pub fn refused(&self, number: u64, arguments: &[&str]) -> String {
        const REFUSED: i32 = 3;
        let line = self.fails(REFUSED, arguments);
        let words =
            line.strip_prefix(&format!("refused {number}: ")).unwrap_or_else(|| panic!("{arguments:?}: {line}"));
        let object = self.json(REFUSED, arguments);
        let refusal = object.get("refusal");
        assert_eq!((refusal.get("number").number(), refusal.get("words").text()), (number, words), "{arguments:?}");
        words.into()
    }
}

impl Ran {
    pub fn text(&self) -> String {
        String::from_utf8(self.out.clone()).expect("text on standard output")
    }
}
