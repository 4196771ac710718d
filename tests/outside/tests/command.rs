//! The program: what fails in a check says how to make it again, alone, whichever trial it is; and of the words that the
//! program is called with none is passed over.

use std::process::{self, Output, Stdio};

use outside::check::{Failure, Plan, Trial};
use outside::command::Command;
use outside::description::Description;
use outside::rules::aes::Key;
use outside::rules::compression::Digest;
use outside::rules::faults::FaultRecord;
use outside::rules::names::Name;
use outside::rules::running::RunningBytes;
use outside::rules::session::SessionBytes;
use outside::rules::signing::{BlockBytes, SignerNumbers};
use outside::subject::blank::Blanks;
use outside::subject::names::Names;
use outside::subject::{Rules, Subject};
use outside::trial::fixed::FIXED_TRIALS;
use outside::trial::tally::Tally;
use outside::words::Words;

/// Gives an answer that no call has, to every call; or panics.
enum Wrong {
    Answers,
    Panics,
}

impl Wrong {
    fn answer(&self) -> u64 {
        match self {
            Wrong::Answers => 99,
            Wrong::Panics => panic!("as this test wants it"),
        }
    }
}

impl Blanks for Wrong {
    fn blank_length(&self, _: u64) -> u64 {
        self.answer()
    }

    fn make_blank(&self, _: &mut [u8], _: u64, _: u64) -> u64 {
        self.answer()
    }
}

impl Names for Wrong {
    fn list_names(&self, _: &[u8], _: &mut [u8]) -> u64 {
        self.answer()
    }

    fn find_file(&self, _: &[u8], _: u64, _: &Name) -> u64 {
        self.answer()
    }
}

impl Subject for Wrong {
    fn takes_stand_in(&self) -> bool {
        true
    }

    fn open(&self, _: &[u8], _: &mut Description) -> u64 {
        self.answer()
    }

    fn read_committed(&self, _: &[u8], _: u64, _: u64, _: &mut [u8]) -> u64 {
        self.answer()
    }

    fn read_staged(&self, _: &[u8], _: &SessionBytes, _: u64, _: u64, _: &mut [u8]) -> u64 {
        self.answer()
    }

    fn verified(&self, _: &[u8], _: u64, _: u64) -> u64 {
        self.answer()
    }

    fn count_verified(&self, _: &[u8], _: u64) -> u64 {
        self.answer()
    }

    fn begin(&self, _: &mut [u8], _: &mut SessionBytes) -> u64 {
        self.answer()
    }

    fn write(&self, _: &mut [u8], _: &mut SessionBytes, _: u64, _: u64, _: &[u8]) -> u64 {
        self.answer()
    }

    fn commit(&self, _: &mut [u8], _: &mut SessionBytes) -> u64 {
        self.answer()
    }

    fn abandon(&self, _: &mut SessionBytes) -> u64 {
        self.answer()
    }

    fn open_signed(&self, _: &[u8], _: &Key, _: &SignerNumbers, _: &mut Description) -> u64 {
        self.answer()
    }

    fn commit_signed(&self, _: &mut [u8], _: &mut SessionBytes, _: &Key, _: &SignerNumbers) -> u64 {
        self.answer()
    }

    fn revert(&self, _: &mut [u8], _: &mut SessionBytes) -> u64 {
        self.answer()
    }

    fn revert_signed(&self, _: &mut [u8], _: &mut SessionBytes, _: &Key, _: &SignerNumbers) -> u64 {
        self.answer()
    }

    fn faults(&self, _: &[u8], _: &mut [FaultRecord]) -> u64 {
        self.answer()
    }

    fn signing_block(&self, _: &[u8], _: &SignerNumbers, _: &mut BlockBytes) -> u64 {
        self.answer()
    }

    fn signing_digest(&self, _: &[u8], _: &SignerNumbers, _: &mut Digest) -> u64 {
        self.answer()
    }

    fn digest_start(&self, _: &mut RunningBytes) {}

    fn digest_feed(&self, _: &mut RunningBytes, _: &[u8]) -> u64 {
        self.answer()
    }

    fn digest_finish(&self, _: &RunningBytes, _: &mut Digest) -> u64 {
        self.answer()
    }
}

/// What a check is asked for in these words, the first of which is the command's.
fn plan(words: &str) -> Plan {
    match Command::from_words(Words::new(words.split_whitespace())) {
        Ok(Command::Check(plan)) => plan,
        Ok(_) => panic!("{words}: another command"),
        Err(message) => panic!("{words}: {message}"),
    }
}

fn failure(trial: Trial, subject: &Wrong) -> Failure {
    trial.run(Some(subject), &mut Tally::default()).expect_err("the subject is wrong in everything")
}

#[test]
fn a_failure_comes_again_and_alone() {
    let all = plan("check --every-blank yes --cases 60 --terms 3 --seed 7");
    assert_eq!(all.trials().count(), FIXED_TRIALS.len() + 1 + 60 + 3);
    for trial in all.trials() {
        let first = failure(trial, &Wrong::Answers);
        let again = plan(&first.again);
        assert_eq!(again.trials().count(), 1, "{first:?}");
        assert_eq!(again.run(Some(&Wrong::Answers)).expect_err("it failed before"), first);
    }
}

/// And says which one it is.
#[test]
fn a_check_ends_with_the_first_failure() {
    let failure = plan("check --cases 5 --terms 5").run(Some(&Wrong::Answers)).expect_err("wrong in everything");
    assert_eq!(failure.again, "check --fixed damages --cases 0 --terms 0");
    let failure = plan("check --fixed none --cases 5 --seed 70").run(Some(&Wrong::Answers)).expect_err("likewise");
    assert_eq!(failure.again, "check --fixed none --cases 1 --terms 0 --seed 70");
    let failure = plan("check --fixed none --cases 0 --seed 70").run(Some(&Wrong::Answers)).expect_err("likewise");
    assert_eq!(failure.again, "check --fixed none --cases 0 --terms 1 --seed 70");
    assert!(plan("check --fixed reverts --cases 2 --terms 2").run(Some(&Rules)).is_ok());
}

#[test]
fn a_panic_is_a_failure() {
    for trial in plan("check --fixed signatures --cases 1 --terms 1").trials() {
        let Failure { complaint, again } = failure(trial, &Wrong::Panics);
        assert_eq!(complaint, "it panicked");
        assert_eq!(plan(&again).trials().count(), 1);
    }
}

fn outside(words: &str) -> Output {
    process::Command::new(env!("CARGO_BIN_EXE_outside"))
        .args(words.split_whitespace())
        .stdin(Stdio::null())
        .output()
        .expect("the program is there")
}

/// Each is refused at once, and the message names what is wrong.
#[test]
fn words_that_are_refused() {
    let refused = [
        ("", "a command is missing"),
        ("--seed 1", "a command is missing"),
        ("chek", "chek is not a command"),
        ("check 5", "the word 5 is one too many"),
        ("check --case 5", "--case is unknown here"),
        ("check --cases", "--cases needs a value"),
        ("check --cases five", "--cases needs a number, not five"),
        ("check --cases --terms 5", "--cases needs a number, not --terms"),
        ("check --seed 1 --seed 2", "--seed is unknown here, or given twice"),
        ("check --seed=1", "--seed=1 is unknown here"),
        ("check -h", "the word -h is one too many"),
        ("check --every-blank no", "--every-blank has the value yes or is left out, and not no"),
        ("check --fixed revert", "--fixed has the value all or none or one of damages, "),
        ("check --cases 1 --seed 18446744073709551615", "18446744073709551615 is too high a seed for 1 of them"),
        ("generate", "the number of images is missing"),
        ("generate ten", "generate needs a number, not ten"),
        ("generate 0 1", "the word 1 is one too many"),
        ("generate 0 --cases 1", "--cases is unknown here"),
        ("generate --folder 0", "the number of images is missing"),
        ("samples target/nowhere target/else", "the word target/else is one too many"),
        ("samples --folder target/nowhere", "--folder is unknown here"),
        ("describe target/nowhere", "the word target/nowhere is one too many"),
        ("describe --image target/nowhere", "--image is unknown here"),
        ("stores", "what to do with stores is missing"),
        ("stores repair target/nowhere", "stores repair is not a command"),
        ("stores prepare", "the file of calls is missing"),
        ("stores prepare target/nowhere --fault yes", "--fault is unknown here"),
        ("stores replay target/nowhere --calls 5", "--calls is unknown here"),
        ("stores replay target/nowhere --fault no", "--fault has the value yes or is left out, and not no"),
        ("stores judge target/nowhere target/else", "the word target/else is one too many"),
    ];
    for (words, message) in refused {
        let output = outside(words);
        let said = String::from_utf8_lossy(&output.stderr);
        assert!(!output.status.success(), "{words}: accepted");
        assert!(said.starts_with(message) && said.contains("\nusage:\n"), "{words}: {said}");
        assert!(output.stdout.is_empty(), "{words}: it did something");
    }
}

#[test]
fn words_that_are_taken() {
    for words in [
        "check --fixed none --cases 2 --terms 1 --seed 9",
        "check --fixed reverts --cases 0 --terms 0",
        "generate 0 --seed 5",
        "describe",
    ] {
        let output = outside(words);
        assert!(output.status.success(), "{words}: {}", String::from_utf8_lossy(&output.stderr));
        assert!(!output.stdout.is_empty(), "{words}: nothing was printed");
    }
}
