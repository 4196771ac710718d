//! What the program is asked to do, in the words that it is called with.

use std::path::PathBuf;

use outside::words::{parsed, Words};

pub const USAGE: &str = "usage:
  power crashes [--images N] [--seed S] [--threads T]   judge at least N crash images (default 20000)
  power errors [--failures N] [--seed S]                let at least N stores and syncs fail (default 1000)
  power killed [--rounds N] [--seed S]                  kill N processes that save (default 1000)
  power saver IMAGE SEED                                save until killed: what `killed` starts
Seeds count from S on (default 1).";

pub const DEFAULT_IMAGES: u64 = 20_000;
pub const DEFAULT_FAILURES: u64 = 1_000;
const DEFAULT_ROUNDS: u64 = 1_000;

#[derive(Debug, PartialEq, Eq)]
pub enum Command {
    Crashes { images: u64, seed: u64, threads: u64 },
    Errors { failures: u64, seed: u64 },
    Killed { rounds: u64, seed: u64 },
    Saver { image: PathBuf, seed: u64 },
}

impl Command {
    /// Words that the command has no use for are refused.
    pub fn from_words(mut words: Words) -> Result<Command, String> {
        let command = match words.plain().as_deref() {
            Some("crashes") => crashes(&mut words),
            Some("errors") => errors(&mut words),
            Some("killed") => killed(&mut words),
            Some("saver") => saver(&mut words),
            Some(other) => Err(format!("{other} is not a command")),
            None => Err("a command is missing".into()),
        }?;
        words.end().map(|()| command)
    }
}

fn crashes(words: &mut Words) -> Result<Command, String> {
    let images = words.number("--images", DEFAULT_IMAGES)?;
    let seed = words.number("--seed", 1)?;
    let threads = words.number("--threads", 1)?;
    if threads == 0 {
        return Err("--threads needs at least 1: without a thread nothing is judged".into());
    }
    Ok(Command::Crashes { images, seed, threads })
}

fn errors(words: &mut Words) -> Result<Command, String> {
    let failures = words.number("--failures", DEFAULT_FAILURES)?;
    Ok(Command::Errors { failures, seed: words.number("--seed", 1)? })
}

fn killed(words: &mut Words) -> Result<Command, String> {
    let rounds = words.number("--rounds", DEFAULT_ROUNDS)?;
    Ok(Command::Killed { rounds, seed: words.number("--seed", 1)? })
}

fn saver(words: &mut Words) -> Result<Command, String> {
    let image = words.plain().ok_or("the image is missing")?.into();
    let seed = words.plain().ok_or("the seed is missing")?;
    Ok(Command::Saver { image, seed: parsed("saver", &seed)? })
}

#[cfg(test)]
mod tests {
    use super::*;

    fn said(words: &str) -> Result<Command, String> {
        Command::from_words(Words::new(words.split_whitespace()))
    }

    #[test]
    fn a_command_has_its_numbers() {
        let all = Command::Crashes { images: 7, seed: 3, threads: 2 };
        assert_eq!(said("crashes --threads 2 --seed 3 --images 7"), Ok(all));
        assert_eq!(said("crashes"), Ok(Command::Crashes { images: DEFAULT_IMAGES, seed: 1, threads: 1 }));
        assert_eq!(said("errors --failures 5"), Ok(Command::Errors { failures: 5, seed: 1 }));
        assert_eq!(said("killed --rounds 9 --seed 4"), Ok(Command::Killed { rounds: 9, seed: 4 }));
        assert_eq!(said("saver a.img 8"), Ok(Command::Saver { image: "a.img".into(), seed: 8 }));
    }

    #[test]
    fn what_no_command_takes_is_refused() {
        let refused = [
            "",
            "crash",
            "crashes --image 1000000",
            "crashes 1000000",
            "crashes --images",
            "crashes --images many",
            "crashes --seed 1 --seed 2",
            "crashes --failures 1",
            "errors --threads 2",
            "killed --images 1",
            "saver a.img",
            "saver a.img 8 9",
            "saver a.img eight",
        ];
        for words in refused {
            assert!(said(words).is_err(), "{words}");
        }
    }

    #[test]
    fn no_thread_would_judge_nothing() {
        assert!(said("crashes --threads 0").unwrap_err().contains("--threads"));
    }
}
