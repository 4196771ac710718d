//! What the program is asked to do, in the words that it is called with.

use std::ops::Range;
use std::path::PathBuf;

use crate::check::Plan;
use crate::words::{parsed, seeds, Words};

pub const USAGE: &str = "usage:
  outside generate N [--seed S] [--folder F]   write N valid images into F (default target/images)
  outside check [--cases N] [--terms N] [--seed S]   run N random cases (default 3000) and N runs of many sessions
                                               (default 2000) from seed S on (default 1)
          [--fixed TRIALS]                     before them all fixed trials (default all), none, or the one of this name
          [--every-blank yes]                  and make the blank image of every number of blocks
  outside samples [FOLDER]                     write the sample images (default samples at the repository's root)
  outside describe < IMAGE                     print what the describing program must print
  outside stores prepare FILE [--calls N] [--seed S]   write N calls (default 250) into FILE
  outside stores replay FILE [--fault yes]     make them on the library, each between two marks; with a store too many
  outside stores judge FILE < TRACE            judge every store that a trace of the replay has";

const DEFAULT_IMAGES: &str = "target/images";
const DEFAULT_SAMPLES: &str = concat!(env!("CARGO_MANIFEST_DIR"), "/../../samples");
const DEFAULT_TRACED_CALLS: u64 = 250;

pub enum Command {
    Generate { seeds: Range<u64>, folder: PathBuf },
    Check(Plan),
    Samples { folder: PathBuf },
    Describe,
    PrepareStores { file: String, seed: u64, calls: u64 },
    ReplayStores { file: String, fault: bool },
    JudgeStores { file: String },
}

impl Command {
    /// Words that the command has no use for are refused.
    pub fn from_words(mut words: Words) -> Result<Command, String> {
        match words.plain().as_deref() {
            Some("generate") => generate(words),
            Some("check") => Plan::from_words(words).map(Command::Check),
            Some("samples") => samples(words),
            Some("describe") => words.end().map(|()| Command::Describe),
            Some("stores") => stores(words),
            Some(other) => Err(format!("{other} is not a command")),
            None => Err("a command is missing".into()),
        }
    }
}

fn generate(mut words: Words) -> Result<Command, String> {
    let seed = words.number("--seed", 1)?;
    let folder = words.option("--folder")?.map_or(DEFAULT_IMAGES.into(), PathBuf::from);
    let count = last(words)?.ok_or("the number of images is missing")?;
    Ok(Command::Generate { seeds: seeds(seed, parsed("generate", &count)?)?, folder })
}

fn samples(words: Words) -> Result<Command, String> {
    let folder = last(words)?.map_or(DEFAULT_SAMPLES.into(), PathBuf::from);
    Ok(Command::Samples { folder })
}

fn stores(mut words: Words) -> Result<Command, String> {
    let file = |words| last(words)?.ok_or("the file of calls is missing".to_string());
    match words.plain().as_deref() {
        Some("prepare") => {
            let calls = words.number("--calls", DEFAULT_TRACED_CALLS)?;
            let seed = words.number("--seed", 1)?;
            Ok(Command::PrepareStores { file: file(words)?, seed, calls })
        }
        Some("replay") => {
            let fault = words.yes("--fault")?;
            Ok(Command::ReplayStores { file: file(words)?, fault })
        }
        Some("judge") => Ok(Command::JudgeStores { file: file(words)? }),
        Some(other) => Err(format!("stores {other} is not a command")),
        None => Err("what to do with stores is missing".into()),
    }
}

/// The only plain word that is left, or none.
fn last(mut words: Words) -> Result<Option<String>, String> {
    let word = words.plain();
    words.end().map(|()| word)
}
