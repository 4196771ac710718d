//! A whole check: the fixed trials, random cases, runs of many sessions. What fails says how to make it again, alone.

use std::ops::Range;
use std::panic::{catch_unwind, AssertUnwindSafe};

use crate::subject::Subject;
use crate::trial::blank::run_every_number;
use crate::trial::fixed::{FixedTrial, FIXED_TRIALS};
use crate::trial::run_case;
use crate::trial::tally::Tally;
use crate::trial::term::run_term;
use crate::words::{seeds, Words};

const DEFAULT_CASES: u64 = 3000;
const DEFAULT_TERMS: u64 = 2000;

/// What a check is to make.
pub struct Plan {
    pub fixed: &'static [FixedTrial],
    /// The blank images of every number of blocks.
    pub every_blank: bool,
    /// The seeds of random cases.
    pub cases: Range<u64>,
    /// The seeds of runs of many sessions.
    pub terms: Range<u64>,
}

impl Plan {
    pub fn from_words(mut words: Words) -> Result<Plan, String> {
        let fixed = choose_fixed(words.option("--fixed")?.as_deref().unwrap_or("all"))?;
        let every_blank = words.yes("--every-blank")?;
        let cases = words.number("--cases", DEFAULT_CASES)?;
        let terms = words.number("--terms", DEFAULT_TERMS)?;
        let seed = words.number("--seed", 1)?;
        words.end()?;
        Ok(Plan { fixed, every_blank, cases: seeds(seed, cases)?, terms: seeds(seed, terms)? })
    }

    /// All that it makes, in its order.
    pub fn trials(&self) -> impl Iterator<Item = Trial> {
        let fixed = self.fixed.iter().map(Trial::Fixed);
        let every_blank = self.every_blank.then_some(Trial::EveryBlank);
        let cases = self.cases.clone().map(Trial::Case);
        let terms = self.terms.clone().map(Trial::Term);
        fixed.chain(every_blank).chain(cases).chain(terms)
    }

    /// Makes all of them, up to the first that fails.
    pub fn run(&self, subject: Option<&dyn Subject>) -> Result<Tally, Failure> {
        let mut tally = Tally::default();
        self.trials().try_for_each(|trial| trial.run(subject, &mut tally))?;
        Ok(tally)
    }
}

/// All fixed trials, none, or the one of this name.
fn choose_fixed(name: &str) -> Result<&'static [FixedTrial], String> {
    let one = FIXED_TRIALS.iter().find(|trial| trial.name == name).map(std::slice::from_ref);
    match name {
        "all" => Ok(FIXED_TRIALS),
        "none" => Ok(&[]),
        _ => one.ok_or_else(|| {
            let names: Vec<&str> = FIXED_TRIALS.iter().map(|trial| trial.name).collect();
            format!("--fixed has the value all or none or one of {}, and not {name}", names.join(", "))
        }),
    }
}

/// One trial of a check.
#[derive(Clone, Copy)]
pub enum Trial {
    Fixed(&'static FixedTrial),
    EveryBlank,
    Case(u64),
    Term(u64),
}

/// What went wrong, and the words that make the same trial again and no other.
#[derive(Debug, PartialEq, Eq)]
pub struct Failure {
    pub complaint: String,
    pub again: String,
}

impl Trial {
    /// Makes it. A panic is a failure as any other, so that it too is followed by the words that make it again.
    pub fn run(self, subject: Option<&dyn Subject>, tally: &mut Tally) -> Result<(), Failure> {
        let made = catch_unwind(AssertUnwindSafe(|| match self {
            Trial::Fixed(trial) => trial.run(subject, tally),
            Trial::EveryBlank => run_every_number(subject, tally),
            Trial::Case(seed) => run_case(seed, subject, tally),
            Trial::Term(seed) => run_term(seed, subject, tally),
        }));
        made.unwrap_or_else(|_| Err("it panicked".into()))
            .map_err(|complaint| Failure { complaint, again: self.words() })
    }

    fn words(self) -> String {
        match self {
            Trial::Fixed(trial) => format!("check --fixed {} --cases 0 --terms 0", trial.name),
            Trial::EveryBlank => "check --fixed none --every-blank yes --cases 0 --terms 0".into(),
            Trial::Case(seed) => format!("check --fixed none --cases 1 --terms 0 --seed {seed}"),
            Trial::Term(seed) => format!("check --fixed none --cases 0 --terms 1 --seed {seed}"),
        }
    }
}
