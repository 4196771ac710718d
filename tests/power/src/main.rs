//! The command `power`: power failures on a simulated disk, failing stores and syncs, and a saving process that is
//! killed.

use std::process::ExitCode;
use std::sync::atomic::{AtomicBool, AtomicU64, Ordering};
use std::sync::Mutex;
use std::time::Instant;

use outside::words::Words;
use power::command::{Command, DEFAULT_FAILURES, DEFAULT_IMAGES, USAGE};
use power::failing::run_failures;
use power::host::nothing_between;
use power::killed::{keep_saving, report_kills};
use power::scenario::run_scenario;
use power::tally::{Tally, CRASHES, ERRORS, FAILURES, IMAGES};

fn main() -> ExitCode {
    let outcome = match Command::from_words(Words::new(std::env::args().skip(1))) {
        Ok(command) => run(command),
        Err(message) => Err(format!("{message}\n{USAGE}")),
    };
    match outcome {
        Ok(()) => ExitCode::SUCCESS,
        Err(message) => {
            eprintln!("{message}");
            ExitCode::FAILURE
        }
    }
}

fn run(command: Command) -> Result<(), String> {
    match command {
        Command::Crashes { images, seed, threads } => crashes(images, seed, threads),
        Command::Errors { failures, seed } => errors(failures, seed),
        Command::Killed { rounds, seed } => killed(rounds, seed),
        Command::Saver { image, seed } => keep_saving(image, seed),
    }
}

fn crashes(images: u64, seed: u64, threads: u64) -> Result<(), String> {
    let again = |seed| format!("crashes --images 1 --seed {seed}");
    let run = Run {
        seed,
        enough: images,
        counted: IMAGES,
        scenario: &|seed, tally| run_scenario(seed, nothing_between, tally),
    };
    let tally = run.on_threads(threads, &again)?;
    all_met(&tally, &CRASHES, images >= DEFAULT_IMAGES)
}

fn errors(failures: u64, seed: u64) -> Result<(), String> {
    let again = |seed| format!("errors --failures 1 --seed {seed}");
    let run = Run {
        seed,
        enough: failures,
        counted: FAILURES,
        scenario: &|seed, tally| run_failures(seed, nothing_between, tally),
    };
    let tally = run.on_threads(1, &again)?;
    all_met(&tally, &ERRORS, failures >= DEFAULT_FAILURES)
}

/// The moments of a kill are not the seed's alone, so the same seed may meet others.
fn killed(rounds: u64, seed: u64) -> Result<(), String> {
    let seen = report_kills(rounds, seed).map_err(|complaint| {
        format!("{complaint}\nagain: cargo run --offline --release -- killed --rounds {rounds} --seed {seed}")
    })?;
    let met = seen.inside_a_save > 0 && seen.reads > 0 && seen.saves > 0;
    if rounds >= ROUNDS_THAT_MEET_ALL && !met {
        return Err("no kill fell inside a save, or nothing was saved or read".into());
    }
    Ok(())
}

/// So many kills fall inside a save now and then.
const ROUNDS_THAT_MEET_ALL: u64 = 100;

/// A long run must have met everything that it is there for.
fn all_met(tally: &Tally, names: &[&str], long: bool) -> Result<(), String> {
    match tally.missing(names) {
        Some(name) if long => Err(format!("there were no {name}")),
        _ => Ok(()),
    }
}

/// Scenarios with seeds in a row, until there was enough of what is counted.
struct Run<'a> {
    seed: u64,
    enough: u64,
    counted: &'static str,
    scenario: &'a (dyn Fn(u64, &mut Tally) -> Result<(), String> + Sync),
}

impl Run<'_> {
    /// `again` says by which arguments the scenario of a seed is run again, alone.
    fn on_threads(&self, threads: u64, again: &(dyn Fn(u64) -> String + Sync)) -> Result<Tally, String> {
        let started = Instant::now();
        let (next, count, failed) = (AtomicU64::new(self.seed), AtomicU64::new(0), AtomicBool::new(false));
        let total = Mutex::new(Tally::default());
        let work = || -> Result<(), String> {
            while count.load(Ordering::Relaxed) < self.enough && !failed.load(Ordering::Relaxed) {
                let seed = next.fetch_add(1, Ordering::Relaxed);
                let mut tally = Tally::default();
                let outcome = (self.scenario)(seed, &mut tally);
                count.fetch_add(tally.count(self.counted), Ordering::Relaxed);
                total.lock().expect("no thread panics while it adds").add(&tally);
                outcome.map_err(|complaint| {
                    failed.store(true, Ordering::Relaxed);
                    format!("{complaint}\nagain: cargo run --offline --release -- {}", again(seed))
                })?;
            }
            Ok(())
        };
        std::thread::scope(|scope| {
            let workers: Vec<_> = (0..threads).map(|_| scope.spawn(work)).collect();
            workers.into_iter().try_for_each(|worker| worker.join().expect("a scenario does not panic"))
        })?;
        let tally = total.into_inner().expect("all threads are done");
        let seconds = started.elapsed().as_secs_f64();
        println!(
            "{} {} in {seconds:.1} s on {threads} thread(s), from seed {}",
            tally.count(self.counted),
            self.counted,
            self.seed
        );
        print!("{tally}");
        Ok(tally)
    }
}
