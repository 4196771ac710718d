//! The command `outside`: generates images, checks the rules on random cases, describes an image.

use std::io::Read;
use std::ops::Range;
use std::path::Path;
use std::process::ExitCode;
use std::time::Instant;

use outside::check::{Failure, Plan};
use outside::command::{Command, USAGE};
use outside::generate::random::Random;
use outside::generate::samples::samples;
use outside::generate::shape::Wanted;
use outside::generate::valid_image;
use outside::program::{program_output, LONGEST_INPUT};
use outside::stores::judge::judge;
use outside::stores::prepare::{from_bytes, prepare, to_bytes, Prepared};
use outside::subject::Subject;
use outside::words::Words;

fn main() -> ExitCode {
    let outcome = match Command::from_words(Words::new(std::env::args().skip(1))) {
        Ok(command) => run(command),
        Err(message) => Err(format!("{message}\n{USAGE}")),
    };
    match outcome {
        Ok(()) => ExitCode::SUCCESS,
        Err(message) => {
            eprintln!("{message}");
            ExitCode::FAILURE
        }
    }
}

fn run(command: Command) -> Result<(), String> {
    match command {
        Command::Generate { seeds, folder } => generate(seeds, &folder),
        Command::Check(plan) => check(&plan),
        Command::Samples { folder } => write_samples(&folder),
        Command::Describe => describe(),
        Command::PrepareStores { file, seed, calls } => {
            let calls = to_bytes(&prepare(seed, calls as usize));
            std::fs::write(&file, calls).map_err(|error| format!("{file}: {error}"))
        }
        Command::ReplayStores { file, fault } => replay_calls(&prepared_calls(&file)?, fault),
        Command::JudgeStores { file } => judge_stores(&prepared_calls(&file)?),
    }
}

fn save(folder: &Path, name: &str, image: &[u8]) -> Result<(), String> {
    let path = folder.join(name);
    std::fs::create_dir_all(folder)
        .and_then(|()| std::fs::write(&path, image))
        .map_err(|error| format!("{}: {error}", path.display()))
}

fn generate(seeds: Range<u64>, folder: &Path) -> Result<(), String> {
    for seed in seeds.clone() {
        let image = valid_image(&mut Random::new(seed), &Wanted::default()).image;
        save(folder, &format!("{seed}.img"), &image)?;
    }
    println!("{} images in {}", length(&seeds), folder.display());
    Ok(())
}

fn write_samples(folder: &Path) -> Result<(), String> {
    for (name, image) in samples() {
        save(folder, name, &image)?;
        println!("{name}: {} bytes", image.len());
    }
    Ok(())
}

#[cfg(feature = "gateway")]
fn subject() -> Option<&'static dyn Subject> {
    Some(&outside::boundary::Library)
}

#[cfg(not(feature = "gateway"))]
fn subject() -> Option<&'static dyn Subject> {
    None
}

fn check(plan: &Plan) -> Result<(), String> {
    let start = Instant::now();
    let tally = plan.run(subject()).map_err(|failure| said(&failure))?;
    println!("{tally}");
    println!(
        "fixed trials {}, cases {}, runs of many sessions {}, from seed {} on: all agree with {} ({:.1} s)",
        plan.fixed.len(),
        length(&plan.cases),
        length(&plan.terms),
        plan.cases.start,
        if subject().is_some() { "library and reference model" } else { "reference model" },
        start.elapsed().as_secs_f64()
    );
    Ok(())
}

fn length(seeds: &Range<u64>) -> u64 {
    seeds.end - seeds.start
}

/// What went wrong, and how to see it again with this very program, from any folder.
fn said(Failure { complaint, again }: &Failure) -> String {
    let program = std::env::current_exe().map_or("outside".into(), |path| path.display().to_string());
    format!("FAILED: {complaint}\nagain: {program} {again}")
}

/// Prints what the program of the paper prints for the image on standard input.
fn describe() -> Result<(), String> {
    let mut image = Vec::new();
    std::io::stdin().take(LONGEST_INPUT as u64 + 1).read_to_end(&mut image).map_err(|error| error.to_string())?;
    print!("{}", program_output(&image));
    Ok(())
}

/// The calls whose stores are seen one by one: tests/stores_at_run.sh has the order.
fn prepared_calls(file: &str) -> Result<Vec<Prepared>, String> {
    std::fs::read(file).map(|bytes| from_bytes(&bytes)).map_err(|error| format!("{file}: {error}"))
}

fn judge_stores(calls: &[Prepared]) -> Result<(), String> {
    for (kind, seen) in judge(calls, &mut std::io::stdin().lock())? {
        println!("{kind}: {} calls, {} accepted, {} bytes stored", seen.calls, seen.accepted, seen.stored);
    }
    Ok(())
}

#[cfg(feature = "gateway")]
fn replay_calls(calls: &[Prepared], fault: bool) -> Result<(), String> {
    outside::stores::replay::replay(calls, fault)
}

#[cfg(not(feature = "gateway"))]
fn replay_calls(_calls: &[Prepared], _fault: bool) -> Result<(), String> {
    Err("the replay needs the feature gateway".into())
}
