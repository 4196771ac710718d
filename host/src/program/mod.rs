//! The program: finds the command that is asked for, runs it, and reports what came of it.

mod answer;
mod arguments;
mod command;
mod committing;
mod describe;
mod failure;
mod help;
mod hex;
mod json;
mod map;
mod names;
mod new;
mod opening;
mod output;
mod read;
mod revert;
mod sign;
mod signing;
mod tree;
mod verify;
mod write;

use std::ffi::OsString;

use answer::{report, Style};
use arguments::{Arguments, END_OF_OPTIONS, HELP, JSON};
use command::{Command, Outcome};
use failure::Failure;

/// In the order in which help lists them.
const COMMANDS: [&Command; 10] = [
    &describe::COMMAND,
    &verify::COMMAND,
    &read::COMMAND,
    &write::COMMAND,
    &revert::COMMAND,
    &new::COMMAND,
    &names::LS,
    &names::FIND,
    &sign::COMMAND,
    &map::COMMAND,
];

/// Runs the program with what stands behind its name, and gives the exit status.
pub fn run(arguments: &[OsString]) -> u8 {
    // For programs a wrong usage is told in JSON too, whatever is wrong; so this is looked for first.
    let mut options = arguments.iter().take_while(|argument| *argument != END_OF_OPTIONS);
    let style = if options.any(|argument| argument == JSON) { Style::Json } else { Style::Plain };
    let words = &arguments[arguments.iter().take_while(|argument| *argument == JSON).count()..];
    report(style, run_command(words)) as u8
}

fn run_command(words: &[OsString]) -> Outcome {
    let Some((name, rest)) = words.split_first() else {
        return Err(Failure::Usage { command: None, words: "which command?".into() });
    };
    match name.to_str() {
        Some("help" | "--help" | "-h") => {
            let rest: Vec<OsString> = rest.iter().filter(|word| *word != JSON).cloned().collect();
            Ok(Box::new(help::help(&COMMANDS, &rest)?))
        }
        Some("--version" | "-V") => Ok(Box::new(help::version())),
        _ => {
            let command = help::find_command(&COMMANDS, name)?;
            let arguments = Arguments::parse(&command.form, rest)?;
            if arguments.has(HELP) {
                return Ok(Box::new(help::help_of(command)));
            }
            (command.run)(&arguments)
        }
    }
}
