//! What a command answers, and how it is printed.

use std::io::{self, BufWriter, ErrorKind, Write};

use super::failure::{Failure, Status};
use super::json::{Json, Member};

pub trait Answer {
    /// For people, or the bytes that were asked for.
    fn plain(&self, out: &mut dyn Write) -> io::Result<()>;

    /// For programs: the members behind `ok`.
    fn members(&self) -> Vec<Member>;

    fn status(&self) -> Status {
        Status::Done
    }

    /// Whether the command has changed an image: then a failing print must not say that none has changed.
    fn has_changed_an_image(&self) -> bool {
        false
    }
}

#[derive(Clone, Copy)]
pub enum Style {
    Plain,
    Json,
}

/// Prints what came of a command, and gives the exit status.
pub fn report(style: Style, outcome: Result<Box<dyn Answer>, Failure>) -> Status {
    match outcome {
        Ok(answer) => match print_answer(style, &*answer) {
            Ok(()) => answer.status(),
            // Nobody reads on: that is no error of this program, and nobody is there to be told.
            Err(error) if error.kind() == ErrorKind::BrokenPipe => answer.status(),
            Err(error) => {
                warn(&format!("cannot write to standard output: {error}"));
                if answer.has_changed_an_image() {
                    answer.status()
                } else {
                    Status::Unchanged
                }
            }
        },
        Err(failure) => {
            if let Style::Json = style {
                // The line on standard error says it too, so a failing print takes nothing away.
                let _ = print_object(false, vec![failure.member()]);
            }
            warn(&failure.to_string());
            failure.status()
        }
    }
}

/// One line on standard error. A file's name may hold a line's end, or what a terminal would take for an order: neither
/// is passed on. Where standard error is closed there is nobody to be told.
pub fn warn(words: &str) {
    let line = words.replace(char::is_control, " ");
    let _ = writeln!(io::stderr(), "teplovist: {line}");
}

fn print_answer(style: Style, answer: &dyn Answer) -> io::Result<()> {
    match style {
        Style::Plain => {
            let mut out = BufWriter::new(io::stdout().lock());
            answer.plain(&mut out)?;
            out.flush()
        }
        Style::Json => print_object(answer.status() == Status::Done, answer.members()),
    }
}

fn print_object(ok: bool, members: Vec<Member>) -> io::Result<()> {
    let mut all = vec![("ok", ok.into())];
    all.extend(members);
    let mut out = BufWriter::new(io::stdout().lock());
    writeln!(out, "{}", Json::Object(all))?;
    out.flush()
}
