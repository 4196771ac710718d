//! A command: what it takes, what its help says, and what it does.

use super::answer::Answer;
use super::arguments::{Arguments, Form};
use super::failure::Failure;

pub struct Command {
    pub form: Form,
    /// What follows its name, as help shows it.
    pub usage: &'static str,
    /// One line for the list of commands.
    pub summary: &'static str,
    /// What else is to be known, and examples.
    pub details: &'static str,
    pub run: fn(&Arguments) -> Outcome,
}

pub type Outcome = Result<Box<dyn Answer>, Failure>;
