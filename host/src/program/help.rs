//! `help`, `--help` and `--version`.

use std::ffi::OsString;
use std::io::{self, Write};

use super::answer::Answer;
use super::arguments::{shown, suggestion};
use super::command::Command;
use super::failure::Failure;
use super::json::{Json, Member};

/// A text and the name that it has in JSON.
pub struct Text {
    pub name: &'static str,
    pub text: String,
}

impl Answer for Text {
    fn plain(&self, out: &mut dyn Write) -> io::Result<()> {
        out.write_all(self.text.as_bytes())
    }

    fn members(&self) -> Vec<Member> {
        vec![(self.name, Json::text(self.text.trim_end()))]
    }
}

pub fn version() -> Text {
    Text { name: "version", text: concat!("teplovist ", env!("CARGO_PKG_VERSION"), "\n").into() }
}

/// The commands, or the help of the one that is asked for.
pub fn help(commands: &[&Command], words: &[OsString]) -> Result<Text, Failure> {
    match words {
        [] => Ok(Text { name: "help", text: overview(commands) }),
        [name] => find_command(commands, name).map(help_of),
        [_, second, ..] => Err(Failure::Usage {
            command: None,
            words: format!("help takes one command's name; {} is one word too many", shown(second)),
        }),
    }
}

pub fn help_of(command: &Command) -> Text {
    let Command { form, usage, summary, details, .. } = command;
    let text = format!("teplovist {} {usage}\n\n{summary}.\n\n{}\n", form.name, details.trim());
    Text { name: "help", text }
}

pub fn find_command<'a>(commands: &[&'a Command], name: &OsString) -> Result<&'a Command, Failure> {
    commands.iter().find(|command| name == command.form.name).copied().ok_or_else(|| {
        let known = commands.iter().map(|command| command.form.name).chain(["help"]);
        let meant = suggestion(&name.to_string_lossy(), known);
        Failure::Usage { command: None, words: format!("there is no command {}{meant}", shown(name)) }
    })
}

fn overview(commands: &[&Command]) -> String {
    let mut text = String::from(
        "teplovist: looks at DISA and DIFF save images and changes them, safe from power failure\n\n\
         teplovist COMMAND IMAGE ...\n\n",
    );
    for command in commands {
        text += &format!("  {:<9} {}\n", command.form.name, command.summary);
    }
    text + "  help      the help of a command, with examples: teplovist help write\n\n\
        --json answers with one JSON object; --version prints the version. Numbers are decimal or 0x...\n\n\
        examples:\n  \
        teplovist new my.img --kind disa --blocks 16\n  \
        echo hello | teplovist write my.img --at 0x100\n  \
        teplovist read my.img --at 0x100 --length 6\n  \
        teplovist revert my.img\n\n\
        exit statuses: 0 done; 1 the answer is no (faults, or no such name); 2 wrong usage; 3 the library refused;\n\
        4 input or output error, the image is unchanged; 5 a store failed, the header may or may not have landed\n"
}
