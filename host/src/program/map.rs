//! `map`: a picture of an image.

use std::io::{self, Write};
use std::path::PathBuf;

use teplovist::{map, ImageFile};

use super::answer::Answer;
use super::arguments::{Arguments, Form};
use super::command::{Command, Outcome};
use super::json::{Json, Member};
use super::output::{output_file, store, write_bytes_or_place, OUTPUT};

pub const COMMAND: Command = Command {
    form: Form { name: "map", words: 1..=1, options: &[OUTPUT], flags: &[] },
    usage: "IMAGE [-o FILE]",
    summary: "a picture of an image as SVG: where all lies, what is live, which blocks are verified",
    details: "\
The picture stands alone: any browser shows it, with a word on each part where the pointer rests.

examples:
  teplovist map samples/disa-two.img -o disa-two.svg
  teplovist map my.img > my.svg",
    run,
};

struct Picture {
    svg: String,
    file: Option<PathBuf>,
}

fn run(arguments: &Arguments) -> Outcome {
    let path = output_file(arguments)?;
    let file = ImageFile::open(arguments.image())?;
    let svg = map(&file.image()?)?;
    if let Some(path) = &path {
        store(path, svg.as_bytes())?;
    }
    Ok(Box::new(Picture { svg, file: path }))
}

impl Answer for Picture {
    fn plain(&self, out: &mut dyn Write) -> io::Result<()> {
        write_bytes_or_place(out, self.svg.as_bytes(), self.file.as_deref())
    }

    fn members(&self) -> Vec<Member> {
        let file = self.file.as_ref().map(|path| Json::text(path.to_string_lossy()));
        let svg = if file.is_none() { Json::text(&self.svg) } else { Json::Null };
        vec![("length", (self.svg.len() as u64).into()), ("svg", svg), ("file", file.into())]
    }
}
