//! `ls` and `find`: the names inside a save.

use std::ffi::OsStr;
use std::io::{self, Write};
use std::os::unix::ffi::OsStrExt;

use teplovist::boundary::NAME_SIZE;
use teplovist::{Image, ImageFile, NameKind, Refusal};

use super::answer::Answer;
use super::arguments::{read_number, shown, Arguments, Form};
use super::command::{Command, Outcome};
use super::failure::Status;
use super::hex::{from_hex, hex};
use super::json::{Json, Member};
use super::tree::{entries, Entry, ROOT};

pub const LS: Command = Command {
    form: Form { name: "ls", words: 1..=1, options: &[], flags: &[] },
    usage: "IMAGE",
    summary: "the folders and files of a save, with their numbers",
    details: "\
Only a DISA of one partition with internal level 4 holds a save; another image is refused (19). Bytes of a name that
are no plain letters are shown as \\x00 to \\xff.

examples:
  teplovist ls my.img
  teplovist ls my.img --json",
    run: list,
};

pub const FIND: Command = Command {
    form: Form { name: "find", words: 2..=3, options: &[], flags: &[] },
    usage: "IMAGE (PATH | FOLDER-NUMBER NAME)",
    summary: "the number of a file, by its path or by its folder's number and its name; exit status 1 if there is none",
    details: "\
A path begins with a slash: the root. A name has at most 16 bytes; \\x00 to \\xff and \\\\ stand for single bytes, as ls
shows them. The root's number is 1.

examples:
  teplovist find my.img /saves/slot1
  teplovist find my.img 1 readme",
    run: find,
};

type NameBytes = [u8; NAME_SIZE];

struct Listing {
    entries: Vec<Entry>,
}

struct Found(Option<(NameKind, u32)>);

fn list(arguments: &Arguments) -> Outcome {
    let file = ImageFile::open(arguments.image())?;
    Ok(Box::new(Listing { entries: entries(&file.image()?)? }))
}

fn find(arguments: &Arguments) -> Outcome {
    // The form has seen that there are two or three words.
    let (first, second) = (arguments.word(1).unwrap_or_default(), arguments.word(2));
    let wanted = match second {
        Some(name) => Wanted::in_folder(first, name),
        None => Wanted::by_path(first),
    };
    let wanted = wanted.map_err(|why| arguments.usage(why))?;
    let file = ImageFile::open(arguments.image())?;
    Ok(Box::new(Found(wanted.find(&file.image()?)?)))
}

/// What is to be found.
enum Wanted {
    InFolder(u64, NameBytes),
    /// The names from the root on.
    Path(Vec<NameBytes>),
}

impl Wanted {
    fn in_folder(folder: &OsStr, name: &OsStr) -> Result<Wanted, String> {
        let folder = read_number(folder).map_err(|why| format!("the folder's number {why}"))?;
        Ok(Wanted::InFolder(folder, read_name(name.as_bytes())?))
    }

    fn by_path(path: &OsStr) -> Result<Wanted, String> {
        let Some(names) = path.as_bytes().strip_prefix(b"/") else {
            return Err(format!(
                "{} is no path: one begins with a slash; or say a folder's number and a name",
                shown(path)
            ));
        };
        let names = names.split(|byte| *byte == b'/').filter(|name| !name.is_empty());
        Ok(Wanted::Path(names.map(read_name).collect::<Result<_, _>>()?))
    }

    fn find(&self, image: &Image<&[u8]>) -> Result<Option<(NameKind, u32)>, Refusal> {
        match self {
            Wanted::InFolder(folder, name) => find_file(image, *folder, name),
            Wanted::Path(names) => find_path(image, names),
        }
    }
}

fn find_file(image: &Image<&[u8]>, folder: u64, name: &NameBytes) -> Result<Option<(NameKind, u32)>, Refusal> {
    Ok(image.find_file(folder, name)?.map(|number| (NameKind::File, number)))
}

/// Goes down folder by folder. The last name may be a file's, which the library then finds, or a folder's.
fn find_path(image: &Image<&[u8]>, names: &[NameBytes]) -> Result<Option<(NameKind, u32)>, Refusal> {
    let entries = entries(image)?;
    let subfolder = |folder: u32, name: &NameBytes| {
        let mut folders = entries.iter().filter(|entry| entry.name.kind == NameKind::Folder);
        folders.find(|entry| (entry.folder, &entry.name.name) == (Some(folder), name)).map(|entry| entry.name.number)
    };
    let Some((last, above)) = names.split_last() else {
        return Ok(Some((NameKind::Folder, ROOT)));
    };
    let Some(folder) = above.iter().try_fold(ROOT, subfolder) else {
        return Ok(None);
    };
    let file = find_file(image, folder.into(), last)?;
    Ok(file.or_else(|| subfolder(folder, last).map(|number| (NameKind::Folder, number))))
}

/// The bytes of a name as `ls` shows it, with zeros behind them.
fn read_name(text: &[u8]) -> Result<NameBytes, String> {
    let shown = shown(OsStr::from_bytes(text));
    let bytes = unescaped(text)
        .ok_or_else(|| format!("{shown}: a backslash stands before another or before x and two digits"))?;
    let mut name = [0; NAME_SIZE];
    let front = name.get_mut(..bytes.len()).ok_or_else(|| format!("{shown} is longer than {NAME_SIZE} bytes"))?;
    front.copy_from_slice(&bytes);
    Ok(name)
}

fn unescaped(mut text: &[u8]) -> Option<Vec<u8>> {
    let mut bytes = Vec::new();
    while let [first, rest @ ..] = text {
        text = match (first, rest) {
            (b'\\', [b'\\', rest @ ..]) => {
                bytes.push(b'\\');
                rest
            }
            (b'\\', [b'x', high, low, rest @ ..]) => {
                bytes.extend(from_hex(&[*high, *low])?);
                rest
            }
            (b'\\', _) => return None,
            _ => {
                bytes.push(*first);
                rest
            }
        };
    }
    Some(bytes)
}

fn kind_name(kind: NameKind) -> &'static str {
    match kind {
        NameKind::Folder => "folder",
        NameKind::File => "file",
    }
}

impl Answer for Listing {
    fn plain(&self, out: &mut dyn Write) -> io::Result<()> {
        for Entry { name, path, .. } in &self.entries {
            writeln!(out, "{:<6} {:>6}  {path}", kind_name(name.kind), name.number)?;
        }
        Ok(())
    }

    fn members(&self) -> Vec<Member> {
        let names = self.entries.iter().map(|Entry { name, folder, path }| {
            Json::Object(vec![
                ("kind", Json::text(kind_name(name.kind))),
                ("number", u64::from(name.number).into()),
                ("folder", folder.map(u64::from).into()),
                ("path", Json::text(path)),
                ("bytes", Json::Text(hex(&name.name))),
            ])
        });
        vec![("names", Json::List(names.collect()))]
    }
}

impl Answer for Found {
    fn plain(&self, out: &mut dyn Write) -> io::Result<()> {
        match self.0 {
            Some((kind, number)) => writeln!(out, "{} {number}", kind_name(kind)),
            None => writeln!(out, "there is no such name"),
        }
    }

    fn members(&self) -> Vec<Member> {
        let kind = self.0.map(|(kind, _)| Json::text(kind_name(kind)));
        vec![("kind", kind.into()), ("number", self.0.map(|(_, number)| u64::from(number)).into())]
    }

    fn status(&self) -> Status {
        if self.0.is_some() {
            Status::Done
        } else {
            Status::No
        }
    }
}

#[cfg(test)]
mod tests {
    use super::*;

    #[test]
    fn names_as_they_are_shown() {
        let name = |text: &str| read_name(text.as_bytes()).ok();
        assert_eq!(name("save"), Some(*b"save\0\0\0\0\0\0\0\0\0\0\0\0"));
        assert_eq!(name(r"a\\b\xfF\x2f"), Some(*b"a\\b\xff/\0\0\0\0\0\0\0\0\0\0\0"));
        assert_eq!(name("0123456789abcdef"), Some(*b"0123456789abcdef"));
        assert_eq!(name(""), Some([0; NAME_SIZE]));
        for wrong in ["0123456789abcdefg", r"a\", r"\n", r"\x1", r"\xzz"] {
            assert_eq!(name(wrong), None, "{wrong}");
        }
    }

    #[test]
    fn paths_begin_with_a_slash() {
        let names = |path: &str| match Wanted::by_path(OsStr::new(path)) {
            Ok(Wanted::Path(names)) => names.len(),
            _ => usize::MAX,
        };
        assert_eq!(
            [names("/"), names("/a"), names("/a//b/"), names("a/b"), names("")],
            [0, 1, 2, usize::MAX, usize::MAX]
        );
    }
}
