//! Keys and signers from the command line. A key comes from a file, never from the command line itself: others can see
//! that.

use std::ffi::OsStr;
use std::fs::File;
use std::io::{self, Read};
use std::path::Path;

use teplovist::boundary::KEY_SIZE;
use teplovist::{Key, Signer};

use super::arguments::{read_number, shown, Arguments};
use super::failure::Failure;
use super::hex::from_hex;

pub const KEY_FILE: &str = "--key-file";
pub const SIGNER: &str = "--signer";

/// More than any file that holds a key has: digits, and white space around them.
const LONGEST_KEY_FILE: u64 = 1024;

pub struct Signing {
    pub key: Key,
    pub signer: Signer,
}

/// The key and the signer, if they are given: both or none.
pub fn signing(arguments: &Arguments) -> Result<Option<Signing>, Failure> {
    match (arguments.option(KEY_FILE), signer(arguments)?) {
        (None, None) => Ok(None),
        (Some(path), Some(signer)) => Ok(Some(Signing { key: read_key(arguments, Path::new(path))?, signer })),
        (Some(_), None) => Err(arguments.usage(format!("{KEY_FILE} goes with {SIGNER}: who signs?"))),
        (None, Some(_)) => Err(arguments.usage(format!("{SIGNER} goes with {KEY_FILE}: which file holds the key?"))),
    }
}

pub fn signer(arguments: &Arguments) -> Result<Option<Signer>, Failure> {
    let read = |value| read_signer(value).map_err(|why| arguments.usage(format!("{SIGNER} {why}")));
    arguments.option(SIGNER).map(read).transpose()
}

fn read_key(arguments: &Arguments, path: &Path) -> Result<Key, Failure> {
    let bytes = read_start(path).map_err(|error| Failure::file("read the key file", path, &error))?;
    let key = match <[u8; KEY_SIZE]>::try_from(bytes.as_slice()) {
        Ok(key) => Some(key),
        Err(_) => from_hex(bytes.trim_ascii()).and_then(|bytes| bytes.try_into().ok()),
    };
    let shape = "16 raw bytes or 32 hexadecimal digits";
    key.map(Key::new).ok_or_else(|| arguments.usage(format!("{} holds no key: {shape} are wanted", path.display())))
}

fn read_start(path: &Path) -> io::Result<Vec<u8>> {
    let mut bytes = Vec::new();
    File::open(path)?.take(LONGEST_KEY_FILE).read_to_end(&mut bytes)?;
    Ok(bytes)
}

/// `card`, or a type and its IDs: `title:ID`, `system:ID`, `quota:ID`, `device:ID:FILE:FOLDER`, `database:ID`.
fn read_signer(value: &OsStr) -> Result<Signer, String> {
    const FORMS: &str = "card, title:ID, system:ID, quota:ID, device:ID:FILE:FOLDER or database:ID";
    let text = value.to_str().unwrap_or_default();
    let (name, ids) = text.split_once(':').unwrap_or((text, ""));
    let ids: Vec<&str> = ids.split(':').filter(|_| text.contains(':')).collect();
    match (name, ids.as_slice()) {
        ("card", []) => Ok(Signer::Card),
        ("title", [id]) => Ok(Signer::Title { id: read_id(id)? }),
        ("system", [id]) => Ok(Signer::System { id: read_short_id(id)? }),
        ("quota", [id]) => Ok(Signer::Quota { id: read_id(id)? }),
        ("device", [id, file, folder]) => {
            Ok(Signer::Device { id: read_id(id)?, file: read_short_id(file)?, folder: read_short_id(folder)? })
        }
        ("database", [id]) => Ok(Signer::Database { id: read_short_id(id)? }),
        _ => Err(format!("is {FORMS}, not {}", shown(value))),
    }
}

fn read_id(text: &str) -> Result<u64, String> {
    read_number(OsStr::new(text)).map_err(|why| format!("has an ID that {why}"))
}

fn read_short_id(text: &str) -> Result<u32, String> {
    let id = read_id(text)?;
    u32::try_from(id).map_err(|_| format!("has an ID that is {}: it must be below 2^32", shown(OsStr::new(text))))
}

#[cfg(test)]
mod tests {
    use super::*;

    #[test]
    fn signers_by_their_words() {
        let read = |text: &str| read_signer(OsStr::new(text));
        assert_eq!(read("card"), Ok(Signer::Card));
        assert_eq!(read("title:0x0004000000033500"), Ok(Signer::Title { id: 0x0004_0000_0003_3500 }));
        assert_eq!(read("system:5"), Ok(Signer::System { id: 5 }));
        assert_eq!(read("quota:0xFFFFFFFFFFFFFFFF"), Ok(Signer::Quota { id: u64::MAX }));
        assert_eq!(read("device:1:2:3"), Ok(Signer::Device { id: 1, file: 2, folder: 3 }));
        assert_eq!(read("database:0xFFFFFFFF"), Ok(Signer::Database { id: u32::MAX }));
        for wrong in [
            "",
            "cards",
            "card:",
            "card:1",
            "title",
            "title:",
            "title:1:2",
            "title:0004",
            "system:0x100000000",
            "device:1:2",
        ] {
            assert!(read(wrong).is_err(), "{wrong}");
        }
    }
}
