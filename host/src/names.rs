//! The names of folders and files inside a save.

use crate::boundary::{NAME_RECORD, NAME_SIZE};

/// Whether a name is that of a folder or of a file.
#[derive(Clone, Copy, Debug, PartialEq, Eq, Hash)]
pub enum NameKind {
    Folder,
    File,
}

/// A name of a listing. The root is the first: a folder, number 1, whose name is all zero.
///
/// ```
/// use teplovist::{Name, NameKind};
///
/// let name = Name { kind: NameKind::File, number: 3, name: *b"game\0\0\0\0\0\0\0\0\0\0\0\0" };
/// assert_eq!(name.text(), "game");
/// let name = Name { name: *b"a\xFFb\0c\0\0\0\0\0\0\0\0\0\0\0", ..name };
/// assert_eq!(name.text(), r"a\xffb\x00c");
/// ```
#[derive(Clone, Copy, Debug, PartialEq, Eq, Hash)]
pub struct Name {
    pub kind: NameKind,
    /// The entry's number; files and folders are counted apart.
    pub number: u32,
    /// The 16 bytes as the entry has them.
    pub name: [u8; NAME_SIZE],
}

impl Name {
    /// The name for people to read: without the zeros at its end, and with what is no printable ASCII as `\x00` to
    /// `\xff`.
    pub fn text(&self) -> String {
        let length = self.name.iter().rposition(|byte| *byte != 0).map_or(0, |last| last + 1);
        self.name[..length].iter().map(|byte| readable(*byte)).collect()
    }

    /// Reads a record of the boundary: the kind, the number and the name.
    pub(crate) fn from_record(record: &[u8; NAME_RECORD]) -> Name {
        let [kind, _, _, _, n0, n1, n2, n3, name @ ..] = *record;
        Name {
            kind: if kind == 0 { NameKind::Folder } else { NameKind::File },
            number: u32::from_le_bytes([n0, n1, n2, n3]),
            name,
        }
    }
}

/// A backslash is escaped too, so that no two names read alike.
fn readable(byte: u8) -> String {
    match byte {
        b'\\' => r"\\".to_string(),
        b' '..=b'~' => char::from(byte).to_string(),
        _ => format!(r"\x{byte:02x}"),
    }
}

#[cfg(test)]
mod tests {
    use super::*;

    #[test]
    fn a_record_is_kind_number_name() {
        let mut record = [0; NAME_RECORD];
        record[0] = 1;
        record[4..8].copy_from_slice(&[0x04, 0x03, 0x02, 0x01]);
        record[8..12].copy_from_slice(b"save");
        let name = Name::from_record(&record);
        assert_eq!((name.kind, name.number, name.text().as_str()), (NameKind::File, 0x0102_0304, "save"));
    }

    #[test]
    fn no_two_names_read_alike() {
        let text = |name: [u8; NAME_SIZE]| Name { kind: NameKind::File, number: 0, name }.text();
        assert_eq!(text([0; NAME_SIZE]), "");
        assert_ne!(text(*b"\\x00\0\0\0\0\0\0\0\0\0\0\0\0"), text(*b"\0\0\0\0\0\0\0\0\0\0\0\0\0\0\0\x01"));
        assert_eq!(text(*b"a\\b\0\0\0\0\0\0\0\0\0\0\0\0\0"), r"a\\b");
    }
}
