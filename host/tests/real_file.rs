//! Images in real files: locks, files that are no images, files that somebody cut or let grow, and what is remembered
//! beside them.

mod support;

use std::fs::{self, OpenOptions};
use std::io;
use std::path::Path;

use support::{sample, Folder};
use teplovist::{memory, Error, ImageFile, Partition, Refusal, Session};

const SAMPLE: &str = "disa-one.img";

fn save(file: &mut ImageFile, text: &[u8]) -> Result<(), Error> {
    file.begin()?;
    file.write(Partition::A, 0, text)?;
    file.commit()
}

fn read(path: &Path, length: usize) -> Vec<u8> {
    let mut bytes = vec![0; length];
    let file = ImageFile::open(path).expect("nobody has it open");
    file.image().expect("nothing failed").read(Partition::A, 0, &mut bytes).expect("the block is verified");
    bytes
}

#[test]
fn a_save_changes_the_file_and_not_its_length() {
    let folder = Folder::new("save");
    let path = folder.file("save.img", &sample(SAMPLE));
    let mut file = ImageFile::open_to_write(&path).expect("nobody has it open");
    save(&mut file, b"first").expect("there is room");
    save(&mut file, b"second").expect("there is room");
    let shown = file.image().expect("nothing failed").bytes().to_vec();
    drop(file);
    assert_eq!(read(&path, 6), b"second");
    assert_eq!(fs::read(&path).expect("it is there"), shown);
    assert_eq!(shown.len(), sample(SAMPLE).len());
}

#[test]
fn a_lock_is_said_and_not_waited_for() {
    let folder = Folder::new("locks");
    let path = folder.file("save.img", &sample(SAMPLE));
    let writer = ImageFile::open_to_write(&path).expect("nobody has it open");
    for opened in [ImageFile::open(&path), ImageFile::open_to_write(&path)] {
        let error = opened.expect_err("it is locked");
        assert!(matches!(&error, Error::Locked { path: locked } if *locked == path));
        assert!(error.to_string().contains("somebody else has"), "{error}");
    }
    drop(writer);
    let _readers = [ImageFile::open(&path), ImageFile::open(&path)].map(|reader| reader.expect("readers share"));
    assert!(matches!(ImageFile::open_to_write(&path), Err(Error::Locked { .. })));
}

#[test]
fn a_file_that_was_opened_to_read_is_not_written() {
    let folder = Folder::new("read-only");
    let path = folder.file("save.img", &sample(SAMPLE));
    let mut file = ImageFile::open(&path).expect("nobody has it open");
    let error = save(&mut file, b"no").expect_err("it is open to read");
    assert!(matches!(&error, Error::Before(source) if source.kind() == io::ErrorKind::PermissionDenied), "{error}");
    assert_eq!(fs::read(&path).expect("it is there"), sample(SAMPLE));
}

#[test]
fn a_file_of_another_length_is_left_alone() {
    let length = sample(SAMPLE).len() as u64;
    for changed in [0, 0x200, length - 1, length + 1] {
        let folder = Folder::new("length");
        let path = folder.file("save.img", &sample(SAMPLE));
        let mut file = ImageFile::open_to_write(&path).expect("nobody has it open");
        let careless = OpenOptions::new().write(true).open(&path).expect("it does not ask for the lock");
        careless.set_len(changed).expect("it may");
        let cut = fs::read(&path).expect("it is there");
        let error = save(&mut file, b"no").expect_err("the length has changed");
        assert!(matches!(error, Error::Before(_)) && error.to_string().contains("bytes long now"), "{error}");
        assert_eq!(fs::read(&path).expect("it is there"), cut);
    }
}

#[test]
fn what_is_no_regular_file_is_not_opened() {
    let folder = Folder::new("kinds");
    for path in [folder.path(""), "/dev/null".into(), "/dev/zero".into()] {
        for opened in [ImageFile::open(&path), ImageFile::open_to_write(&path)] {
            let error = opened.expect_err("it is no regular file");
            assert!(error.to_string().contains("it is no regular file"), "{error}");
        }
    }
    let error = ImageFile::open(folder.path("nothing")).expect_err("it is not there");
    assert!(matches!(error, Error::Io { what: "open", source, .. } if source.kind() == io::ErrorKind::NotFound));
}

#[test]
fn a_length_that_no_image_has_is_refused() {
    let folder = Folder::new("refused");
    let short = folder.file("short", &[0; 0x1FF]);
    let opened = ImageFile::open(&short).expect("any bytes can be read");
    assert_eq!(opened.image().expect("nothing failed").open(), Err(Refusal::Length));
    let empty = folder.file("empty", &[]);
    let mut opened = ImageFile::open_to_write(&empty).expect("any bytes can be read");
    assert!(matches!(opened.begin(), Err(Error::Refused(Refusal::Length))));

    let long = folder.file("long", &[]);
    OpenOptions::new()
        .write(true)
        .open(&long)
        .and_then(|file| file.set_len(0x400_0001))
        .expect("a file may have a hole");
    assert!(matches!(ImageFile::open(&long), Err(Error::Refused(Refusal::Length))));
}

#[test]
fn a_remembered_session_is_reverted_after_the_file_was_opened_again() {
    let folder = Folder::new("memory");
    let path = folder.file("save.img", &sample(SAMPLE));
    let before = read(&path, 9);
    let mut file = ImageFile::open_to_write(&path).expect("nobody has it open");
    save(&mut file, b"regretted").expect("there is room");
    memory::remember(&path, file.session()).expect("there is room");
    drop(file);
    assert_eq!(read(&path, 9), b"regretted");

    let mut file = ImageFile::open_to_write(&path).expect("nobody has it open");
    assert!(matches!(file.revert(), Err(Error::Refused(Refusal::NothingToRevert))));
    file.set_session(memory::recall(&path));
    file.revert().expect("it fits");
    drop(file);
    assert_eq!(read(&path, 9), before);
}

#[test]
fn what_is_no_memory_is_not_recalled() {
    let folder = Folder::new("forgotten");
    let path = folder.file("save.img", &sample(SAMPLE));
    assert_eq!(memory::recall(&path), Session::new());
    let begun = [1; 513];
    for bytes in [&begun[..], &[0; 512], &[0; 514], &[]] {
        fs::write(memory::path_of(&path), bytes).expect("there is room");
        assert_eq!(memory::recall(&path), Session::new());
    }
    // An idle one is recalled whatever it says: the library finds that it does not fit.
    let mut forged = [7; 513];
    forged[0] = 0;
    fs::write(memory::path_of(&path), forged).expect("there is room");
    let mut file = ImageFile::open_to_write(&path).expect("nobody has it open");
    file.set_session(memory::recall(&path));
    assert_eq!(*file.session(), Session::from_bytes(forged));
    assert!(matches!(file.revert(), Err(Error::Refused(Refusal::NothingToRevert))));
    save(&mut file, b"all the same").expect("there is room");
}
