//! What a revert goes by must be forgotten, to stay so, before the next session's first store. The library cannot tell
//! by itself: after a crash that left the table and took the blocks, the header before the last commit still fits its
//! table, and the blocks are gone.

use outside::rules::faults::faults;
use power::disk::{Operation, RecordingDisk};
use teplovist::{Error, Image, ImageFile, Kind, Partition, Refusal, Session};

/// One session with one write.
fn save(file: &mut ImageFile<RecordingDisk>, byte: u8) -> Result<(), Error> {
    file.begin()?;
    file.write(Partition::A, 0, &[byte; 0x1000])?;
    file.commit()
}

/// The image after two commits, of which the second has lost its header and its table, and the memory of the first.
fn crashed() -> Result<(Vec<u8>, Session), Error> {
    let disk = RecordingDisk::default();
    let mut file = ImageFile::on_disk(disk.clone(), Image::blank(Kind::Disa, 1)?.into_inner());
    save(&mut file, 1)?;
    let memory = file.session().clone();
    disk.take_record();
    let mut image = file.image()?.bytes().to_vec();
    let table = Image::new(&image).open()?.inactive_extent();
    save(&mut file, 2)?;
    for operation in disk.take_record() {
        let Operation::Write { place, bytes } = operation else { continue };
        if place as u64 >= table.end() {
            image[place..place + bytes.len()].copy_from_slice(&bytes);
        }
    }
    Ok((image, memory))
}

#[test]
fn a_memory_that_outlives_a_crash_harms() -> Result<(), Error> {
    let (mut image, mut memory) = crashed()?;
    assert_eq!(faults(&image), Ok(Vec::new()), "what is committed is whole");
    Image::new(&mut image).revert(&mut memory)?;
    assert_ne!(faults(&image), Ok(Vec::new()), "a step back would not be");
    Ok(())
}

#[test]
fn a_memory_that_was_forgotten_does_not() -> Result<(), Error> {
    let (mut image, _) = crashed()?;
    assert_eq!(Image::new(&mut image).revert(&mut Session::new()), Err(Refusal::NothingToRevert));
    assert_eq!(faults(&image), Ok(Vec::new()));
    Ok(())
}
