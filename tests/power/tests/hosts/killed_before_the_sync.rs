//! A process is killed between the header's store and its sync: others read the new header, but it is not on the disk
//! yet. Then another process saves, over what was live before that header, and power fails. That is why opening to
//! write syncs first.

use outside::generate::random::Random;
use outside::rules::calls::read_committed;
use outside::rules::faults::faults;
use power::disk::{Operation, RecordingDisk};
use power::landing::epochs;
use teplovist::{Error, Image, ImageFile, Kind, Partition};

const LENGTH: usize = 0x1000;

/// What a session with one write asks of the disk, and the image that it leaves.
fn save(image: &[u8], byte: u8) -> Result<(Vec<Operation>, Vec<u8>), Error> {
    let disk = RecordingDisk::default();
    let mut file = ImageFile::on_disk(disk.clone(), image.to_vec());
    file.begin()?;
    file.write(Partition::A, 0, &[byte; LENGTH])?;
    file.commit()?;
    Ok((disk.take_record(), file.image()?.bytes().to_vec()))
}

/// All that the disk is asked: the first session up to its header, what opening asks, the second session.
fn record(blank: &[u8], by_opening: &[Operation]) -> Result<Vec<Operation>, Error> {
    let (mut record, image) = save(blank, 1)?;
    assert_eq!(record.pop(), Some(Operation::Sync), "a commit ends with a sync");
    record.extend_from_slice(by_opening);
    record.extend(save(&image, 2)?.0);
    Ok(record)
}

/// How many of the crash images hold no committed version, whole.
fn spoilt(by_opening: &[Operation]) -> Result<(usize, usize), Error> {
    let blank = Image::blank(Kind::Disa, 1)?.into_inner();
    let record = record(&blank, by_opening)?;
    let random = &mut Random::new(1);
    let mut images = Vec::new();
    for epoch in epochs(&blank, &record) {
        for asked in 0..=epoch.writes.len() {
            let moment = epoch.moment(asked);
            images.extend(moment.choose_landings(random, 4).iter().map(|landings| moment.image(landings)));
        }
    }
    Ok((images.iter().filter(|image| !holds_a_version(image)).count(), images.len()))
}

fn holds_a_version(image: &[u8]) -> bool {
    let mut bytes = [0xFF; LENGTH];
    let read = read_committed(image, 0, 0, &mut bytes);
    faults(image) == Ok(Vec::new()) && read.is_ok() && [0, 1, 2].iter().any(|byte| bytes == [*byte; LENGTH])
}

#[test]
fn with_a_sync_on_opening_nothing_is_lost() -> Result<(), Error> {
    let (spoilt, images) = spoilt(&[Operation::Sync])?;
    assert!(images > 50);
    assert_eq!(spoilt, 0);
    Ok(())
}

#[test]
fn without_it_something_is() -> Result<(), Error> {
    let (spoilt, images) = spoilt(&[])?;
    assert!(spoilt > 0, "none of {images}");
    Ok(())
}
