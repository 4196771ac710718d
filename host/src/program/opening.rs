//! An image as the command line names it: opened, and where a key is given, with its signature checked.

use std::ffi::OsStr;

use teplovist::{Description, ImageFile, Partition};

use super::arguments::{shown, Arguments};
use super::failure::Failure;
use super::signing::signing;

pub const PARTITION: &str = "--partition";

/// Opens the image to read it. With a key and a signer the signature must be right, else it is refused.
pub fn open_to_read(arguments: &Arguments) -> Result<(ImageFile, Description), Failure> {
    let signing = signing(arguments)?;
    let file = ImageFile::open(arguments.image())?;
    let description = match &signing {
        Some(signing) => file.image()?.open_signed(&signing.key, &signing.signer)?,
        None => file.image()?.open()?,
    };
    Ok((file, description))
}

/// The partition that the command line names, if it names one.
pub fn named_partition(arguments: &Arguments) -> Result<Option<Partition>, Failure> {
    let read = |name: &OsStr| {
        let partition = name.to_str().and_then(|name| name.parse().ok());
        partition.ok_or_else(|| arguments.usage(format!("{PARTITION} is A or B, not {}", shown(name))))
    };
    arguments.option(PARTITION).map(read).transpose()
}

/// The partition that is meant. It must be named where there are two.
pub fn choose_partition(
    arguments: &Arguments,
    named: Option<Partition>,
    description: &Description,
) -> Result<Partition, Failure> {
    match named {
        Some(partition) => Ok(partition),
        None if description.b.is_none() => Ok(Partition::A),
        None => Err(arguments.usage("the image has two partitions: say --partition A or --partition B")),
    }
}
