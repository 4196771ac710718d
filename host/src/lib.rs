//! DISA and DIFF save containers that survive a power failure: a safe crate over the proved library Teplovist, and
//! images in files whose commits keep the one premise that no proof inside the library can meet.
//!
//! An image holds one or two partitions. A [`Session`] stages changes, and a commit makes them the data that everybody
//! reads, all at once. Reads hand out only bytes that the hash tree verifies.
//!
//! # An image in memory
//!
//! ```
//! use teplovist::{Image, Partition, Refusal, Session};
//!
//! let mut image = Image::new(std::fs::read("../samples/disa-one.img")?);
//! let description = image.open()?;
//! assert_eq!(description.kind.to_string(), "DISA");
//! assert_eq!(description.a.level4().blocks(), 1);
//! assert!(image.faults()?.is_empty());
//!
//! let mut session = Session::new();
//! image.begin(&mut session)?;
//! image.write(&mut session, Partition::A, 0, b"hello")?;
//! image.commit(&mut session)?;
//!
//! let mut bytes = [0; 5];
//! image.read(Partition::A, 0, &mut bytes)?;
//! assert_eq!(&bytes, b"hello");
//! assert_eq!(image.read(Partition::B, 0, &mut bytes), Err(Refusal::NoPartition));
//! # Ok::<(), Box<dyn std::error::Error>>(())
//! ```
//!
//! # An image in a file
//!
//! [`ImageFile`] locks the file, works in memory, and touches the file only to commit or to revert: first every changed
//! byte past the first sector and a sync, then the header by one write and a sync, and only then `Ok`. See [`Error`]
//! for what a failure means.
//!
//! ```
//! use teplovist::{ImageFile, Partition};
//!
//! # let folder = std::env::temp_dir().join(format!("teplovist-crate-{}", std::process::id()));
//! # std::fs::create_dir_all(&folder)?;
//! let path = folder.join("save.img");
//! std::fs::copy("../samples/disa-one.img", &path)?;
//!
//! let mut file = ImageFile::open_to_write(&path)?;
//! file.begin()?;
//! file.write(Partition::A, 0, b"hello")?;
//! file.commit()?; // on the disk, or an error that says what the file holds
//! file.revert()?; // one step back
//! drop(file);
//!
//! assert_eq!(ImageFile::open(&path)?.image()?.count_verified(Partition::A)?, 1);
//! # std::fs::remove_dir_all(&folder)?;
//! # Ok::<(), Box<dyn std::error::Error>>(())
//! ```

pub mod boundary;
pub mod memory;

mod description;
mod digest;
mod disk;
mod error;
mod file;
mod image;
mod live;
mod map;
mod names;
mod partition;
mod plan;
mod refusal;
mod replace;
mod session;
mod signing;

pub use boundary::Fault;
pub use description::{Description, Extent, Kind, Level, PartitionLayout, Table};
pub use digest::Digest;
pub use disk::{Disk, FileDisk};
pub use error::Error;
pub use file::{lock_exclusively, ImageFile};
pub use image::Image;
pub use live::{free_ranges, Live};
pub use map::map;
pub use names::{Name, NameKind};
pub use partition::{NotAPartition, Partition};
pub use plan::{plan, Plan, Run, FRONT_SIZE};
pub use refusal::Refusal;
pub use replace::{create, replace, ReplaceError};
pub use session::Session;
pub use signing::{Key, Signer};
