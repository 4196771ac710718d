//! The container's rules, in the order of the paper.

pub mod aes;
pub mod blank;
pub mod block_hash;
pub mod calls;
pub mod cmac;
pub mod compression;
pub mod descriptor;
pub mod dpfs;
pub mod extent;
pub mod faults;
pub mod header;
pub mod ivfc;
pub mod names;
pub mod opening;
pub mod protected;
pub mod refusal;
pub mod running;
pub mod session;
pub mod sha256;
pub mod signing;
pub mod staging;
