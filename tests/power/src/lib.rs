//! The host's side on a disk that loses power, on one that fails, and in a process that is killed. Every image that is
//! left is judged by the independent implementation in tests/outside.

pub mod command;
pub mod disk;
pub mod failing;
pub mod host;
pub mod in_place;
pub mod judge;
pub mod killed;
pub mod landing;
pub mod saved;
pub mod scenario;
pub mod step;
pub mod tally;
