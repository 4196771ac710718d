//! An independent implementation of the container's rules, made from the papers alone, with a generator of images and
//! a comparison of whatever claims to follow the same rules.

#[cfg(feature = "gateway")]
pub mod boundary;
pub mod check;
pub mod command;
pub mod description;
pub mod generate;
pub mod history;
pub mod model;
pub mod program;
pub mod rules;
pub mod stores;
pub mod subject;
pub mod trial;
pub mod words;

// Under this name since bench/, which is built without cargo, takes the same file in by its path.
#[cfg(feature = "gateway")]
use teplovist::boundary as declarations;
