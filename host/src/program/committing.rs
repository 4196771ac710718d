//! One session on an image in a file, from begin to commit, and the memory that `revert` goes by.

use std::fmt::{self, Display, Formatter};
use std::path::Path;

use teplovist::{memory, Error, ImageFile, Session, Table};

use super::answer::warn;
use super::failure::Failure;
use super::json::{Json, Member};
use super::signing::Signing;

/// What is to be told of a commit or a revert that has landed.
pub struct Landed {
    pub table: Table,
    pub signed: bool,
    /// Whether `revert` can take it back.
    pub can_revert: bool,
}

/// Begins, stages and commits: with a signature where a key is given. Then what a revert needs is kept beside the
/// image.
pub fn commit_session(
    path: &Path,
    file: &mut ImageFile,
    signing: Option<&Signing>,
    stage: impl FnOnce(&mut ImageFile) -> Result<(), Error>,
) -> Result<Landed, Failure> {
    if let Some(signing) = signing {
        // A signer of the other kind is refused before anything is forgotten.
        file.image()?.signing_digest(&signing.signer)?;
    }
    file.begin()?;
    stage(file)?;
    forget_last_commit(path)?;
    match signing {
        Some(signing) => file.commit_signed(&signing.key, &signing.signer)?,
        None => file.commit()?,
    }
    let kept = memory::remember(path, file.session());
    if let Err(error) = &kept {
        warn(&format!("the commit has landed, but revert cannot take it back: {error}"));
    }
    landed(file, signing, kept.is_ok())
}

/// A commit's stores go to where the state before the last one still lies. If they stop half way, nobody must step back
/// to it, so it is forgotten before them, as a begun session forgets it.
pub fn forget_last_commit(path: &Path) -> Result<(), Failure> {
    memory::remember(path, &Session::new())
        .map_err(|error| Failure::file("remove what revert remembers of", path, &error))
}

pub fn landed(file: &ImageFile, signing: Option<&Signing>, can_revert: bool) -> Result<Landed, Failure> {
    let table = file.image()?.open()?.active_table;
    Ok(Landed { table, signed: signing.is_some(), can_revert })
}

impl Landed {
    pub fn members(&self) -> Vec<Member> {
        vec![
            ("table", Json::text(self.table.to_string())),
            ("signed", self.signed.into()),
            ("can_revert", self.can_revert.into()),
        ]
    }
}

impl Display for Landed {
    fn fmt(&self, to: &mut Formatter) -> fmt::Result {
        write!(to, "committed{}; the {} table is active", if self.signed { ", signed" } else { "" }, self.table)
    }
}
