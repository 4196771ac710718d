//! A whole term's history: the plain list of versions that committed reads must follow over any run of sessions, on
//! partitions whose level 4 is internal. A version holds level 4's bytes and which of its blocks are verified.

use crate::model::Version;

/// What a history says at each moment, and how it goes on. Its list starts with one version and a fresh idle session.
pub trait Book {
    /// The newest version of a partition; none of one that is not followed.
    fn newest(&self, partition: usize) -> Option<&Version>;
    /// What the session has staged.
    fn staged(&self, partition: usize) -> Option<&Version>;
    /// Does the session remember a commit that it may take back?
    fn remembers(&self) -> bool;

    fn begin(&mut self);
    fn write(&mut self, partition: usize, place: usize, data: &[u8]);
    /// A write that ends in 17 counts as one too.
    fn abandon(&mut self);
    /// The header of a commit lands.
    fn land_commit(&mut self);
    /// The header of a revert lands.
    fn land_revert(&mut self);
    /// Power fails; a fresh idle session starts. A header that had not landed never does.
    fn cut(&mut self);
}

/// The versions of one partition, oldest first, and what is staged.
#[derive(Clone, Debug)]
struct Term {
    block_size: usize,
    versions: Vec<Version>,
    staged: Option<Version>,
}

#[derive(Clone, Debug)]
pub struct History {
    terms: Vec<Option<Term>>,
    remembers: bool,
}

/// Of each partition that is to be followed, the block size and the first version.
pub type First = Vec<Option<(usize, Version)>>;

impl History {
    pub fn new(first: First) -> History {
        let term = |(block_size, version): (usize, Version)| Term { block_size, versions: vec![version], staged: None };
        History { terms: first.into_iter().map(|first| first.map(term)).collect(), remembers: false }
    }

    fn each(&mut self, change: impl Fn(&mut Term)) {
        self.terms.iter_mut().flatten().for_each(change);
    }
}

impl Book for History {
    fn newest(&self, partition: usize) -> Option<&Version> {
        self.terms[partition].as_ref().and_then(|term| term.versions.last())
    }

    fn staged(&self, partition: usize) -> Option<&Version> {
        self.terms[partition].as_ref().and_then(|term| term.staged.as_ref())
    }

    fn remembers(&self) -> bool {
        self.remembers
    }

    fn begin(&mut self) {
        self.remembers = false;
        self.each(|term| term.staged = term.versions.last().cloned());
    }

    fn write(&mut self, partition: usize, place: usize, data: &[u8]) {
        let Some(term) = &mut self.terms[partition] else { return };
        term.staged.as_mut().expect("the session has begun").lay_over(place, data, term.block_size);
    }

    fn abandon(&mut self) {
        self.each(|term| term.staged = None);
    }

    fn land_commit(&mut self) {
        self.remembers = true;
        self.each(|term| term.versions.extend(term.staged.take()));
    }

    fn land_revert(&mut self) {
        self.remembers = false;
        self.each(|term| {
            term.versions.pop();
        });
    }

    fn cut(&mut self) {
        self.remembers = false;
        self.abandon();
    }
}
