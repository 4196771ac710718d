//! The words that a command is called with: options with a value behind each, and plain words. What nobody takes is refused.

use std::ops::Range;

/// Those that nobody has taken yet.
#[derive(Clone, Debug)]
pub struct Words(Vec<String>);

impl Words {
    pub fn new(words: impl IntoIterator<Item = impl Into<String>>) -> Words {
        Words(words.into_iter().map(Into::into).collect())
    }

    /// The value behind an option such as `--seed`.
    pub fn option(&mut self, name: &str) -> Result<Option<String>, String> {
        let Some(place) = self.0.iter().position(|word| word == name) else { return Ok(None) };
        if place + 1 == self.0.len() {
            return Err(format!("{name} needs a value"));
        }
        self.0.remove(place);
        Ok(Some(self.0.remove(place)))
    }

    /// The number behind an option, or the default.
    pub fn number(&mut self, name: &str, default: u64) -> Result<u64, String> {
        self.option(name)?.map_or(Ok(default), |value| parsed(name, &value))
    }

    /// An option that is left out or has the value `yes`.
    pub fn yes(&mut self, name: &str) -> Result<bool, String> {
        match self.option(name)?.as_deref() {
            None => Ok(false),
            Some("yes") => Ok(true),
            Some(other) => Err(format!("{name} has the value yes or is left out, and not {other}")),
        }
    }

    /// The first word, unless it is an option or there is none. Options with a value must have been taken before.
    pub fn plain(&mut self) -> Option<String> {
        let is_plain = self.0.first().is_some_and(|word| !word.starts_with("--"));
        is_plain.then(|| self.0.remove(0))
    }

    /// All must have been taken.
    pub fn end(self) -> Result<(), String> {
        match self.0.first() {
            None => Ok(()),
            Some(word) if word.starts_with("--") => Err(format!("{word} is unknown here, or given twice")),
            Some(word) => Err(format!("the word {word} is one too many")),
        }
    }
}

/// The number that a word is.
pub fn parsed(name: &str, word: &str) -> Result<u64, String> {
    word.parse().map_err(|_| format!("{name} needs a number, not {word}"))
}

/// So many seeds from the first on.
pub fn seeds(first: u64, count: u64) -> Result<Range<u64>, String> {
    let end = first.checked_add(count).ok_or(format!("{first} is too high a seed for {count} of them"))?;
    Ok(first..end)
}
