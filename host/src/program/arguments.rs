//! What stands on the command line behind a command's name.

use std::ffi::{OsStr, OsString};
use std::ops::RangeInclusive;
use std::path::{Path, PathBuf};

use super::failure::Failure;

/// What a command takes.
pub struct Form {
    pub name: &'static str,
    /// How many words it takes beside options: the image first.
    pub words: RangeInclusive<usize>,
    /// Options that a value follows.
    pub options: &'static [&'static str],
    /// Options that stand alone, beside those that every command has.
    pub flags: &'static [&'static str],
}

pub const JSON: &str = "--json";
pub const HELP: &str = "--help";
const COMMON_FLAGS: [&str; 2] = [JSON, HELP];
const SHORT: [(&str, &str); 2] = [("-o", "--output"), ("-h", HELP)];
/// Behind this word none is an option.
pub const END_OF_OPTIONS: &str = "--";

pub struct Arguments {
    pub command: &'static str,
    words: Vec<OsString>,
    options: Vec<(&'static str, OsString)>,
    flags: Vec<&'static str>,
}

impl Arguments {
    pub fn parse(form: &Form, rest: &[OsString]) -> Result<Arguments, Failure> {
        let mut parsed = Arguments { command: form.name, words: vec![], options: vec![], flags: vec![] };
        let mut rest = rest.iter();
        let mut only_words = false;
        while let Some(argument) = rest.next() {
            if only_words || !looks_like_option(argument) {
                parsed.words.push(argument.clone());
            } else if argument == END_OF_OPTIONS {
                only_words = true;
            } else {
                parsed.take_option(form, argument, &mut rest)?;
            }
        }
        if !parsed.has(HELP) {
            parsed.check_words(form)?;
        }
        Ok(parsed)
    }

    fn take_option<'a>(
        &mut self,
        form: &Form,
        argument: &OsStr,
        rest: &mut impl Iterator<Item = &'a OsString>,
    ) -> Result<(), Failure> {
        let (name, attached) = split_option(argument);
        if let Some(flag) = form.flags.iter().chain(&COMMON_FLAGS).find(|flag| **flag == name) {
            if attached.is_some() {
                return Err(self.usage(format!("{flag} takes no value")));
            }
            self.flags.push(flag);
            return Ok(());
        }
        let Some(option) = form.options.iter().find(|option| **option == name) else {
            return Err(self.usage(unknown_option(form, &name)));
        };
        if self.option(option).is_some() {
            return Err(self.usage(format!("{option} is there twice")));
        }
        let value = attached.or_else(|| rest.next().filter(|value| !looks_like_option(value)).cloned());
        let Some(value) = value.filter(|value| !value.is_empty()) else {
            return Err(self.usage(format!("{option} wants a value")));
        };
        self.options.push((option, value));
        Ok(())
    }

    fn check_words(&self, form: &Form) -> Result<(), Failure> {
        let (fewest, most) = (*form.words.start(), *form.words.end());
        if self.words.len() > most {
            return Err(self.usage(format!("{} is one word too many", shown(&self.words[most]))));
        }
        match self.words.len() {
            0 if fewest > 0 => Err(self.usage("which image?")),
            count if count < fewest => Err(self.usage("a word is missing")),
            _ => Ok(()),
        }
    }

    pub fn usage(&self, words: impl Into<String>) -> Failure {
        Failure::usage(self.command, words)
    }

    pub fn has(&self, flag: &str) -> bool {
        self.flags.contains(&flag)
    }

    pub fn option(&self, name: &str) -> Option<&OsStr> {
        self.options.iter().find(|option| option.0 == name).map(|option| option.1.as_os_str())
    }

    pub fn word(&self, index: usize) -> Option<&OsStr> {
        self.words.get(index).map(OsString::as_os_str)
    }

    /// The first word; parsing has seen that it is there.
    pub fn image(&self) -> &Path {
        Path::new(&self.words[0])
    }

    /// An option's value that is a file's name; `-` stands for none: a standard stream is meant.
    pub fn file(&self, name: &str) -> Option<PathBuf> {
        self.option(name).filter(|value| *value != "-").map(PathBuf::from)
    }

    pub fn number(&self, name: &str) -> Result<Option<u64>, Failure> {
        let read = |value| read_number(value).map_err(|why| self.usage(format!("{name} {why}")));
        self.option(name).map(read).transpose()
    }

    pub fn required_number(&self, name: &str) -> Result<u64, Failure> {
        self.number(name)?.ok_or_else(|| self.usage(format!("{name} is missing")))
    }
}

/// A single `-` is a word: it stands for a standard stream.
fn looks_like_option(argument: &OsStr) -> bool {
    argument.len() > 1 && argument.as_encoded_bytes().starts_with(b"-")
}

/// `--at=5` is `--at 5`; a short name is its long one.
fn split_option(argument: &OsStr) -> (String, Option<OsString>) {
    if let Some((_, long)) = SHORT.iter().find(|(short, _)| argument == *short) {
        return ((*long).into(), None);
    }
    let text = argument.to_string_lossy();
    match (argument.to_str(), text.split_once('=')) {
        (Some(_), Some((name, value))) => (name.into(), Some(value.into())),
        _ => (text.into(), None),
    }
}

fn unknown_option(form: &Form, name: &str) -> String {
    let known = form.options.iter().chain(form.flags).chain(&COMMON_FLAGS);
    format!("there is no option {name}{}", suggestion(name, known.copied()))
}

/// What an argument looks like in a message.
pub fn shown(argument: &OsStr) -> String {
    format!("`{}`", argument.to_string_lossy())
}

/// A number in decimal, or in hexadecimal behind 0x; else what is wrong, to follow what it is of.
pub fn read_number(value: &OsStr) -> Result<u64, String> {
    let text = value.to_str().unwrap_or_default();
    let (digits, radix) = match text.strip_prefix("0x").or_else(|| text.strip_prefix("0X")) {
        Some(digits) => (digits, 16),
        None => (text, 10),
    };
    // A title's ID is often printed as 16 hexadecimal digits without 0x: taken as decimal it would be another's.
    if radix == 10 && digits.len() > 1 && digits.starts_with('0') {
        return Err(format!("is {}: write 0x before hexadecimal digits, or no 0 before decimal ones", shown(value)));
    }
    let is_number = !digits.is_empty() && digits.chars().all(|digit| digit.is_digit(radix));
    match u64::from_str_radix(digits, radix) {
        Ok(number) if is_number => Ok(number),
        Err(_) if is_number => Err(format!("is {}: that is too large", shown(value))),
        _ => Err(format!("wants a number, decimal or 0x..., not {}", shown(value))),
    }
}

/// The known name that was probably meant, as a question to follow a message.
pub fn suggestion<'a>(mistyped: &str, known: impl Iterator<Item = &'a str>) -> String {
    const FARTHEST: usize = 2;
    let nearest = known.map(|name| (edits_between(mistyped, name), name)).min();
    match nearest {
        Some((edits, name)) if edits <= FARTHEST => format!("; did you mean {name}?"),
        _ => String::new(),
    }
}

/// How many letters must be put in, left out or changed to come from one word to the other.
fn edits_between(one: &str, other: &str) -> usize {
    let other: Vec<char> = other.chars().collect();
    let mut row: Vec<usize> = (0..=other.len()).collect();
    for letter in one.chars() {
        add_letter(&mut row, letter, &other);
    }
    row[other.len()]
}

/// A row has, for each beginning of the other word, how many edits lead to it from the beginning of the one word that
/// was taken so far. That gets one letter longer here.
fn add_letter(row: &mut [usize], letter: char, other: &[char]) {
    let mut diagonal = row[0];
    row[0] += 1;
    for column in 0..other.len() {
        let changed = diagonal + usize::from(letter != other[column]);
        diagonal = row[column + 1];
        row[column + 1] = changed.min(diagonal + 1).min(row[column] + 1);
    }
}

#[cfg(test)]
mod tests {
    use super::*;

    const FORM: Form = Form { name: "read", words: 1..=1, options: &["--at", "--output"], flags: &["--force"] };

    fn parse(arguments: &[&str]) -> Result<Arguments, String> {
        let arguments: Vec<OsString> = arguments.iter().map(OsString::from).collect();
        Arguments::parse(&FORM, &arguments).map_err(|failure| failure.to_string())
    }

    fn problem(arguments: &[&str]) -> String {
        parse(arguments).err().expect("refused")
    }

    #[test]
    fn options_words_and_flags_in_any_order() {
        let parsed = parse(&["--at", "0x10", "x.img", "--force", "-o", "-", "--json"]).expect("right");
        assert_eq!(parsed.image(), Path::new("x.img"));
        assert_eq!(parsed.number("--at").expect("a number"), Some(16));
        assert_eq!((parsed.option("--output"), parsed.file("--output")), (Some(OsStr::new("-")), None));
        assert!(parsed.has("--force") && parsed.has(JSON) && !parsed.has(HELP));
        let parsed = parse(&["--at=5", "--", "--odd-name"]).expect("right");
        assert_eq!((parsed.image(), parsed.number("--at").expect("a number")), (Path::new("--odd-name"), Some(5)));
    }

    #[test]
    fn wrong_arguments_say_what_is_wrong() {
        assert!(problem(&[]).starts_with("read: which image?"));
        assert!(problem(&["x", "y"]).starts_with("read: `y` is one word too many"));
        assert!(problem(&["x", "--att", "5"]).starts_with("read: there is no option --att; did you mean --at?"));
        assert!(problem(&["x", "--unheard-of"]).starts_with("read: there is no option --unheard-of ("));
        assert!(problem(&["x", "--at"]).starts_with("read: --at wants a value"));
        assert!(problem(&["x", "--at="]).starts_with("read: --at wants a value"));
        assert!(problem(&["x", "--at", "--json"]).starts_with("read: --at wants a value"));
        assert!(problem(&["x", "--at", "1", "--at", "2"]).starts_with("read: --at is there twice"));
        assert!(problem(&["x", "--json=yes"]).starts_with("read: --json takes no value"));
    }

    #[test]
    fn numbers_in_decimal_and_hexadecimal() {
        let number = |text: &str| read_number(OsStr::new(text));
        assert_eq!(number("0"), Ok(0));
        assert_eq!(number("4096"), Ok(4096));
        assert_eq!(number("0x1F"), Ok(31));
        assert_eq!(number("0xffffffffffffffff"), Ok(u64::MAX));
        assert_eq!(number("18446744073709551615"), Ok(u64::MAX));
        for wrong in ["", "x", "0x", "+5", "-5", "1.5", "12k", "0x+1", " 1"] {
            assert!(number(wrong).is_err_and(|why| why.starts_with("wants a number")), "{wrong}");
        }
        assert!(number("18446744073709551616").is_err_and(|why| why.contains("too large")));
        assert!(number("0004000000033500").is_err_and(|why| why.contains("write 0x")));
    }

    #[test]
    fn the_nearest_name_is_suggested() {
        let names = || ["describe", "verify", "read", "write"].into_iter();
        assert_eq!(suggestion("descibe", names()), "; did you mean describe?");
        assert_eq!(suggestion("raed", names()), "; did you mean read?");
        assert_eq!(suggestion("delete", names()), "");
        assert_eq!((edits_between("", "ab"), edits_between("ab", "ab"), edits_between("abc", "axcd")), (2, 0, 2));
    }
}
