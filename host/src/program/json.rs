//! JSON, as far as the program writes it.

use std::fmt::{self, Display, Formatter, Write};

pub enum Json {
    Null,
    Truth(bool),
    Number(u64),
    Text(String),
    List(Vec<Json>),
    /// Members in the order in which they are written.
    Object(Vec<Member>),
}

pub type Member = (&'static str, Json);

impl Json {
    pub fn text(text: impl Into<String>) -> Json {
        Json::Text(text.into())
    }
}

impl From<u64> for Json {
    fn from(number: u64) -> Json {
        Json::Number(number)
    }
}

impl From<bool> for Json {
    fn from(truth: bool) -> Json {
        Json::Truth(truth)
    }
}

impl<T: Into<Json>> From<Option<T>> for Json {
    fn from(value: Option<T>) -> Json {
        value.map_or(Json::Null, Into::into)
    }
}

impl Display for Json {
    fn fmt(&self, out: &mut Formatter) -> fmt::Result {
        match self {
            Json::Null => out.write_str("null"),
            Json::Truth(truth) => write!(out, "{truth}"),
            Json::Number(number) => write!(out, "{number}"),
            Json::Text(text) => write_text(out, text),
            Json::List(values) => {
                out.write_char('[')?;
                write_separated(out, values, |out, value| write!(out, "{value}"))?;
                out.write_char(']')
            }
            Json::Object(members) => {
                out.write_char('{')?;
                write_separated(out, members, |out, (name, value)| {
                    write_text(out, name)?;
                    write!(out, ":{value}")
                })?;
                out.write_char('}')
            }
        }
    }
}

fn write_separated<T>(
    out: &mut Formatter,
    items: &[T],
    write_item: impl Fn(&mut Formatter, &T) -> fmt::Result,
) -> fmt::Result {
    for (index, item) in items.iter().enumerate() {
        if index > 0 {
            out.write_char(',')?;
        }
        write_item(out, item)?;
    }
    Ok(())
}

/// A string must not hold a quotation mark, a backslash or a control character as it is.
fn write_text(out: &mut Formatter, text: &str) -> fmt::Result {
    out.write_char('"')?;
    for character in text.chars() {
        match character {
            '"' => out.write_str("\\\"")?,
            '\\' => out.write_str("\\\\")?,
            '\n' => out.write_str("\\n")?,
            _ if character.is_control() => write!(out, "\\u{:04x}", u32::from(character))?,
            _ => out.write_char(character)?,
        }
    }
    out.write_char('"')
}

#[cfg(test)]
mod tests {
    use super::*;

    #[test]
    fn values_as_json_has_them() {
        let value = Json::Object(vec![
            ("ok", true.into()),
            ("none", Json::Null),
            ("some", Some(7).into()),
            ("list", Json::List(vec![Json::Number(u64::MAX), Json::List(vec![])])),
        ]);
        assert_eq!(value.to_string(), r#"{"ok":true,"none":null,"some":7,"list":[18446744073709551615,[]]}"#);
    }

    #[test]
    fn text_that_needs_an_escape() {
        let text = Json::text("a \"b\" \\ c\n\t\u{0}\u{1f}\u{7f}\u{85} ä \u{1f600}");
        assert_eq!(text.to_string(), r#""a \"b\" \\ c\n\u0009\u0000\u001f\u007f\u0085 ä 😀""#);
    }
}
