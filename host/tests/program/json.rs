//! A reader of JSON, strict, to see that what the program prints is JSON.

use std::collections::BTreeMap;

#[derive(Clone, Debug, PartialEq)]
pub enum Json {
    Null,
    Truth(bool),
    Number(u64),
    Text(String),
    List(Vec<Json>),
    Object(BTreeMap<String, Json>),
}

impl Json {
    /// The one value that a text consists of, with white space around it.
    pub fn parse(text: &str) -> Result<Json, String> {
        let mut reader = Reader { rest: text };
        let value = reader.value()?;
        match reader.next_token() {
            None => Ok(value),
            Some(_) => Err(format!("more behind the value: {}", reader.rest)),
        }
    }

    /// A member of an object, which must be there.
    pub fn get(&self, name: &str) -> &Json {
        match self {
            Json::Object(members) => members.get(name).unwrap_or_else(|| panic!("no member {name} in {self:?}")),
            _ => panic!("{self:?} is no object"),
        }
    }

    pub fn list(&self) -> &[Json] {
        match self {
            Json::List(values) => values,
            _ => panic!("{self:?} is no list"),
        }
    }

    pub fn number(&self) -> u64 {
        match self {
            Json::Number(number) => *number,
            _ => panic!("{self:?} is no number"),
        }
    }

    pub fn text(&self) -> &str {
        match self {
            Json::Text(text) => text,
            _ => panic!("{self:?} is no text"),
        }
    }

    pub fn names(&self) -> Vec<&str> {
        match self {
            Json::Object(members) => members.keys().map(String::as_str).collect(),
            _ => panic!("{self:?} is no object"),
        }
    }
}

struct Reader<'a> {
    rest: &'a str,
}

impl Reader<'_> {
    fn next_token(&mut self) -> Option<char> {
        self.rest = self.rest.trim_start_matches([' ', '\t', '\r', '\n']);
        self.rest.chars().next()
    }

    fn take(&mut self, wanted: &str) -> Result<(), String> {
        self.next_token();
        self.rest = self.rest.strip_prefix(wanted).ok_or_else(|| format!("no {wanted} at {}", self.rest))?;
        Ok(())
    }

    fn value(&mut self) -> Result<Json, String> {
        match self.next_token() {
            Some('n') => self.take("null").map(|()| Json::Null),
            Some('t') => self.take("true").map(|()| Json::Truth(true)),
            Some('f') => self.take("false").map(|()| Json::Truth(false)),
            Some('"') => self.text().map(Json::Text),
            Some('[') => self.separated("[", "]", Reader::value).map(Json::List),
            Some('{') => self.object(),
            Some('0'..='9') => self.number(),
            _ => Err(format!("no value at {}", self.rest)),
        }
    }

    fn object(&mut self) -> Result<Json, String> {
        let members = self.separated("{", "}", |reader| {
            let name = reader.text()?;
            reader.take(":")?;
            Ok((name, reader.value()?))
        })?;
        let count = members.len();
        let members: BTreeMap<String, Json> = members.into_iter().collect();
        if members.len() == count {
            Ok(Json::Object(members))
        } else {
            Err("a member is there twice".into())
        }
    }

    fn separated<T>(
        &mut self,
        start: &str,
        end: &str,
        item: impl Fn(&mut Self) -> Result<T, String>,
    ) -> Result<Vec<T>, String> {
        self.take(start)?;
        let mut items = Vec::new();
        if self.take(end).is_ok() {
            return Ok(items);
        }
        loop {
            items.push(item(self)?);
            if self.take(end).is_ok() {
                return Ok(items);
            }
            self.take(",")?;
        }
    }

    fn number(&mut self) -> Result<Json, String> {
        let length = self.rest.find(|letter: char| !letter.is_ascii_digit()).unwrap_or(self.rest.len());
        let (digits, rest) = self.rest.split_at(length);
        if digits.len() > 1 && digits.starts_with('0') {
            return Err(format!("a number begins with 0: {digits}"));
        }
        self.rest = rest;
        digits.parse().map(Json::Number).map_err(|error| format!("{digits}: {error}"))
    }

    fn text(&mut self) -> Result<String, String> {
        self.take("\"")?;
        let mut text = String::new();
        loop {
            let mut letters = self.rest.chars();
            let letter = letters.next().ok_or("a text without an end")?;
            self.rest = letters.as_str();
            match letter {
                '"' => return Ok(text),
                '\\' => text.push(self.escaped()?),
                '\u{0}'..='\u{1f}' => return Err(format!("{letter:?} is not escaped")),
                _ => text.push(letter),
            }
        }
    }

    fn escaped(&mut self) -> Result<char, String> {
        let (letter, rest) = self.rest.split_at_checked(1).ok_or("a text without an end")?;
        self.rest = rest;
        match letter {
            "\"" | "\\" | "/" => Ok(letter.chars().next().expect("one letter")),
            "n" => Ok('\n'),
            "t" => Ok('\t'),
            "r" => Ok('\r'),
            "u" => {
                let (digits, rest) = self.rest.split_at_checked(4).ok_or("four digits are wanted")?;
                self.rest = rest;
                let code = u32::from_str_radix(digits, 16).map_err(|error| error.to_string())?;
                char::from_u32(code).ok_or_else(|| format!("no letter: {digits}"))
            }
            _ => Err(format!("no escape: {letter}")),
        }
    }
}

#[test]
fn only_json_is_read() {
    let right = r#" {"a":[1,{"b":null}],"c":"x\"\\\n\u00e4","d":true,"e":{}} "#;
    let value = Json::parse(right).expect("JSON");
    assert_eq!(value.get("a").list()[0], Json::Number(1));
    assert_eq!(value.get("c").text(), "x\"\\\nä");
    for wrong in ["", "{", "[1,]", "{\"a\" 1}", "\"a", "\"\n\"", "01", "{} {}", "nul", r#"{"a":1,"a":2}"#, r#""\q""#] {
        assert!(Json::parse(wrong).is_err(), "{wrong}");
    }
}
