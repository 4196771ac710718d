//! Reads XML as strictly as the pictures need: what it does not know is an error, so that a picture that it reads
//! is well-formed.

use std::str::Chars;

#[derive(Debug, Default)]
pub struct Element {
    pub name: String,
    pub attributes: Vec<(String, String)>,
    /// The text directly inside, in one piece.
    pub text: String,
    pub children: Vec<Element>,
}

impl Element {
    pub fn attribute(&self, name: &str) -> Option<&str> {
        self.attributes.iter().find(|(known, _)| known == name).map(|(_, value)| value.as_str())
    }

    pub fn is(&self, class: &str) -> bool {
        self.attribute("class").is_some_and(|classes| classes.split(' ').any(|known| known == class))
    }

    pub fn title(&self) -> Option<&str> {
        self.children.iter().find(|child| child.name == "title").map(|title| title.text.as_str())
    }

    /// This element and everything inside it, in the order of the document.
    pub fn all(&self) -> Vec<&Element> {
        std::iter::once(self).chain(self.children.iter().flat_map(Element::all)).collect()
    }

    pub fn group(&self, id: &str) -> Option<&Element> {
        self.all().into_iter().find(|element| element.name == "g" && element.attribute("id") == Some(id))
    }
}

/// A whole document: one element, with comments and white space around it.
pub fn read(document: &str) -> Result<Element, String> {
    let mut reader = Reader { rest: document.chars() };
    reader.skip_comments()?;
    reader.expect("<")?;
    let element = reader.element()?;
    reader.skip_comments()?;
    if reader.rest.as_str().is_empty() {
        Ok(element)
    } else {
        Err(reader.wrong("nothing after the element"))
    }
}

struct Reader<'a> {
    rest: Chars<'a>,
}

impl Reader<'_> {
    fn wrong(&self, wanted: &str) -> String {
        format!("{wanted} wanted, not {:?}", self.rest.as_str().chars().take(40).collect::<String>())
    }

    fn take(&mut self, text: &str) -> bool {
        match self.rest.as_str().strip_prefix(text) {
            Some(rest) => self.rest = rest.chars(),
            None => return false,
        }
        true
    }

    fn expect(&mut self, text: &str) -> Result<(), String> {
        self.take(text).then_some(()).ok_or_else(|| self.wrong(text))
    }

    fn skip_space(&mut self) -> bool {
        let trimmed = self.rest.as_str().trim_start();
        let skipped = trimmed.len() < self.rest.as_str().len();
        self.rest = trimmed.chars();
        skipped
    }

    fn skip_comments(&mut self) -> Result<(), String> {
        self.skip_space();
        while self.take("<!--") {
            let (comment, rest) = self.rest.as_str().split_once("--").ok_or("a comment has no end")?;
            assert!(!comment.contains("<!--"), "a comment in a comment");
            self.rest = rest.chars();
            self.expect(">")?;
            self.skip_space();
        }
        Ok(())
    }

    fn name(&mut self) -> Result<String, String> {
        let text = self.rest.as_str();
        let length = text.find(|letter: char| !letter.is_ascii_alphanumeric() && letter != '-').unwrap_or(text.len());
        let (name, rest) = text.split_at(length);
        if !name.starts_with(|letter: char| letter.is_ascii_alphabetic()) {
            return Err(self.wrong("a name"));
        }
        self.rest = rest.chars();
        Ok(name.into())
    }

    /// An element whose `<` is read.
    fn element(&mut self) -> Result<Element, String> {
        let mut element = Element { name: self.name()?, ..Element::default() };
        while self.skip_space() && !self.rest.as_str().starts_with(['/', '>']) {
            let name = self.name()?;
            if element.attribute(&name).is_some() {
                return Err(format!("{name} twice in {}", element.name));
            }
            self.expect("=\"")?;
            let value = self.characters('"')?;
            self.expect("\"")?;
            element.attributes.push((name, value));
        }
        if self.take("/>") {
            return Ok(element);
        }
        self.expect(">")?;
        self.inside(&mut element)?;
        Ok(element)
    }

    /// Text and elements up to the end of an element, and the end.
    fn inside(&mut self, element: &mut Element) -> Result<(), String> {
        loop {
            element.text += &self.characters('<')?;
            self.expect("<")?;
            if self.take("/") {
                self.expect(&element.name)?;
                return self.expect(">");
            }
            let child = self.element()?;
            element.children.push(child);
        }
    }

    /// Characters up to one that ends them, with what is escaped in its place.
    fn characters(&mut self, end: char) -> Result<String, String> {
        const ESCAPED: [(&str, char); 4] = [("&amp;", '&'), ("&lt;", '<'), ("&gt;", '>'), ("&quot;", '"')];
        let mut text = String::new();
        while !self.rest.as_str().starts_with(end) {
            if let Some((_, plain)) = ESCAPED.into_iter().find(|(escaped, _)| self.take(escaped)) {
                text.push(plain);
                continue;
            }
            match self.rest.clone().next() {
                Some('&' | '<') | None => return Err(self.wrong("a character")),
                Some(control) if control.is_control() && control != '\n' => return Err(self.wrong("a character")),
                Some(plain) => text.push(plain),
            }
            self.rest.next();
        }
        Ok(text)
    }
}

#[test]
fn what_is_well_formed_is_read() {
    let element = read("<!-- why -->\n<a b=\"1 &lt; 2\"><c/>x &amp; y<d>z</d></a>\n").expect("it is well-formed");
    assert_eq!((element.attribute("b"), element.text.as_str()), (Some("1 < 2"), "x & y"));
    assert_eq!(element.all().iter().map(|found| found.name.as_str()).collect::<Vec<_>>(), ["a", "c", "d"]);
}

#[test]
fn what_is_not_well_formed_is_refused() {
    let documents = [
        "",
        "a",
        "<a>",
        "<a></b>",
        "<a/><b/>",
        "<a/>b",
        "<a b=1/>",
        "<a b=\"1\" b=\"2\"/>",
        "<a b=\"1\"c=\"2\"/>",
        "<a b=\"<\"/>",
        "<a>&</a>",
        "<a>&nbsp;</a>",
        "<a><b></a></b>",
        "<a>\u{1}</a>",
        "<a b></a>",
        "<1/>",
        "<!-- <a/>",
        "<!-- -- --><a/>",
    ];
    for document in documents {
        assert!(read(document).is_err(), "{document}");
    }
}
