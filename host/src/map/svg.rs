//! Writes SVG. Elements are closed by the way they are written, and text and attributes are escaped here and
//! nowhere else.

use std::fmt::{Display, Write};

/// Lengths and places in the picture. Whole numbers: edges are crisp and the text stays short.
pub type Px = i64;

pub type Attributes<'a> = &'a [(&'a str, &'a dyn Display)];

#[derive(Default)]
pub struct Svg {
    text: String,
}

impl Svg {
    /// An element with nothing inside.
    pub fn empty(&mut self, name: &str, attributes: Attributes) {
        self.start(name, attributes);
        self.text.push_str("/>\n");
    }

    /// An element and whatever `inside` writes into it.
    pub fn within(&mut self, name: &str, attributes: Attributes, inside: impl FnOnce(&mut Svg)) {
        self.start(name, attributes);
        self.text.push('>');
        inside(self);
        self.text.push_str("</");
        self.text.push_str(name);
        self.text.push_str(">\n");
    }

    /// An element with text inside.
    pub fn said(&mut self, name: &str, attributes: Attributes, text: &str) {
        self.within(name, attributes, |svg| svg.escaped(text));
    }

    /// What another writer has written.
    pub fn append(&mut self, other: Svg) {
        self.text.push_str(&other.text);
    }

    pub fn finish(self) -> String {
        self.text
    }

    fn start(&mut self, name: &str, attributes: Attributes) {
        self.text.push('<');
        self.text.push_str(name);
        for (attribute, value) in attributes {
            self.text.push(' ');
            self.text.push_str(attribute);
            self.text.push_str("=\"");
            self.escaped(value);
            self.text.push('"');
        }
    }

    fn escaped(&mut self, value: impl Display) {
        write!(Escaping(&mut self.text), "{value}").expect("a string takes all text");
    }
}

/// Lets text through with what XML has a meaning for in its place, and without what XML does not allow at all.
struct Escaping<'a>(&'a mut String);

impl Write for Escaping<'_> {
    fn write_str(&mut self, text: &str) -> std::fmt::Result {
        for character in text.chars() {
            match character {
                '&' => self.0.push_str("&amp;"),
                '<' => self.0.push_str("&lt;"),
                '>' => self.0.push_str("&gt;"),
                '"' => self.0.push_str("&quot;"),
                '\n' | '\t' => self.0.push(' '),
                '\u{FFFE}' | '\u{FFFF}' => {}
                control if control.is_control() => {}
                plain => self.0.push(plain),
            }
        }
        Ok(())
    }
}

#[cfg(test)]
mod tests {
    use super::Svg;

    #[test]
    fn text_and_attributes_are_escaped() {
        let mut svg = Svg::default();
        svg.said("text", &[("id", &"a\"<b>")], "1 < 2 & 3\u{0}\n> 2");
        assert_eq!(svg.finish(), "<text id=\"a&quot;&lt;b&gt;\">1 &lt; 2 &amp; 3 &gt; 2</text>\n");
    }

    #[test]
    fn what_is_inside_is_closed_first() {
        let mut svg = Svg::default();
        svg.within("g", &[], |svg| svg.empty("path", &[("d", &"M0 0")]));
        assert_eq!(svg.finish(), "<g><path d=\"M0 0\"/>\n</g>\n");
    }
}
