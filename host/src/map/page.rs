//! The page that a picture is drawn on: its measures, its look, and the few shapes that everything is made of.

use super::svg::{Attributes, Px, Svg};

pub const WIDTH: Px = 944;
pub const MARGIN: Px = 24;
/// The left column says what the right one shows.
pub const CONTENT_X: Px = 204;
pub const CONTENT_WIDTH: Px = WIDTH - MARGIN - CONTENT_X;

pub const NAME_SIZE: Px = 12;
pub const DETAIL_SIZE: Px = 11;

/// The colours are apart in lightness too, and every meaning has a shape or a pattern beside its colour: solid,
/// hatched, a diamond, a cross, a number in a thick frame.
const STYLE: &str = "\
text{font-family:system-ui,'Segoe UI','Helvetica Neue',Arial,'DejaVu Sans',sans-serif;fill:#1b2530;font-size:11px}\
.title{font-size:21px;font-weight:600}\
.heading{font-size:16px;font-weight:600}\
.name{font-size:12px;font-weight:600}\
.detail{fill:#55616e}\
.fault{fill:#8c2610;font-weight:600}\
.middle{text-anchor:middle}\
.end{text-anchor:end}\
.count{font-size:10px;font-weight:700;text-anchor:middle;fill:#8c2610}\
.light{fill:#fff}\
.small{font-size:8px;font-weight:400}\
.page{fill:#fdfdfb;stroke:#c5ccd3}\
.rule{stroke:#c5ccd3}\
.leader{fill:none;stroke:#8a95a1;pointer-events:none}\
.plate{fill:#fff}\
.live{fill:#1d5c8a;stroke:#123f60}\
.free{fill:url(#free);stroke:#7d8894}\
.holder{fill:#e3e8ed;stroke:#7d8894}\
.nothing{fill:#fdfdfb}\
.space{stroke:#8a95a1;stroke-width:2;stroke-dasharray:2 2}\
.named{fill:#f2a900;stroke:#1b2530}\
.verified{fill:#a6d9c6;stroke:#2c7a63}\
.some{fill:#fff;stroke:#b13a1c;stroke-width:2}\
.not{fill:#b13a1c;stroke:#7a2410}\
.cross{fill:none;stroke:#fff;stroke-width:2;stroke-linecap:round}\
.tick{fill:none;stroke:#1b5f4b;stroke-width:2;stroke-linecap:round;stroke-linejoin:round}";

/// A place on the page, or a width and a height.
pub type Pair = (Px, Px);

/// What is drawn so far, and how far down the page it reaches.
#[derive(Default)]
pub struct Page {
    pub svg: Svg,
    pub y: Px,
}

/// How much of something is live.
#[derive(Clone, Copy, Debug, PartialEq, Eq)]
pub struct Share {
    pub live: u64,
    pub all: u64,
}

impl Share {
    /// The live part of a height. Any that is live is seen, and any that is free is too.
    fn of_height(self, height: Px) -> Px {
        let exact = (u128::from(self.live) * height as u128 / u128::from(self.all.max(1))) as Px;
        match self.live {
            0 => 0,
            live if live == self.all => height,
            _ => exact.clamp(LEAST_SHARE, height - LEAST_SHARE),
        }
    }
}

const LEAST_SHARE: Px = 3;

/// A cell's sign, as in the legend and beside the verdict.
pub const SIGN: Pair = (18, 18);
/// From the top of a sign or a cell to the foot of the letters beside it.
pub const BASELINE: Px = 13;
/// From the middle of a letter to its foot.
const HALF_LETTER: Px = 4;
const LINE: Px = 15;
const ROW_GAP: Px = 14;
const SECTION_GAP: Px = 18;

impl Page {
    pub fn text(&mut self, (x, y): Pair, class: &str, text: &str) {
        self.svg.said("text", &[("x", &x), ("y", &y), ("class", &class)], text);
    }

    /// A rectangle of a class. The line around it lies inside the size, on whole pixels.
    pub fn rectangle(&mut self, class: &str, (x, y): Pair, (width, height): Pair) {
        self.line(class, &format!("M{x}.5 {y}.5h{}v{}h-{}z", width - 1, height - 1, width - 1));
    }

    /// Live bytes are solid and free ones hatched; where there are both, the solid part rises from the bottom by
    /// its share.
    pub fn share(&mut self, share: Share, (x, y): Pair, (width, height): Pair) {
        let live = share.of_height(height);
        if live < height {
            self.rectangle("free", (x, y), (width, height));
        }
        if live > 0 {
            self.rectangle("live", (x, y + height - live), (width, live));
        }
    }

    /// Space that no field names: a line, so that nothing seems to stand there. Its height is there to point at.
    pub fn space(&mut self, (x, y): Pair, (width, height): Pair) {
        self.rectangle("nothing", (x, y), (width, height));
        self.line("space", &format!("M{x} {}.5h{width}", y + height / 2));
    }

    /// A diamond: a free copy that the inactive table names.
    pub fn diamond(&mut self, (x, y): Pair) {
        self.line("named", &format!("M{x} {}l4 4l-4 4l-4-4z", y - 4));
    }

    /// A cross: a block that is not verified.
    pub fn cross(&mut self, (x, y): Pair) {
        self.line("cross", &format!("M{} {}l7 7m0-7l-7 7", x - 3, y - 3));
    }

    /// How many blocks of a cell are not verified.
    pub fn count(&mut self, (x, y): Pair, class: &str, number: u64) {
        let text = if number < 1000 { number.to_string() } else { format!("{}k", number / 1000) };
        let class = if text.len() < 3 { class.to_string() } else { format!("{class} small") };
        self.text((x, y + HALF_LETTER), &class, &text);
    }

    pub fn line(&mut self, class: &str, path: &str) {
        self.svg.empty("path", &[("class", &class), ("d", &path)]);
    }

    /// A letter or a digit on a light plate, readable on any pattern.
    pub fn plate(&mut self, (x, y): Pair, text: &str) {
        let place = (x - 6, y - 7);
        self.svg.empty(
            "rect",
            &[("class", &"plate"), ("x", &place.0), ("y", &place.1), ("width", &12), ("height", &14), ("rx", &3)],
        );
        self.text((x, y + HALF_LETTER), "middle", text);
    }

    /// A line across the page between two sections.
    pub fn section(&mut self) {
        self.line("rule", &format!("M{MARGIN} {}.5H{}", self.y, WIDTH - MARGIN));
        self.y += SECTION_GAP;
    }

    /// What `inside` draws, as a group that can be found by its name.
    pub fn group(&mut self, name: &str, inside: impl FnOnce(&mut Page)) {
        let drawn = self.apart(inside);
        self.svg.within("g", &[("id", &name)], |svg| svg.append(drawn));
    }

    /// What `inside` draws, with a title to be read when the pointer rests on it.
    pub fn titled(&mut self, title: &str, inside: impl FnOnce(&mut Page)) {
        let drawn = self.apart(inside);
        self.svg.within("g", &[], |svg| {
            svg.said("title", &[], title);
            svg.append(drawn);
        });
    }

    /// What `inside` draws on this page, but not yet put onto it.
    fn apart(&mut self, inside: impl FnOnce(&mut Page)) -> Svg {
        let before = std::mem::take(&mut self.svg);
        inside(self);
        std::mem::replace(&mut self.svg, before)
    }

    /// A name with details in the left column, each with its class, and beside it what `content` draws.
    pub fn row(&mut self, name: &str, details: &[(&str, String)], content: impl FnOnce(&mut Page)) {
        let top = self.y;
        self.text((MARGIN, top + BASELINE), "name", name);
        for (line, (class, detail)) in (1..).zip(details) {
            self.text((MARGIN, top + BASELINE + line * LINE), class, detail);
        }
        content(self);
        let label_end = top + (1 + details.len() as Px) * LINE;
        self.y = self.y.max(label_end) + ROW_GAP;
    }

    /// A tick or a cross whose right end is at a place, and words before it.
    pub fn verdict(&mut self, (right, y): Pair, good: bool, words: &str) {
        let place = (right - SIGN.0, y);
        let middle = (place.0 + SIGN.0 / 2, y + SIGN.1 / 2);
        self.text((place.0 - 8, y + BASELINE), "name end", words);
        if good {
            self.rectangle("verified", place, SIGN);
            self.line("tick", &format!("M{} {}l3 4l6-8", middle.0 - 5, middle.1));
        } else {
            self.rectangle("not", place, SIGN);
            self.cross(middle);
        }
    }

    /// The whole picture: its title and description for those who do not see it, its look, and the page.
    pub fn finish(self, title: &str, description: &str) -> String {
        let height = self.y - ROW_GAP + MARGIN;
        let mut svg = Svg::default();
        let size = format!("0 0 {WIDTH} {height}");
        let attributes: Attributes = &[
            ("xmlns", &"http://www.w3.org/2000/svg"),
            ("width", &WIDTH),
            ("height", &height),
            ("viewBox", &size),
            ("role", &"img"),
        ];
        svg.within("svg", attributes, |svg| {
            svg.said("title", &[], title);
            svg.said("desc", &[], description);
            svg.said("style", &[], STYLE);
            svg.within("defs", &[], hatching);
            let inside = (WIDTH - 1, height - 1);
            svg.empty(
                "rect",
                &[
                    ("class", &"page"),
                    ("x", &0.5),
                    ("y", &0.5),
                    ("width", &inside.0),
                    ("height", &inside.1),
                    ("rx", &8),
                ],
            );
            svg.append(self.svg);
        });
        svg.finish()
    }
}

/// The pattern of what is free.
fn hatching(svg: &mut Svg) {
    svg.within(
        "pattern",
        &[
            ("id", &"free"),
            ("width", &5),
            ("height", &5),
            ("patternUnits", &"userSpaceOnUse"),
            ("patternTransform", &"rotate(45)"),
        ],
        |svg| {
            svg.empty("rect", &[("width", &5), ("height", &5), ("fill", &"#fff")]);
            svg.empty("rect", &[("width", &1.2), ("height", &5), ("fill", &"#97a2ad")]);
        },
    );
}
