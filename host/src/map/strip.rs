//! A strip: pieces side by side, to scale, with labels below.

use super::page::{Page, Pair, Share, CONTENT_WIDTH, CONTENT_X, DETAIL_SIZE, NAME_SIZE};
use super::spacing::{spread, text_width, widths, Label, ToScale};
use super::svg::Px;

/// A stretch of a strip.
pub struct Stretch {
    pub bytes: u64,
    /// From the left: one part, or both halves of a pair.
    pub parts: Vec<Part>,
    /// Name and detail, to stand below; nothing for space that no field names.
    pub label: Option<(String, String)>,
}

pub struct Part {
    pub look: Look,
    /// A letter or a digit to stand inside, or nothing.
    pub letter: String,
    pub title: String,
}

#[derive(Clone, Copy)]
pub enum Look {
    /// Live, free, or some of each.
    Share(Share),
    /// What it holds is shown further down.
    Holder,
    /// Space that no field names.
    Space,
}

const HEIGHT: Px = 24;
/// Between stretches; the halves of a pair are closer.
const GAP: Px = 4;
/// From a stretch's bottom to its label: a bracket, and a line to where there is room for the label.
const BRACKET: Px = 4;
const LEADER: Px = 18;
const LABEL_GAP: Px = 12;
/// Wide enough for a letter, and to point at.
const LEAST_PART: Px = 18;
const LEAST_SPACE: Px = 12;

/// Draws a strip at the page's height and leaves the page below its labels.
pub fn draw(page: &mut Page, stretches: &[Stretch]) {
    let pieces: Vec<ToScale> = stretches.iter().map(to_scale).collect();
    let mut x = CONTENT_X;
    let mut named = Vec::new();
    for (stretch, width) in stretches.iter().zip(widths(&pieces, CONTENT_WIDTH + GAP)) {
        draw_parts(page, stretch, x, width - GAP);
        named.extend(stretch.label.as_ref().map(|label| Named { x, width: width - GAP, label }));
        x += width;
    }
    page.y += HEIGHT;
    draw_labels(page, &named);
    page.y += LEADER + NAME_SIZE + DETAIL_SIZE + 4;
}

fn to_scale(stretch: &Stretch) -> ToScale {
    let least = if stretch.label.is_some() { LEAST_PART * stretch.parts.len() as Px } else { LEAST_SPACE };
    ToScale { bytes: stretch.bytes, least: least + GAP }
}

fn draw_parts(page: &mut Page, stretch: &Stretch, x: Px, width: Px) {
    let count = stretch.parts.len() as Px;
    for (index, part) in (0..).zip(&stretch.parts) {
        // The halves of a pair are one pixel apart.
        let (from, to) = (x + (width + 1) * index / count, x + (width + 1) * (index + 1) / count);
        draw_part(page, part, (from, page.y), (to - from - 1, HEIGHT));
    }
}

fn draw_part(page: &mut Page, part: &Part, (x, y): Pair, (width, height): Pair) {
    page.titled(&part.title, |page| {
        match part.look {
            Look::Share(share) => page.share(share, (x, y), (width, height)),
            Look::Holder => page.rectangle("holder", (x, y), (width, height)),
            Look::Space => page.space((x, y), (width, height)),
        }
        if !part.letter.is_empty() {
            page.plate((x + width / 2, y + height / 2), &part.letter);
        }
    });
}

/// A stretch as it was drawn, with its label.
struct Named<'a> {
    x: Px,
    width: Px,
    label: &'a (String, String),
}

fn draw_labels(page: &mut Page, named: &[Named]) {
    let label = |Named { x, width, label: (name, detail) }: &Named| Label {
        wanted: x + width / 2 - CONTENT_X,
        width: text_width(name, NAME_SIZE).max(text_width(detail, DETAIL_SIZE)),
    };
    let labels: Vec<Label> = named.iter().map(label).collect();
    for (place, named) in spread(&labels, CONTENT_WIDTH, LABEL_GAP).into_iter().zip(named) {
        draw_label(page, named, CONTENT_X + place);
    }
}

/// The bracket below a stretch, a line from its middle to the label, and the label.
fn draw_label(page: &mut Page, Named { x, width, label: (name, detail) }: &Named, middle: Px) {
    let y = page.y;
    let (from, to) = (x + width / 2, y + LEADER - 2);
    page.line("leader", &format!("M{x}.5 {}.5v{BRACKET}h{}v-{BRACKET}", y + 2, width - 1));
    page.line("leader", &format!("M{from}.5 {}.5L{middle}.5 {to}.5", y + 2 + BRACKET));
    page.text((middle, y + LEADER + NAME_SIZE - 1), "name middle", name);
    page.text((middle, y + LEADER + NAME_SIZE + DETAIL_SIZE + 2), "detail middle", detail);
}
