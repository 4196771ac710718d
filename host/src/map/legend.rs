//! What the signs mean.

use super::page::{Page, Pair, Share, BASELINE, CONTENT_X, SIGN};
use super::svg::Px;

/// Where the signs of a line stand, and how far behind each its words.
const COLUMNS: [Px; 4] = [0, 96, 212, 484];
const WORDS: Px = 26;

/// A sign and what it means.
type Entry<'a> = (&'a dyn Fn(&mut Page, Pair), &'a str);

pub fn draw(page: &mut Page) {
    page.row("Copies", &[], |page| {
        let share = |live| move |page: &mut Page, place| page.share(Share { live, all: 2 }, place, SIGN);
        let named = "free, but named by the inactive table";
        draw_line(page, &[(&share(2), "live"), (&share(0), "free"), (&draw_named, named), (&share(1), "some of each")]);
    });
    page.row("Blocks", &[], |page| {
        let verified: Entry = (&|page, place| page.rectangle("verified", place, SIGN), "verified");
        let some = "so many in the cell are not verified";
        draw_line(page, &[verified, (&draw_not, "not verified"), (&draw_some, some)]);
        page.y += NOTE_GAP;
        NOTES.iter().for_each(|note| draw_note(page, note));
    });
}

/// What a reader may take a sign for, and should not.
const NOTES: [&str; 2] = [
    "What the inactive table names is what a session has staged, or what was committed before.",
    "A block that was never written need not be verified.",
];
const NOTE_GAP: Px = 8;
const NOTE_LINE: Px = 15;

fn draw_note(page: &mut Page, note: &str) {
    page.text((CONTENT_X, page.y + NOTE_LINE - 4), "detail", note);
    page.y += NOTE_LINE;
}

fn draw_line(page: &mut Page, entries: &[Entry]) {
    for ((sign, words), column) in entries.iter().zip(COLUMNS) {
        let x = CONTENT_X + column;
        sign(page, (x, page.y));
        page.text((x + WORDS, page.y + BASELINE), "words", words);
    }
    page.y += SIGN.1;
}

fn draw_named(page: &mut Page, (x, y): Pair) {
    page.share(Share { live: 0, all: 1 }, (x, y), SIGN);
    page.diamond((x + SIGN.0 / 2, y + SIGN.1 / 2));
}

fn draw_not(page: &mut Page, (x, y): Pair) {
    page.rectangle("not", (x, y), SIGN);
    page.cross((x + SIGN.0 / 2, y + SIGN.1 / 2));
}

fn draw_some(page: &mut Page, (x, y): Pair) {
    page.rectangle("some", (x, y), SIGN);
    page.count((x + SIGN.0 / 2, y + SIGN.1 / 2), "count", 3);
}
