//! Cells of blocks: which copies of a pair are live, and which blocks of a level are verified.

use super::cells::{CopyCells, Grouping};
use super::geometry::Copies;
use super::page::{Page, Pair, Share, BASELINE, CONTENT_WIDTH, CONTENT_X, SIGN};
use super::svg::Px;
use super::words::{block_range, counted, grouped};

/// The cells of a row start here; before them stands what the row is.
const CELLS_X: Px = CONTENT_X + ROW_NAME;
const ROW_NAME: Px = 44;
const COLUMNS: Px = 32;
/// From a cell to the next one.
const PITCH: Px = (CONTENT_WIDTH - ROW_NAME) / COLUMNS;
const HEIGHT: Px = SIGN.1;
const ROW: Px = HEIGHT + 3;

/// Cells of copies hold no number, so a row takes twice as many.
const MOST_COPY_CELLS: u64 = 2 * COLUMNS as u64;

/// How many cells levels 1 to 4 have at most, in rows of 32: the lower a level, the more blocks it has.
pub const MOST_LEVEL_CELLS: [u64; 4] = [64, 64, 128, 256];

pub fn copy_grouping(copies: &Copies) -> Grouping {
    Grouping::new(copies.blocks(), MOST_COPY_CELLS)
}

/// Both copies of a pair, one above the other. `what` is what a copy is called.
pub fn draw_copies(page: &mut Page, copies: &Copies, what: &str) {
    for copy in [0, 1] {
        draw_copy(page, copies, copy, &format!("{what} {copy}"));
        page.y += ROW;
    }
}

/// One copy's cells in a row, behind its name.
fn draw_copy(page: &mut Page, copies: &Copies, copy: u8, name: &str) {
    let grouping = copy_grouping(copies);
    let pitch = (COLUMNS * PITCH / grouping.cells() as Px).min(PITCH);
    let y = page.y;
    page.text((CONTENT_X, y + BASELINE), "detail", name);
    let cells = CopyCells::of(copies, grouping, copy);
    for (cell, (live, named)) in (0..).zip(cells.live.into_iter().zip(cells.named)) {
        let x = CELLS_X + cell as Px * pitch;
        let share = Share { live, all: grouping.size(cell) };
        page.titled(&copy_title(grouping, cell, name, share, named), |page| {
            page.share(share, (x, y), (pitch - 1, HEIGHT));
            if named > 0 {
                page.diamond((x + pitch / 2, y + HEIGHT / 2));
            }
        });
    }
}

fn copy_title(grouping: Grouping, cell: u64, copy: &str, Share { live, all }: Share, named: u64) -> String {
    let (first, last) = grouping.range(cell);
    let mut title = format!("{}, {copy}: ", block_range(first, last));
    title += &match live {
        0 => "free".to_string(),
        _ if live == all => "live".to_string(),
        _ => format!("{} live, {} free", grouped(live), grouped(all - live)),
    };
    match named {
        0 => {}
        _ if all == 1 => title += ", named by the inactive table",
        _ => title += &format!(", {} of the free named by the inactive table", grouped(named)),
    }
    title
}

/// The blocks of a level, with those that are not verified.
pub fn draw_level(page: &mut Page, grouping: Grouping, faults: &[u64]) {
    for (cell, not) in (0..).zip(grouping.count(faults.iter().copied())) {
        let (column, row) = (cell as Px % COLUMNS, cell as Px / COLUMNS);
        let place = (CELLS_X + column * PITCH, page.y + row * ROW);
        draw_cell(page, grouping, cell, not, place);
    }
    let rows = (grouping.cells() as Px + COLUMNS - 1) / COLUMNS;
    page.y += rows * ROW;
}

fn draw_cell(page: &mut Page, grouping: Grouping, cell: u64, not: u64, (x, y): Pair) {
    let (first, last) = grouping.range(cell);
    let all = grouping.size(cell);
    let size = (PITCH - 2, HEIGHT);
    let middle = (x + size.0 / 2, y + HEIGHT / 2);
    page.titled(&format!("{}: {}", block_range(first, last), verdict(not, all)), |page| match not {
        0 => page.rectangle("verified", (x, y), size),
        _ if not < all => {
            page.rectangle("some", (x, y), size);
            page.count(middle, "count", not);
        }
        _ => {
            page.rectangle("not", (x, y), size);
            if grouping.per_cell == 1 {
                page.cross(middle);
            } else {
                page.count(middle, "count light", not);
            }
        }
    });
}

/// What is said of a cell's blocks, of which so many are not verified.
fn verdict(not: u64, all: u64) -> String {
    match (not, all) {
        (0, 1) => "verified".into(),
        (0, _) => "all verified".into(),
        (1, 1) => "not verified".into(),
        _ if not == all => format!("none of {} verified", grouped(all)),
        _ => format!("{} of {} not verified", grouped(not), counted(all, "block")),
    }
}
