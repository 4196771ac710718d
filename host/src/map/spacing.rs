//! Where things go along a line: pieces to scale that stay visible however small, and labels that keep clear of
//! each other.

use super::svg::Px;

/// A piece of a strip: its size in bytes, and the width below which it is not drawn.
#[derive(Clone, Copy, Debug)]
pub struct ToScale {
    pub bytes: u64,
    pub least: Px,
}

/// Widths that fill a strip: to scale, but for pieces that would come out narrower than their least width; these
/// get that. The least widths together must be less than the strip's.
pub fn widths(pieces: &[ToScale], strip: Px) -> Vec<Px> {
    let mut widths: Vec<Option<Px>> = vec![None; pieces.len()];
    loop {
        let scale = Scale::of_rest(pieces, &widths, strip);
        let too_small =
            |(piece, width): (&ToScale, &Option<Px>)| width.is_none() && scale.width(piece.bytes) < piece.least;
        let Some(index) = pieces.iter().zip(&widths).position(too_small) else {
            return fill(pieces, &widths, strip, &scale);
        };
        widths[index] = Some(pieces[index].least);
    }
}

/// How bytes become a width, for the pieces whose width is not settled.
struct Scale {
    bytes: u64,
    room: Px,
}

impl Scale {
    fn of_rest(pieces: &[ToScale], widths: &[Option<Px>], strip: Px) -> Scale {
        let settled: Px = widths.iter().flatten().sum();
        let rest = pieces.iter().zip(widths).filter(|(_, width)| width.is_none());
        Scale { bytes: rest.map(|(piece, _)| piece.bytes).sum(), room: strip - settled }
    }

    fn width(&self, bytes: u64) -> Px {
        (i128::from(bytes) * i128::from(self.room) / i128::from(self.bytes.max(1))) as Px
    }
}

/// The settled widths and the scaled ones; the largest piece takes what rounding down has left.
fn fill(pieces: &[ToScale], settled: &[Option<Px>], strip: Px, scale: &Scale) -> Vec<Px> {
    let mut widths: Vec<Px> =
        pieces.iter().zip(settled).map(|(piece, width)| width.unwrap_or_else(|| scale.width(piece.bytes))).collect();
    let left = strip - widths.iter().sum::<Px>();
    if let Some((_, width)) = pieces.iter().zip(&mut widths).max_by_key(|(piece, _)| piece.bytes) {
        *width += left;
    }
    widths
}

/// A label: the middle of what it names, and how wide its text is.
#[derive(Clone, Copy, Debug)]
pub struct Label {
    pub wanted: Px,
    pub width: Px,
}

/// The middles of labels on a line from 0 to `line`: each as near to what it names as its neighbours let it, none
/// within `gap` of the next. Labels come in the order of what they name, and must fit on the line together.
pub fn spread(labels: &[Label], line: Px, gap: Px) -> Vec<Px> {
    let mut lefts = lefts_clear_of_those_before(labels, gap);
    push_back_onto_line(&mut lefts, labels, line, gap);
    lefts.iter().zip(labels).map(|(left, label)| left + label.width / 2).collect()
}

/// The left ends of labels where they are wanted, or as far to the right as those before them make it. The last ones
/// may stand beyond the line's end.
fn lefts_clear_of_those_before(labels: &[Label], gap: Px) -> Vec<Px> {
    let mut lefts = Vec::with_capacity(labels.len());
    let mut reached = 0;
    for label in labels {
        let left = (label.wanted - label.width / 2).max(reached);
        lefts.push(left);
        reached = left + label.width + gap;
    }
    lefts
}

/// Moves labels to the left, from the last one on, as far as the line's end and those behind them make it.
fn push_back_onto_line(lefts: &mut [Px], labels: &[Label], line: Px, gap: Px) {
    let mut limit = line;
    for (left, label) in lefts.iter_mut().zip(labels).rev() {
        *left = (*left).min(limit - label.width);
        limit = *left - gap;
    }
}

/// How wide a text may come out in whatever sans-serif font the viewer has. DejaVu Sans is about the widest in use:
/// there, the labels of a map take 0.55 of the font's size for a letter.
pub fn text_width(text: &str, font_size: Px) -> Px {
    text.chars().count() as Px * font_size * 60 / 100
}

#[cfg(test)]
mod tests {
    use super::*;

    fn to_scale(sizes: &[u64], least: Px) -> Vec<ToScale> {
        sizes.iter().map(|bytes| ToScale { bytes: *bytes, least }).collect()
    }

    #[test]
    fn large_pieces_are_to_scale_and_small_ones_are_seen() {
        assert_eq!(widths(&to_scale(&[100, 300], 10), 400), [100, 300]);
        assert_eq!(widths(&to_scale(&[1, 1000, 3000], 10), 410), [10, 100, 300]);
    }

    #[test]
    fn every_strip_is_filled_and_no_piece_is_below_its_least_width() {
        let mut state = 1u64;
        let mut next = |below: u64| {
            state = state.wrapping_mul(6364136223846793005).wrapping_add(1442695040888963407);
            (state >> 33) % below
        };
        for _ in 0..2000 {
            let sizes: Vec<u64> = (0..1 + next(11)).map(|_| 1 + (next(1 << 26) >> next(26))).collect();
            let widths = widths(&to_scale(&sizes, 30), 688);
            assert_eq!(widths.iter().sum::<Px>(), 688, "{sizes:?}");
            assert!(widths.iter().all(|width| *width >= 30), "{sizes:?} {widths:?}");
        }
    }

    #[test]
    fn labels_with_room_stay_where_they_are_wanted() {
        let labels = [Label { wanted: 50, width: 40 }, Label { wanted: 150, width: 40 }];
        assert_eq!(spread(&labels, 200, 8), [50, 150]);
    }

    #[test]
    fn crowded_labels_keep_clear_of_each_other_and_of_both_ends() {
        for wanted in [[0, 1, 2, 3, 4], [300, 300, 300, 300, 300], [596, 597, 598, 599, 600], [0, 0, 300, 600, 600]] {
            let labels = wanted.map(|wanted| Label { wanted, width: 100 });
            let middles = spread(&labels, 600, 8);
            assert!(middles[0] >= 50 && middles[4] <= 550, "{middles:?}");
            assert!(middles.windows(2).all(|pair| pair[1] - pair[0] >= 108), "{middles:?}");
        }
    }
}
