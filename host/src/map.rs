//! A picture of an image, for somebody who wants to see at a glance what stands: where the header, the tables, the
//! partitions and the pairs of halves lie, which copies are live and which free, and which blocks are verified.

mod cells;
mod facts;
mod geometry;
mod grid;
mod legend;
mod page;
mod picture;
mod spacing;
mod stretches;
mod strip;
mod svg;
mod words;

use crate::{Image, Refusal};

/// One self-contained SVG picture of an image, with no script and no font of its own; refused if the image does not
/// open. It shows the committed view, and of the inactive table which free copies it names: they hold what a
/// session has staged, or what was committed before.
///
/// ```
/// use teplovist::{map, Image, Kind};
///
/// let image = Image::blank(Kind::Disa, 4)?;
/// let picture = map(&image)?;
/// assert!(picture.starts_with("<svg "));
/// # Ok::<(), teplovist::Refusal>(())
/// ```
pub fn map(image: &Image<impl AsRef<[u8]>>) -> Result<String, Refusal> {
    Ok(picture::draw(&facts::Facts::of(image)?))
}
