//! A run to look at: its story, and the drawing of it as a page or as a picture alone.
mod data;
mod draw;
mod events;
mod html;
mod layout;
mod pen;
mod say;
pub mod scene;
pub mod story;
mod strip;
mod svg;

use draw::Drawing;
use std::ops::Range;
pub use story::Story;
pub use svg::opening;

/// The whole run as a page.
pub fn page(story: &Story) -> String {
    html::html(&Drawing::of(story))
}

/// The picture of some records, from 0, as an SVG file.
pub fn picture(story: &Story, records: Range<usize>) -> String {
    svg::svg(&Drawing::of(story), records)
}
