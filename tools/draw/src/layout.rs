//! Where the parts of a picture stand, in pixels: the map with its axes, the title above, the legend beside it and
//! the scale below.

use crate::axis::{self, Axis, Tick};
use crate::options::Page;
use crate::terrain::Terrain;

/// The size of a text's letters.
pub const LETTER: f64 = 12.0;
/// About how wide a letter is.
pub const LETTER_WIDTH: f64 = 7.7;
/// How wide a letter of the title is, and how many make a page wider.
const TITLE_WIDTH: f64 = 9.3;
const TITLE_LETTERS: usize = 60;

const TOP: f64 = 44.0;
const BOTTOM: f64 = 66.0;
/// What the parts are apart.
pub const GAP: f64 = 20.0;
/// The longer side of the map, where no size is asked for.
const LONGER: f64 = 600.0;
/// A side that would be shorter than this share of the other is drawn larger than the other.
const FLATTEST: f64 = 0.25;
/// What the numbers of an axis are apart.
const ROWS_APART: f64 = 44.0;
/// The room of a scale beside the map.
const SCALE_DOWN: f64 = 165.0;

/// Where the parts of a picture stand.
pub struct Layout {
    /// The page's size.
    pub width: f64,
    pub height: f64,
    /// The map's left and upper side, and its size.
    pub left: f64,
    pub top: f64,
    pub map_width: f64,
    pub map_height: f64,
    /// The map's sides in its own coordinates.
    pub x: Axis,
    pub y: Axis,
    /// How many pixels a column and a row of samples take.
    pub column: f64,
    pub row: f64,
    /// Coordinates are those of a map, and not grid units.
    pub on_map: bool,
}

impl Layout {
    /// The size of the title's letters.
    pub const TITLE: f64 = 16.0;

    /// Lays out a terrain, placed or in grid units, below a title and beside a legend of this width; or says why
    /// it cannot.
    pub fn new(terrain: &Terrain, page: &Page, legend: f64, title: &str) -> Result<Self, String> {
        let [dx, dy] = [terrain.dx as f64, terrain.dy as f64];
        let at = terrain.placement.unwrap_or_default();
        let x = side(at.x_origin, at.x_step, dx);
        let y = side(at.y_origin, at.y_step, dy);
        let left = GAP + longest(&y) * LETTER_WIDTH;
        let ratio = x.extent() / y.extent();
        let scale_down = if shown(ratio) == ratio {
            0.0
        } else {
            SCALE_DOWN
        };
        let beside = left + GAP + legend.max(scale_down) + GAP;
        let titled = left + title.chars().count().min(TITLE_LETTERS) as f64 * TITLE_WIDTH + GAP;
        let room = [
            page.width.map(|w| w - beside),
            page.height.map(|h| h - TOP - BOTTOM),
        ];
        if room.iter().flatten().any(|side| *side < GAP) {
            return Err(
                "the picture is too small for a map beside its axes and its legend".to_owned(),
            );
        }
        let (map_width, map_height) = fit(ratio, room);
        Ok(Layout {
            width: page
                .width
                .unwrap_or((beside + map_width).max(titled).ceil()),
            height: page.height.unwrap_or((TOP + map_height + BOTTOM).ceil()),
            left,
            top: TOP,
            map_width,
            map_height,
            x,
            y,
            column: map_width / dx,
            row: map_height / dy,
            on_map: terrain.placement.is_some(),
        })
    }

    /// The smaller side of a cell, which bounds strokes.
    pub fn cell(&self) -> f64 {
        self.column.min(self.row)
    }

    /// Whether a length across is as long as one down.
    pub fn is_even(&self) -> bool {
        let across = self.map_width / self.x.extent();
        let down = self.map_height / self.y.extent();
        (across / down - 1.0).abs() < 1e-6
    }

    /// The map's right side.
    pub fn right(&self) -> f64 {
        self.left + self.map_width
    }

    /// The map's lower side.
    pub fn bottom(&self) -> f64 {
        self.top + self.map_height
    }

    /// A title, cut where the page ends.
    pub fn shortened(&self, title: &str) -> String {
        let letters = ((self.width - self.left) / TITLE_WIDTH) as usize;
        match title.chars().count() > letters {
            true => title
                .chars()
                .take(letters.saturating_sub(3))
                .chain("...".chars())
                .collect(),
            false => title.to_owned(),
        }
    }

    /// The numbers along the lower side, and along the left one.
    pub fn ticks(&self) -> [Vec<Tick>; 2] {
        let ends = [self.x.from, self.x.to].map(|end| self.x_text_length(end));
        let apart = ends[0].max(ends[1]) * LETTER_WIDTH + GAP;
        [
            self.x.ticks(self.map_width, apart),
            self.y.ticks(self.map_height, ROWS_APART),
        ]
    }

    /// How many letters a number about as large as this takes.
    fn x_text_length(&self, end: f64) -> f64 {
        axis::text(end, self.x.extent() / 10.0).len() as f64
    }
}

fn side(origin: f64, step: f64, count: f64) -> Axis {
    Axis {
        from: origin,
        to: count * step + origin,
    }
}

/// How many letters the numbers beside a side take.
fn longest(axis: &Axis) -> f64 {
    let ticks = axis.ticks(LONGER, ROWS_APART);
    ticks.iter().map(|tick| tick.text.len()).max().unwrap_or(0) as f64
}

/// How many times its height a map's width is drawn. A long and narrow one takes a scale of its own for each side.
fn shown(ratio: f64) -> f64 {
    match ratio.is_finite() {
        true => ratio.clamp(FLATTEST, 1.0 / FLATTEST),
        false => 1.0,
    }
}

/// The size of a map of this ratio, in the room that is given.
fn fit(ratio: f64, room: [Option<f64>; 2]) -> (f64, f64) {
    let shown = shown(ratio);
    match room {
        [Some(width), Some(height)] if shown != ratio => (width, height),
        [Some(width), Some(height)] => within(shown, width, height),
        [Some(width), None] => (width, width / shown),
        [None, Some(height)] => (height * shown, height),
        [None, None] => within(shown, LONGER, LONGER),
    }
}

fn within(ratio: f64, width: f64, height: f64) -> (f64, f64) {
    let height = height.min(width / ratio);
    (height * ratio, height)
}
