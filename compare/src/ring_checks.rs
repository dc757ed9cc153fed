//! The two reports and `contour_rings` on whole terrains: every answer and every word of every table. Most of the
//! terrains are compared row by row too, and some by their rings' fates.

use crate::asked::Asked;
use crate::calls::{compare_asked, compare_exact};
use crate::counts::peak_by_lookup;
use crate::kinds::Kind;
use crate::random::Random;
use crate::rings::{flat_grid, random_grid, small_grids, Grid};
use crate::rules::Rule;
use crate::shapes::{self, LONGEST_SIDE};
use crate::tally::Tally;

/// What a terrain is compared by: all of it at once, row by row, its fates, its lines, or its smoothed vertices.
pub type Compare = fn(&mut Tally, &mut Random, &Grid);

/// How many small grids of random shape a round draws.
const SMALL_GRIDS: usize = 165_000;

/// Every two-valued grid of up to twelve samples. The driver's own count of H is looked up here too. Like
/// the next three it returns how many grids there were.
pub fn all_small_grids(tally: &mut Tally, random: &mut Random) -> u64 {
    let mut grids = 0;
    for grid in small_grids(12) {
        grids += 1;
        let drawing = compare_asked(tally, random, &Asked::new(Kind::Rings, &grid));
        let peak = peak_by_lookup(&grid);
        assert!(drawing.counts.peak == peak, "two counts of H");
    }
    grids
}

/// Random grids of sides up to nine.
pub fn random_small_grids(tally: &mut Tally, random: &mut Random, compare: Compare) -> u64 {
    shapes::small(random, SMALL_GRIDS, |random, dx, dy| {
        compare_random(tally, random, dx, dy, compare)
    })
}

/// A random grid of every shape up to 64 by 64.
pub fn every_shape(tally: &mut Tally, random: &mut Random, compare: Compare) -> u64 {
    shapes::every(random, 64, |random, dx, dy| {
        compare_random(tally, random, dx, dy, compare)
    })
}

/// Sides of one to four by up to the longest side, both ways.
pub fn thin_grids(tally: &mut Tally, random: &mut Random, compare: Compare) -> u64 {
    shapes::thin(random, |random, dx, dy| {
        compare_random(tally, random, dx, dy, compare)
    })
}

/// Columns about whole words of 64 samples, and rows about tiles of 66: a random grid and a flat one of each
/// shape.
pub fn words_and_tiles(tally: &mut Tally, random: &mut Random, compare: Compare) -> u64 {
    shapes::words_and_tiles(random, |random, dx, dy| {
        let grids = compare_random(tally, random, dx, dy, compare);
        let flat = flat_grid(random, dx, dy);
        compare(tally, random, &flat);
        grids + 1
    })
}

/// A random grid of this shape; returns 1.
fn compare_random(
    tally: &mut Tally,
    random: &mut Random,
    dx: usize,
    dy: usize,
    compare: Compare,
) -> u64 {
    let grid = random_grid(random, dx, dy);
    compare(tally, random, &grid);
    1
}

/// Both sides the longest, in exact room.
pub fn largest_grid(tally: &mut Tally, random: &mut Random, rule: Rule) {
    let grid = largest().ones_by(rule);
    compare_exact(tally, random, &Asked::new(Kind::Rings, &grid));
}

/// Both sides the longest: a frame whose upper and lower side are dotted, so that rings reach every corner and
/// the peak is large.
pub fn largest() -> Grid {
    let last = LONGEST_SIDE - 1;
    Grid::new(LONGEST_SIDE, LONGEST_SIDE, 1.0, |x, y| {
        let dotted = (y == 0 || y == last) && x % 2 == 0;
        f64::from(u8::from(dotted || x == 0 || x == last))
    })
}

/// Every entry in every kind of room.
pub fn compare_grid(tally: &mut Tally, random: &mut Random, grid: &Grid) {
    compare_asked(tally, random, &Asked::new(Kind::Rings, grid));
}
