//! `contour_lines` on whole terrains: every answer and every word of every table. Each function returns how many
//! terrains there were. On most of them what smoothing does to a vertex is compared too.

use crate::asked::Asked;
use crate::calls::{compare_asked, compare_exact};
use crate::lines::{dressed, random_line_grid, random_pen, Pen, PLACEMENTS, SMOOTH};
use crate::random::Random;
use crate::ring_checks::{largest, Compare};
use crate::rings::{small_grids, Grid};
use crate::shapes;
use crate::tally::Tally;

/// How many small grids of random shape a round draws.
const SMALL_GRIDS: usize = 30_000;
/// How many terrains are drawn with every pen.
const PENNED: usize = 40;

/// Every two-valued grid of up to twelve samples, as it is and with other values.
pub fn all_small_grids(tally: &mut Tally, random: &mut Random, compare: Compare) -> u64 {
    let mut grids = 0;
    for grid in small_grids(12) {
        compare(tally, random, &grid);
        let grid = dressed(random, &grid);
        compare(tally, random, &grid);
        grids += 2;
    }
    grids
}

/// Some terrains with each number for smoothing and each placement of the lists.
pub fn every_pen(tally: &mut Tally, random: &mut Random) -> u64 {
    shapes::small(random, PENNED, |random, dx, dy| {
        let grid = random_line_grid(random, dx, dy);
        for smooth in SMOOTH {
            for placement in PLACEMENTS {
                let pen = Pen { smooth, placement };
                compare_asked(tally, random, &Asked::lines(&grid, pen));
            }
        }
        1
    })
}

/// The parts of a round that have random terrains, with this name before their own.
pub fn random_parts(tally: &mut Tally, random: &mut Random, name: &str, compare: Compare) -> u64 {
    type Part = fn(&mut Tally, &mut Random, Compare) -> u64;
    let parts: [(&str, Part); 3] = [
        ("small grids", random_small_grids),
        ("every shape up to 64 by 64", every_shape),
        ("thin grids", thin_grids),
    ];
    let mut grids = 0;
    for (part, compare_all) in parts {
        tally.part(&format!("{name}, {part}"), |t| {
            grids += compare_all(t, random, compare)
        });
    }
    grids
}

/// Random grids of sides up to nine.
fn random_small_grids(tally: &mut Tally, random: &mut Random, compare: Compare) -> u64 {
    shapes::small(random, SMALL_GRIDS, any_of(tally, compare))
}

/// A random grid of every shape up to 64 by 64.
fn every_shape(tally: &mut Tally, random: &mut Random, compare: Compare) -> u64 {
    shapes::every(random, 64, any_of(tally, compare))
}

/// Sides of one to four by up to the longest side, both ways.
fn thin_grids(tally: &mut Tally, random: &mut Random, compare: Compare) -> u64 {
    shapes::thin(random, any_of(tally, compare))
}

/// Both sides the longest, in exact room.
pub fn largest_grid(tally: &mut Tally, random: &mut Random) {
    let grid = dressed(random, &largest());
    let pen = Pen {
        smooth: 1,
        placement: [0.1, 0.2, 0.3, 0.7],
    };
    compare_exact(tally, random, &Asked::lines(&grid, pen));
}

/// Compares a random grid of the shape that it is handed; returns 1.
fn any_of(
    tally: &mut Tally,
    compare: Compare,
) -> impl FnMut(&mut Random, usize, usize) -> u64 + '_ {
    move |random, dx, dy| {
        let grid = random_line_grid(random, dx, dy);
        compare(tally, random, &grid);
        1
    }
}

/// A terrain's lines with a random pen, in every kind of room.
pub fn compare_grid(tally: &mut Tally, random: &mut Random, grid: &Grid) {
    let pen = random_pen(random);
    compare_asked(tally, random, &Asked::lines(grid, pen));
}
