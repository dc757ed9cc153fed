//! The parts by the rule "more than": terrains handed to the comparisons that "at least" has too. Most of them have
//! samples equal to the threshold, since elsewhere the rules do not differ.

#[cfg(feature = "regions")]
use crate::calls::compare_asked;
use crate::grid_refusals;
use crate::kinds::Kind;
#[cfg(feature = "lines")]
use crate::line_checks;
use crate::lines::random_line_grid;
use crate::random::Random;
#[cfg(feature = "regions")]
use crate::region_checks::compare_with_pair;
use crate::ring_checks::{self, Compare};
use crate::rings::{flat_grid, more_than, random_grid, small_grids, Grid};
#[cfg(feature = "rows")]
use crate::row_checks;
use crate::rules::{next_larger, Rule, MORE_THAN};
use crate::shapes;
use crate::tally::Tally;
#[cfg(feature = "why")]
use crate::why_vertices;
use std::f64::{INFINITY, MAX, MIN_POSITIVE, NAN, NEG_INFINITY};

/// Numbers for the rule, 1 in half of the cases.
const NUMBERS: [u32; 10] = [1, 1, 1, 1, 1, 2, 256, 65_536, 1 << 31, u32::MAX];
/// Thresholds and values: zeros, infinities and no number, and the finite numbers at every end.
#[rustfmt::skip]
const EDGES: [f64; 14] = [
    0.0, -0.0, 5e-324, -5e-324, 1e-310, MIN_POSITIVE, -MIN_POSITIVE, 1.0, -1.0, MAX, -MAX, INFINITY, NEG_INFINITY, NAN,
];
/// How many small grids of random shape a round has for each comparison.
const SMALL_GRIDS: usize = 20_000;
/// How many are given row by row by both rules in turns.
#[cfg(feature = "rows")]
const IN_TURNS: usize = 3_000;

/// What is compared of a terrain, and whether that is quick on long sides.
const COMPARED: &[(&str, Compare, bool)] = &[
    ("rings", ring_checks::compare_grid, true),
    #[cfg(feature = "rows")]
    ("rows", row_checks::compare_grid, true),
    #[cfg(feature = "regions")]
    ("contours and bands", compare_regions, false),
    #[cfg(feature = "lines")]
    ("lines", line_checks::compare_grid, true),
    #[cfg(feature = "why")]
    ("vertices", why_vertices::compare_grid, true),
];

/// All parts, the random ones in so many rounds. The run stops if the rules differ on fewer than half of the grids.
pub fn compare(tally: &mut Tally, random: &mut Random, rounds: u64) {
    let (mut grids, mut otherwise) = (0, 0);
    for &(name, compare, long) in COMPARED {
        tally.part(&format!("more than, {name}"), |t| {
            let mut take = |random: &mut Random, grid: &Grid| {
                grids += 1;
                otherwise += u64::from(!grid.is_one_by_both());
                let number = random.pick(&NUMBERS);
                compare(t, random, &grid.by(Rule(number)));
                1
            };
            listed(random, &mut take);
            for _ in 0..rounds {
                any(random, long, &mut take);
            }
        });
    }
    for _ in 0..rounds {
        #[cfg(feature = "rows")]
        tally.part("more than, rows of both rules in turns", |t| {
            rows_in_turns(t, random)
        });
        tally.part("more than, several refusals at once", |t| {
            refusals(t, random)
        });
    }
    tally.part("more than, 4,096 by 4,096", |t| {
        ring_checks::largest_grid(t, random, MORE_THAN)
    });
    assert!(2 * otherwise >= grids, "grids that both rules draw alike");
    tally.note(&format!(
        "{grids} grids by \"more than\", of which \"at least\" draws {otherwise} otherwise"
    ));
}

/// The terrains that come once: every two-valued grid of up to nine samples, with the larger value above; and of every
/// threshold of the list with every value of it, and with the threshold's neighbours, all grids of two by two.
fn listed(random: &mut Random, mut take: impl FnMut(&mut Random, &Grid) -> u64) {
    for grid in small_grids(9) {
        take(random, &grid.ones_by(MORE_THAN));
    }
    for threshold in EDGES {
        let neighbours = [next_larger(threshold), -next_larger(-threshold)];
        for other in EDGES.into_iter().chain(neighbours) {
            for choice in 0..16 {
                let value = |x: usize, y: usize| match choice >> (2 * y + x) & 1 {
                    1 => threshold,
                    _ => other,
                };
                take(random, &Grid::new(2, 2, threshold, value));
            }
        }
    }
}

/// Those of a round: small ones, every shape up to 32 by 32 and, if long sides are quick, thin ones and those about
/// words and tiles.
fn any(random: &mut Random, long: bool, mut take: impl FnMut(&mut Random, &Grid) -> u64) {
    let mut take_any = |random: &mut Random, dx: usize, dy: usize| {
        let grid = any_grid(random, dx, dy);
        take(random, &grid)
    };
    shapes::small(random, SMALL_GRIDS, &mut take_any);
    shapes::every(random, 32, &mut take_any);
    if long {
        shapes::thin(random, &mut take_any);
        shapes::words_and_tiles(random, &mut take_any);
    }
}

/// A random terrain of this shape, mostly at the value of a sample: one of those of rings or of lines, or a flat one.
fn any_grid(random: &mut Random, dx: usize, dy: usize) -> Grid {
    let grid = match random.below(5) {
        0 | 1 => random_grid(random, dx, dy),
        2 => flat_grid(random, dx, dy),
        _ => random_line_grid(random, dx, dy),
    };
    more_than(random, &grid)
}

/// A terrain's contour, and a band.
#[cfg(feature = "regions")]
fn compare_regions(tally: &mut Tally, random: &mut Random, grid: &Grid) {
    compare_with_pair(tally, random, compare_asked, grid);
}

/// Small terrains given row by row, each by both rules in turns.
#[cfg(feature = "rows")]
fn rows_in_turns(tally: &mut Tally, random: &mut Random) {
    shapes::small(random, IN_TURNS, |random, dx, dy| {
        let grid = any_grid(random, dx, dy);
        row_checks::compare_in_turns(tally, random, &grid);
        1
    });
}

/// Sides, counts, lists and rooms that are often wrong, of everything that the library draws.
fn refusals(tally: &mut Tally, random: &mut Random) {
    let kinds = [
        (Kind::Rings, true),
        (Kind::Contours, cfg!(feature = "regions")),
        (Kind::Bands, cfg!(feature = "regions")),
        (Kind::Lines, cfg!(feature = "lines")),
    ];
    for (kind, _) in kinds.into_iter().filter(|(_, is_there)| *is_there) {
        grid_refusals::mixed(tally, random, kind, MORE_THAN);
    }
}
