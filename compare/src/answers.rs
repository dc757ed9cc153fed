//! The crate's answers as a text for a program that has no crate to ask: README.md beside the sources says
//! how it reads. S and H are counted from the samples; our library has no part in it.

use crate::counts::{peak_by_lookup, Counts};
use crate::oracle::signed_area;
use crate::random::Random;
use crate::region_answers::area_number;
use crate::rings::{two_valued, Grid};
use crate::rules::{AT_LEAST, MORE_THAN};
use std::fmt::Write;

const SEED: u64 = 0x7265_706C_6179;
/// How many of the larger terrains are random; the rest are named.
const RANDOM: usize = 28;
const LONGEST_SIDE: usize = 12;

/// The whole text: the number of grids, then a line a grid.
pub fn text() -> String {
    let grids: Vec<Grid> = all_small().chain(named()).chain(random()).collect();
    let mut text = format!("{}\n", grids.len());
    for grid in &grids {
        text.push_str(&line(grid));
    }
    text
}

/// Every two-valued grid up to 3 by 4 and up to 4 by 3.
fn all_small() -> impl Iterator<Item = Grid> {
    let shapes = (1..=4).flat_map(|dx| (1..=4).map(move |dy| (dx, dy)));
    shapes
        .filter(|(dx, dy)| dx * dy <= 12)
        .flat_map(|(dx, dy)| (0..1 << (dx * dy)).map(move |choice| two_valued(dx, dy, choice)))
}

/// Terrains that a slip would draw otherwise: full ones, saddles everywhere, rings in rings, combs whose
/// lines merge, stairs, and single rows and columns.
fn named() -> impl Iterator<Item = Grid> {
    type Rule = fn(usize, usize) -> bool;
    let twelve: [Rule; 9] = [
        |_, _| true,
        |x, y| (x + y) % 2 == 0,
        |x, y| (x + y) % 2 == 1,
        |x, y| nearest_side(x, y) % 2 == 0,
        |x, y| nearest_side(x, y) % 2 == 1,
        |x, y| y == 11 || x % 2 == 0,
        |x, y| y == 0 || x % 2 == 1,
        |x, y| x == 11 || y % 2 == 0,
        |x, y| (x + 2 * y) % 3 != 0,
    ];
    let thin: [(usize, usize, Rule); 3] = [
        (12, 1, |x, _| x % 3 != 2),
        (1, 12, |_, y| y % 3 != 2),
        (12, 11, |x, y| (x + y) % 4 < 2),
    ];
    let shaped = twelve.into_iter().map(|rule| (12, 12, rule));
    shaped
        .chain(thin)
        .map(|(dx, dy, rule)| Grid::new(dx, dy, 1.0, |x, y| f64::from(u8::from(rule(x, y)))))
}

/// How far a sample of a 12 by 12 terrain is from the nearest side.
fn nearest_side(x: usize, y: usize) -> usize {
    x.min(y).min(11 - x).min(11 - y)
}

/// Random terrains of sides from 5 to 12, from sparse to dense.
fn random() -> impl Iterator<Item = Grid> {
    let mut random = Random::new(SEED);
    (0..RANDOM).map(move |_| {
        let [dx, dy] = [0; 2].map(|_| random.between(5, LONGEST_SIDE));
        let share = random.between(4, 12);
        let values = (0..dx * dy).map(|_| f64::from(u8::from(random.below(16) < share)));
        Grid {
            dx,
            dy,
            values: values.collect(),
            threshold: 1.0,
            rule: AT_LEAST,
        }
    })
}

/// One grid: its sides, a number a row, S, H and R, and each ring's point count, area and points. The samples that are
/// at least 1 are those above 0, so the crate has to draw the same for both, or the run stops.
fn line(grid: &Grid) -> String {
    let Counts { segments, peak } = Counts::of(grid);
    assert!(peak == peak_by_lookup(grid), "two counts of H");
    let mut numbers = vec![grid.dx, grid.dy];
    numbers.extend(grid.values.chunks(grid.dx).map(row));
    let rings = grid.rings();
    let above_zero = grid.ones_by(MORE_THAN);
    assert!(rings == above_zero.rings(), "two drawings of the rings");
    numbers.extend([segments, peak, rings.len()]);
    for ring in &rings {
        let area = area_number(signed_area(&ring.points));
        numbers.extend([ring.points.len(), area as usize]);
        numbers.extend(ring.words.iter().map(|&word| usize::from(word)));
    }
    let mut line = String::new();
    for number in numbers {
        write!(line, "{number} ").expect("a string takes every number");
    }
    line.pop();
    line.push('\n');
    line
}

/// A row of ones and zeros as one number: sample x counts 2^x.
fn row(values: &[f64]) -> usize {
    values
        .iter()
        .enumerate()
        .map(|(x, &value)| (value as usize) << x)
        .sum()
}
