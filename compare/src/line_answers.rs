//! The crate's lines as a text for a program that has no crate to ask: README.md beside the sources says how it
//! reads. S and H are counted from the samples; our library has no part in it.

use crate::asked::Asked;
use crate::counts::Counts;
use crate::drawing::lines;
use crate::lines::{dressed, random_line_grid, random_pen, Pen, PLACEMENTS};
use crate::random::Random;
use crate::region_answers::{append, append_set};
use crate::rings::{more_than, small_grids, Grid};
use crate::rules::{Rule, AT_LEAST, MORE_THAN};

const SEED: u64 = 0x6C69_6E65_73;
/// How many terrains of a rule are random; the rest are named or listed.
const RANDOM: usize = 260;
const LONGEST_SIDE: usize = 6;
/// Stands for every NaN.
const ANY_NAN: u64 = 0x7FF8_0000_0000_0000;

/// The whole text: the number of grids, then a line a grid, "at least" first.
pub fn text() -> String {
    let mut random = Random::new(SEED);
    let mut grids = grids(&mut random, AT_LEAST);
    let more_than = self::grids(&mut random, MORE_THAN);
    let alike = more_than.iter().filter(|(grid, _)| grid.is_one_by_both());
    assert!(
        2 * alike.count() <= more_than.len(),
        "grids that both rules draw alike"
    );
    grids.extend(more_than);
    let mut text = format!("{}\n", grids.len());
    for (grid, pen) in &grids {
        text.push_str(&line(grid, *pen));
    }
    text
}

/// The terrains of a rule.
fn grids(random: &mut Random, rule: Rule) -> Vec<(Grid, Pen)> {
    let any_grid = |random: &mut Random, dx: usize, dy: usize| {
        let grid = random_line_grid(random, dx, dy);
        match rule {
            AT_LEAST => grid,
            _ => more_than(random, &grid),
        }
    };
    let mut grids = named(rule);
    for placement in PLACEMENTS {
        for smooth in [0, 1] {
            let grid = any_grid(random, 3, 2);
            grids.push((grid, Pen { smooth, placement }));
        }
    }
    for grid in small_grids(4) {
        let grid = dressed(random, &grid.ones_by(rule));
        grids.push((grid, random_pen(random)));
    }
    for _ in 0..RANDOM {
        let [dx, dy] = [0; 2].map(|_| random.between(1, LONGEST_SIDE));
        let grid = any_grid(random, dx, dy);
        grids.push((grid, random_pen(random)));
    }
    grids
}

/// Row 12 of document 01's dozen, slopes, and many rings in long rows, columns and squares.
fn named(rule: Rule) -> Vec<(Grid, Pen)> {
    type Height = fn(usize, usize) -> f64;
    let heights: [(usize, usize, f64, Height); 7] = [
        (2, 1, 1.0, |x, _| 4.0 * x as f64),
        (12, 1, 2.0, |x, _| (x % 4) as f64),
        (1, 12, 2.0, |_, y| (y % 4) as f64),
        (12, 3, 7.25, |x, y| (x + 2 * y) as f64),
        (3, 12, 0.1, |x, y| 1.0 / (1 + x + 3 * y) as f64),
        (12, 12, 0.3, |x, y| ((x + y) % 2) as f64),
        (9, 9, 11.1, |x, y| {
            (x.abs_diff(4).pow(2) + y.abs_diff(4).pow(2)) as f64
        }),
    ];
    let grids = heights.map(|(dx, dy, threshold, height)| Grid::new(dx, dy, threshold, height));
    let pens = [PLACEMENTS[0], PLACEMENTS[4]].map(|placement| Pen {
        smooth: 1,
        placement,
    });
    let drawn = |grid: Grid| pens.map(|pen| (grid.by(rule), pen));
    grids.into_iter().flat_map(drawn).collect()
}

/// One grid: its sides, smoothing, rule, threshold, placement and samples, the counts and records of its rings, and
/// the points.
fn line(grid: &Grid, pen: Pen) -> String {
    let mut line = format!(
        "{} {} {} {}",
        grid.dx,
        grid.dy,
        pen.smooth.min(1),
        grid.rule.0
    );
    let given = [grid.threshold].into_iter().chain(pen.placement);
    append_floats(&mut line, given.chain(grid.values.iter().copied()));
    let (counts, asked) = (Counts::of(grid), Asked::lines(grid, pen));
    let rings = grid.rings();
    append_set(&mut line, counts, &asked, &rings);
    append_floats(&mut line, lines(grid, pen, &rings).into_iter().flatten());
    line.push('\n');
    line
}

/// The pattern of each float as four numbers of 16 bits, the highest first.
fn append_floats(line: &mut String, floats: impl Iterator<Item = f64>) {
    for float in floats {
        let pattern = match float.is_nan() {
            true => ANY_NAN,
            false => float.to_bits(),
        };
        append(line, [48, 32, 16, 0].map(|shift| pattern >> shift & 0xFFFF));
    }
}
