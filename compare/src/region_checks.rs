//! Contours and bands on whole terrains. What is compared of each is for the caller to say.

use crate::asked::Asked;
use crate::calls::compare_exact;
use crate::drawing::Drawing;
use crate::kinds::Kind;
use crate::nested::{
    cups, diamonds, dots, frames, peaks_beside_holes, plate, spiral, three_valued,
};
use crate::random::Random;
use crate::rings::{flat_grid, random_grid, random_pair, small_grids, Grid, Pair};
use crate::shapes::{self, LONGEST_SIDE};
use crate::tally::Tally;
use std::f64::{INFINITY, NAN, NEG_INFINITY};

/// How many small grids of random shape a round draws.
const SMALL_GRIDS: usize = 30_000;
/// The sides of noise.
const NOISE_SIDES: [usize; 2] = [64, 100];
const NOISE_GRIDS: usize = 40;

/// Compares one contour or band.
pub type Compare = fn(&mut Tally, &mut Random, &Asked) -> Drawing;

/// A list of two is one pair; a longer one is a pair a place.
type List<'a> = &'a [f64];
const RISING: List = &[1.0, 2.0];
const FALLING: List = &[2.0, 1.0];
const LOWER_TWICE: List = &[1.0, 1.0];
const UPPER_TWICE: List = &[2.0, 2.0];
const MIXED: List = &[2.0, NAN, 1.0, 0.0];
const FAR: List = &[NEG_INFINITY, 1.0, INFINITY];

/// A terrain's contour and its bands; returns 1, the number of terrains, as all of these return it.
fn compare_grid(
    tally: &mut Tally,
    random: &mut Random,
    compare: Compare,
    grid: &Grid,
    lists: &[List],
) -> u64 {
    compare(tally, random, &Asked::new(Kind::Contours, grid));
    for list in lists {
        for k in 0..list.len() - 1 {
            let pair = Pair {
                list: list.to_vec(),
                k,
            };
            compare(tally, random, &Asked::band(grid, &pair));
        }
    }
    1
}

/// Every two-valued grid of up to nine samples: the pairs rise, fall, are equal, have a NaN or an infinity.
pub fn two_valued_grids(tally: &mut Tally, random: &mut Random, compare: Compare) -> u64 {
    small_grids(9)
        .map(|grid| {
            compare_grid(
                tally,
                random,
                compare,
                &grid,
                &[RISING, LOWER_TWICE, MIXED, FAR],
            )
        })
        .sum()
}

/// Every three-valued grid of up to eight samples.
pub fn three_valued_grids(tally: &mut Tally, random: &mut Random, compare: Compare) -> u64 {
    let others = [
        FALLING,
        LOWER_TWICE,
        UPPER_TWICE,
        &[0.0, 2.0],
        &[1.0, NAN],
        &[NAN, 2.0],
    ];
    three_valued(8)
        .map(|grid| {
            let grid = grid.at(random.pick(RISING));
            let other = random.pick(&others);
            compare_grid(tally, random, compare, &grid, &[RISING, other])
        })
        .sum()
}

/// Random grids of sides up to nine, with lists of two to four thresholds.
pub fn random_small_grids(tally: &mut Tally, random: &mut Random, compare: Compare) -> u64 {
    shapes::small(random, SMALL_GRIDS, |random, dx, dy| {
        compare_random(tally, random, compare, dx, dy)
    })
}

/// A random grid of every shape up to 32 by 32.
pub fn every_shape(tally: &mut Tally, random: &mut Random, compare: Compare) -> u64 {
    shapes::every(random, 32, |random, dx, dy| {
        compare_random(tally, random, compare, dx, dy)
    })
}

/// Sides of one to four by the longest side, both ways, flat over long stretches.
pub fn thin_grids(tally: &mut Tally, random: &mut Random, compare: Compare) -> u64 {
    let mut grids = 0;
    for (thin, lists) in (1..=4).zip([&[RISING][..], &[FALLING], &[LOWER_TWICE], &[MIXED]]) {
        for (dx, dy) in [(thin, LONGEST_SIDE), (LONGEST_SIDE, thin)] {
            let grid = flat_grid(random, dx, dy);
            grids += compare_grid(tally, random, compare, &grid, lists);
        }
    }
    grids
}

/// Both sides the longest, in exact room: a frame that reaches every corner, and a peak in the middle.
pub fn largest_grid(tally: &mut Tally, random: &mut Random) {
    let mut heights = vec![0.0; LONGEST_SIDE / 2];
    heights[0] = 1.0;
    heights[LONGEST_SIDE / 2 - 1] = 2.0;
    let grid = frames(LONGEST_SIDE, LONGEST_SIDE, &heights);
    compare_exact(tally, random, &Asked::new(Kind::Contours, &grid));
    let (list, k) = (RISING.to_vec(), 0);
    compare_exact(tally, random, &Asked::band(&grid, &Pair { list, k }));
}

fn compare_random(
    tally: &mut Tally,
    random: &mut Random,
    compare: Compare,
    dx: usize,
    dy: usize,
) -> u64 {
    let grid = random_grid(random, dx, dy);
    compare_with_pair(tally, random, compare, &grid);
    1
}

/// A terrain's contour, and a band of random thresholds.
pub fn compare_with_pair(tally: &mut Tally, random: &mut Random, compare: Compare, grid: &Grid) {
    let pair = random_pair(random, &grid.values);
    compare(tally, random, &Asked::new(Kind::Contours, grid));
    compare(tally, random, &Asked::band(grid, &pair));
}

/// Rings deep in one another: frames, diamonds and spirals. Rings in rows, where the row of a ring's first
/// vertex matters: cups, and peaks beside holes.
pub fn nested(tally: &mut Tally, random: &mut Random, compare: Compare) -> u64 {
    let (mut grids, lists) = (0, [RISING, FALLING, UPPER_TWICE]);
    let repeated: [&[f64]; 4] = [
        &[1.0, 0.0],
        &[2.0, 1.0, 0.0],
        &[0.0, 1.0, 2.0, 1.0],
        &[2.0, 0.0],
    ];
    for heights in repeated {
        for side in (1..=40).chain([64]) {
            let longer = side + random.below(4);
            grids += compare_grid(
                tally,
                random,
                compare,
                &frames(longer, side, heights),
                &lists,
            );
        }
        for side in 3..=30 {
            grids += compare_grid(tally, random, compare, &diamonds(side, heights), &lists);
        }
    }
    let turns = (5..=44).flat_map(|side| [(side, 2), (side, 4)]);
    for (side, apart) in turns.chain([(90, 4), (140, 4)]) {
        let holes = random.below(8);
        let grid = spiral(random, side, apart, holes);
        grids += compare_grid(tally, random, compare, &grid, &lists[..2]);
    }
    for across in 1..=12 {
        for down in 1..=6 {
            for grid in [
                cups(random, across, down),
                peaks_beside_holes(random, across, down),
            ] {
                grids += compare_grid(tally, random, compare, &grid, &lists);
            }
        }
    }
    grids
}

/// Numbers of rings about 64, 128 and 4,096, rings of about 64 and 128 points, and more than 262,144 points.
pub fn groups(tally: &mut Tally, random: &mut Random, compare: Compare) -> u64 {
    let mut grids = 0;
    for count in (60..=66).chain(124..=130) {
        for (ground, heights) in [(0.0, [1.0, 2.0]), (2.0, [0.0, 1.0]), (1.0, [0.0, 2.0])] {
            let grid = dots(count, ground, &heights);
            grids += compare_grid(tally, random, compare, &grid, &[RISING, UPPER_TWICE]);
        }
    }
    for sum in (30..=42).chain(62..=74) {
        for _ in 0..4 {
            let grid = plate(random, sum);
            grids += compare_grid(tally, random, compare, &grid, &[RISING, FALLING]);
        }
    }
    for count in 4_094..=4_097 {
        grids += compare_grid(tally, random, compare, &dots(count, 1.0, &[0.0]), &[]);
    }
    let few_high: Vec<f64> = (0..64).map(|k| if k == 40 { 2.0 } else { 1.0 }).collect();
    for (grid, lists) in [
        (dots(4_100, 0.0, &few_high), &[RISING][..]),
        (cups(random, 39, 39), &[RISING]),
        (cups(random, 56, 56), &[]),
        (frames(520, 520, &[1.0, 2.0, 1.0, 0.0]), &[RISING]),
    ] {
        grids += compare_grid(tally, random, compare, &grid, lists);
    }
    grids
}

/// Uniform noise from 64 by 64 to 100 by 100, where rings are many and of every size.
pub fn noise(tally: &mut Tally, random: &mut Random, compare: Compare) -> u64 {
    let [shortest, longest] = NOISE_SIDES;
    let lists: [List; 5] = [
        &[0.5, 0.6],
        &[0.25, 0.75],
        &[0.41, 0.59],
        &[0.6, 0.5],
        &[0.5, 0.5],
    ];
    let grids = (0..NOISE_GRIDS).map(|number| {
        let side = shortest + number * (longest - shortest) / (NOISE_GRIDS - 1);
        let list = lists[number % lists.len()];
        let heights = |_, _| random.below(1_000_000) as f64 / 1e6;
        let grid = Grid::new(side, side, list[number % 2], heights);
        compare_grid(tally, random, compare, &grid, &[list])
    });
    grids.sum()
}
