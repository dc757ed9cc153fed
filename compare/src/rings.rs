//! Terrains, and the rings that the crate itself draws on them.

use crate::oracle::doubled;
use crate::random::Random;
use crate::rules::{Rule, AT_LEAST, MORE_THAN};
use crate::Pt;
use std::rc::Rc;

/// The most samples of a grid for which the crate is asked in both ways for what "more than" draws.
const DRAWN_TWICE: usize = 4_096;

/// A terrain of dx columns and dy rows, the threshold to draw it at, and the rule.
pub struct Grid {
    pub dx: usize,
    pub dy: usize,
    pub values: Rc<[f64]>,
    pub threshold: f64,
    pub rule: Rule,
}

/// A list of thresholds, and the number of a band's lower one in it.
pub struct Pair {
    pub list: Vec<f64>,
    pub k: usize,
}

impl Pair {
    /// The thresholds k and k + 1, if the list has both.
    pub fn thresholds(&self) -> Option<&[f64]> {
        let behind = self.k.checked_add(2)?;
        self.list.get(self.k..behind)
    }
}

/// A ring as the crate gives it, and its doubled whole coordinates.
#[derive(PartialEq)]
pub struct Ring {
    pub points: Vec<Pt>,
    pub words: Vec<u16>,
}

impl Grid {
    /// A terrain by the height of each sample, by column and row, under "at least".
    pub fn new(
        dx: usize,
        dy: usize,
        threshold: f64,
        mut height: impl FnMut(usize, usize) -> f64,
    ) -> Self {
        Grid {
            dx,
            dy,
            values: (0..dx * dy).map(|k| height(k % dx, k / dx)).collect(),
            threshold,
            rule: AT_LEAST,
        }
    }

    /// Whether a sample of this value is above.
    pub fn is_above(&self, value: f64) -> bool {
        self.rule.is_above(value, self.threshold)
    }

    /// What the crate draws of this terrain at some thresholds, by values and thresholds for its one rule. "More than"
    /// it draws at the next larger floats, and where there are none by numbers in place of the values. Of smaller grids
    /// both have to be the same, or the run stops.
    pub fn by_crate<T: PartialEq>(
        &self,
        thresholds: &[f64],
        draw: impl Fn(&[f64], &[f64]) -> T,
    ) -> T {
        let by_numbers = || {
            let (numbers, thresholds) = self.rule.as_numbers(&self.values, thresholds);
            draw(&numbers, &thresholds)
        };
        let drawn = match self.rule.as_at_least(thresholds) {
            Some(thresholds) => draw(&self.values, &thresholds),
            None => return by_numbers(),
        };
        if self.rule != AT_LEAST && self.values.len() <= DRAWN_TWICE {
            assert!(drawn == by_numbers(), "two drawings by \"more than\"");
        }
        drawn
    }

    /// The crate's rings of this terrain, in its order.
    pub fn rings(&self) -> Vec<Ring> {
        let drawn = self.by_crate(&[self.threshold], |values, thresholds| {
            let drawn = contour::contour_rings(values, thresholds[0], self.dx, self.dy);
            drawn.expect("the crate draws every grid with all its values")
        });
        drawn
            .into_iter()
            .map(|points| Ring {
                words: doubled(&points),
                points,
            })
            .collect()
    }

    /// The same terrain, to be drawn at another threshold.
    pub fn at(&self, threshold: f64) -> Grid {
        let values = Rc::clone(&self.values);
        Grid {
            values,
            threshold,
            ..*self
        }
    }

    /// The same terrain, to be drawn by another rule.
    pub fn by(&self, rule: Rule) -> Grid {
        let grid = self.at(self.threshold);
        Grid { rule, ..grid }
    }

    /// A terrain of zeros and ones, to be drawn by another rule with the ones above.
    pub fn ones_by(&self, rule: Rule) -> Grid {
        let threshold = f64::from(u8::from(rule == AT_LEAST));
        self.at(threshold).by(rule)
    }

    /// Whether the rules have the same samples above.
    pub fn is_one_by_both(&self) -> bool {
        let above = |value, rule: Rule| rule.is_above(value, self.threshold);
        let mut values = self.values.iter();
        values.all(|&value| above(value, AT_LEAST) == above(value, MORE_THAN))
    }

    /// The same terrain at a threshold by which "at least" has the same samples above, if there is one.
    pub fn as_at_least(&self) -> Option<Grid> {
        let thresholds = self.rule.as_at_least(&[self.threshold])?;
        Some(self.at(thresholds[0]).by(AT_LEAST))
    }
}

/// Every shape of up to `samples` samples with every choice of two values.
pub fn small_grids(samples: usize) -> impl Iterator<Item = Grid> {
    let shapes = (1..=samples).flat_map(move |dx| (1..=samples / dx).map(move |dy| (dx, dy)));
    shapes.flat_map(|(dx, dy)| (0..1u32 << (dx * dy)).map(move |choice| two_valued(dx, dy, choice)))
}

/// Sample k is 1 where bit k of the choice is set, else 0.
pub fn two_valued(dx: usize, dy: usize, choice: u32) -> Grid {
    let values = (0..dx * dy).map(|k| f64::from(choice >> k & 1)).collect();
    Grid {
        dx,
        dy,
        values,
        threshold: 1.0,
        rule: AT_LEAST,
    }
}

/// A random terrain of this shape, of one of five characters.
pub fn random_grid(random: &mut Random, dx: usize, dy: usize) -> Grid {
    let values = match random.below(5) {
        0 => speckled(random, dx * dy),
        1 => (0..dx * dy).map(|_| random.below(5) as f64).collect(),
        2 => strange(random, dx * dy),
        3 => circles(random, dx, dy),
        _ => plateaus(random, dx, dy),
    };
    at_random_threshold(random, dx, dy, values)
}

/// The same terrain by "more than", in three of four cases at the value of a sample: elsewhere the rules do not differ.
pub fn more_than(random: &mut Random, grid: &Grid) -> Grid {
    let threshold = match random.below(4) {
        0 => grid.threshold,
        _ => random.pick(&grid.values),
    };
    grid.at(threshold).by(MORE_THAN)
}

/// A terrain of this shape that is flat over long stretches: blocks of equal neighbours, up to 150 samples
/// wide and high, with some samples that stand out.
pub fn flat_grid(random: &mut Random, dx: usize, dy: usize) -> Grid {
    let (across, down) = (random.between(20, 150), random.between(20, 150));
    let mut values = blocks(random, dx, dy, across, down);
    for _ in 0..random.below(4) {
        let place = random.below(values.len());
        values[place] = random.below(4) as f64 / 2.0;
    }
    at_random_threshold(random, dx, dy, values)
}

/// A terrain of these values with a threshold to draw it at.
pub fn at_random_threshold(random: &mut Random, dx: usize, dy: usize, values: Vec<f64>) -> Grid {
    let threshold = random_threshold(random, &values);
    Grid {
        dx,
        dy,
        values: values.into(),
        threshold,
        rule: AT_LEAST,
    }
}

/// Zeros and ones, from nearly all zeros to nearly all ones.
fn speckled(random: &mut Random, count: usize) -> Vec<f64> {
    let share = random.between(1, 15);
    (0..count)
        .map(|_| f64::from(u8::from(random.below(16) < share)))
        .collect()
}

/// NaN, infinities, both zeros, tiny and huge numbers among plain ones.
fn strange(random: &mut Random, count: usize) -> Vec<f64> {
    const VALUES: [f64; 12] = [
        f64::NAN,
        f64::INFINITY,
        f64::NEG_INFINITY,
        0.0,
        -0.0,
        1.0,
        1.0,
        -1.0,
        f64::MIN_POSITIVE,
        5e-324,
        f64::MAX,
        f64::MIN,
    ];
    (0..count).map(|_| random.pick(&VALUES)).collect()
}

/// Circles about some centres, which nest polygons and holes.
fn circles(random: &mut Random, dx: usize, dy: usize) -> Vec<f64> {
    let centres: Vec<_> = (0..random.between(1, 4))
        .map(|_| (random.below(dx), random.below(dy)))
        .collect();
    let width = random.between(2, 40);
    let height = |x: usize, y: usize| {
        let away = centres
            .iter()
            .map(|&(a, b)| x.abs_diff(a).pow(2) + y.abs_diff(b).pow(2));
        (away.min().unwrap_or(0) / width % 3) as f64
    };
    (0..dx * dy).map(|k| height(k % dx, k / dx)).collect()
}

/// Small blocks of equal neighbours.
fn plateaus(random: &mut Random, dx: usize, dy: usize) -> Vec<f64> {
    let (across, down) = (random.between(1, 6), random.between(1, 6));
    blocks(random, dx, dy, across, down)
}

/// Blocks of equal neighbours, of this width and height.
fn blocks(random: &mut Random, dx: usize, dy: usize, across: usize, down: usize) -> Vec<f64> {
    let blocks_across = dx / across + 1;
    let heights: Vec<f64> = (0..blocks_across * (dy / down + 1))
        .map(|_| random.below(4) as f64 / 2.0)
        .collect();
    (0..dx * dy)
        .map(|k| heights[k / dx / down * blocks_across + k % dx / across])
        .collect()
}

/// Mostly the value of some sample, sometimes one between values or a strange one.
fn random_threshold(random: &mut Random, values: &[f64]) -> f64 {
    match random.below(24) {
        0 => strange(random, 1)[0],
        1..=4 => 0.5,
        5..=8 => 1.0,
        _ => random.pick(values),
    }
}

/// A list of two to four thresholds and a pair of it. Of four lists one rises, one falls, one has the pair
/// equal, and one is as it comes.
pub fn random_pair(random: &mut Random, values: &[f64]) -> Pair {
    let count = random.between(2, 4);
    let mut list: Vec<f64> = (0..count)
        .map(|_| random_threshold(random, values))
        .collect();
    let k = random.below(count - 1);
    match random.below(4) {
        0 => list[k + 1] = list[k],
        1 => list.sort_by(f64::total_cmp),
        2 => list.sort_by(|a, b| b.total_cmp(a)),
        _ => {}
    }
    Pair { list, k }
}
