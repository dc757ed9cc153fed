//! The crate's contours and bands as a text for a program that has no crate to ask: README.md beside the
//! sources says how it reads. S and H are counted from the samples; our library has no part in it.

use crate::asked::Asked;
use crate::counts::Counts;
use crate::directory::{crate_polygons, directory};
use crate::kinds::Kind;
use crate::random::Random;
use crate::records::{area, records, AREA_LOW};
use crate::rings::{Grid, Pair, Ring};
use crate::rules::{Rule, AT_LEAST, MORE_THAN};
use std::fmt::Write;

const SEED: u64 = 0x7265_6769_6F6E;
/// How many of the larger terrains are random; the rest are named.
const RANDOM: usize = 72;
/// Stands for the owner of a ring that has none, 4,294,967,295: no number of a text has more digits.
const NOBODY: u32 = 99_999_999;
/// Stands for an area of 0, as no number of a text has a sign.
const NO_AREA: i64 = 50_000;

/// A terrain of heights 0 to 9, and two thresholds: the contour's, which is the band's lower one, and the
/// band's upper one.
struct Terrain {
    dx: usize,
    dy: usize,
    heights: Vec<u8>,
    thresholds: [u8; 2],
}

/// The whole text: the number of grids, then a line a grid.
pub fn text() -> String {
    let terrains: Vec<Terrain> = two_valued()
        .chain(three_valued())
        .chain(named())
        .chain(random())
        .collect();
    let mut text = format!("{}\n", terrains.len());
    for terrain in &terrains {
        text.push_str(&terrain.line());
    }
    text
}

/// Every choice of two heights on up to 9 samples in rows of up to 4 and columns of up to 4, at threshold 1.
/// The upper one is below, at and above it in turn.
fn two_valued() -> impl Iterator<Item = Terrain> {
    all_small(4, 9, 2, |choice| [1, (choice % 3) as u8])
}

/// Every choice of three heights on up to 4 samples, and on 3 rows of 2, in rows of up to 2, at the upper two.
fn three_valued() -> impl Iterator<Item = Terrain> {
    all_small(3, 6, 3, |_| [1, 2]).filter(|terrain| terrain.dx <= 2)
}

/// Every choice of `heights` heights on every shape of sides up to `side` and up to `samples` samples, with
/// thresholds by the choice's number.
fn all_small(
    side: usize,
    samples: usize,
    heights: usize,
    thresholds: fn(usize) -> [u8; 2],
) -> impl Iterator<Item = Terrain> {
    let shapes = (1..=side).flat_map(move |dx| (1..=side).map(move |dy| (dx, dy)));
    shapes
        .filter(move |(dx, dy)| dx * dy <= samples)
        .flat_map(move |(dx, dy)| {
            (0..heights.pow((dx * dy) as u32)).map(move |choice| {
                let height = |k: usize| (choice / heights.pow(k as u32) % heights) as u8;
                Terrain {
                    dx,
                    dy,
                    heights: (0..dx * dy).map(height).collect(),
                    thresholds: thresholds(choice),
                }
            })
        })
}

/// Terrains whose rings lie in one another, share a row, or have holes that fall to other polygons: frames,
/// stairs, diamonds, dots in two heights, and boards of saddles.
fn named() -> impl Iterator<Item = Terrain> {
    type Rule = fn(usize, usize) -> usize;
    let rules: [(usize, usize, Rule, [u8; 2]); 16] = [
        (3, 3, |x, y| 1 + usize::from(x == 1 && y == 1), [1, 2]),
        (5, 5, |x, y| nearest_side(x, y, 5), [1, 2]),
        (7, 7, |x, y| nearest_side(x, y, 7), [1, 3]),
        (7, 7, |x, y| nearest_side(x, y, 7) % 2, [1, 0]),
        (9, 9, |x, y| nearest_side(x, y, 9) % 2, [1, 1]),
        (9, 9, |x, y| (nearest_side(x, y, 9) + 1) % 3, [1, 2]),
        (11, 11, |x, y| nearest_side(x, y, 11) % 3, [2, 1]),
        (9, 9, |x, y| (x.abs_diff(4) + y.abs_diff(4)) % 3, [1, 2]),
        (8, 8, |x, y| (x + y) % 2, [1, 0]),
        (8, 8, |x, y| (x + y) % 3, [1, 2]),
        (9, 9, |x, y| 1 + (x % 2) * (y % 2), [1, 2]),
        (9, 9, |x, y| 2 - (x % 2) * (y % 2), [2, 1]),
        (9, 7, |x, y| (x % 2) * (y % 2) * (1 + x % 4 / 2), [1, 2]),
        (8, 6, |x, y| (x + 2 * y) % 4, [1, 3]),
        (12, 1, |x, _| x % 4, [2, 3]),
        (1, 12, |_, y| y % 4, [1, 2]),
    ];
    rules.into_iter().map(|(dx, dy, rule, thresholds)| Terrain {
        dx,
        dy,
        heights: (0..dx * dy).map(|k| rule(k % dx, k / dx) as u8).collect(),
        thresholds,
    })
}

/// How far a sample of a square terrain is from the nearest side.
fn nearest_side(x: usize, y: usize, side: usize) -> usize {
    x.min(y).min(side - 1 - x).min(side - 1 - y)
}

/// Random terrains of sides from 5 to 8 and heights 0 to 3, each height as likely as it is often listed.
/// Most samples of the first kind are above both thresholds, so that polygons have holes.
fn random() -> impl Iterator<Item = Terrain> {
    const KINDS: [([u8; 8], [u8; 2]); 4] = [
        ([0, 1, 2, 2, 2, 3, 3, 3], [1, 2]),
        ([0, 2, 2, 2, 2, 3, 3, 3], [1, 3]),
        ([0, 1, 1, 1, 2, 2, 2, 3], [1, 2]),
        ([0, 0, 1, 2, 2, 2, 2, 3], [2, 1]),
    ];
    let mut random = Random::new(SEED);
    (0..RANDOM).map(move |k| {
        let [dx, dy] = [0; 2].map(|_| random.between(5, 8));
        let (likely, thresholds) = KINDS[k % KINDS.len()];
        Terrain {
            dx,
            dy,
            heights: (0..dx * dy).map(|_| random.pick(&likely)).collect(),
            thresholds,
        }
    })
}

impl Terrain {
    /// Its sides, heights and thresholds, and what the crate draws. Heights that are at least a whole number are those
    /// that are more than the one before, so the crate has to draw the same for both, or the run stops.
    fn line(&self) -> String {
        let mut line = format!("{} {}", self.dx, self.dy);
        append(&mut line, self.heights.iter().chain(&self.thresholds));
        let thresholds = self.thresholds.map(f64::from);
        let drawn = self.drawn(thresholds, AT_LEAST);
        let once_more = self.drawn(thresholds.map(|t| t - 1.0), MORE_THAN);
        assert!(drawn == once_more, "two drawings of contour and band");
        line + &drawn + "\n"
    }

    /// The contour's counts and records, the band's, and the band's points.
    fn drawn(&self, [lower, upper]: [f64; 2], rule: Rule) -> String {
        let height = |x: usize, y: usize| f64::from(self.heights[y * self.dx + x]);
        let pair = Pair {
            list: vec![lower, upper],
            k: 0,
        };
        let lower = Grid::new(self.dx, self.dy, lower, height).by(rule);
        let upper = lower.at(upper);
        let (mut rings, upper_rings) = (lower.rings(), upper.rings());
        let (mut drawn, counts) = (String::new(), Counts::of(&lower));
        let contour = Asked::new(Kind::Contours, &lower);
        append_set(&mut drawn, counts, &contour, &rings);
        rings.extend(upper_rings);
        let counts = counts.larger(Counts::of(&upper));
        append_set(&mut drawn, counts, &Asked::band(&lower, &pair), &rings);
        append(&mut drawn, rings.iter().flat_map(|ring| &ring.words));
        drawn
    }
}

/// S, H, R, the number of points, and the records.
pub fn append_set(line: &mut String, counts: Counts, asked: &Asked, rings: &[Ring]) {
    let points = rings.iter().map(|ring| ring.points.len()).sum();
    append(line, [counts.segments, counts.peak, rings.len(), points]);
    let words = directory(asked, rings, &crate_polygons(asked));
    for record in records(&words) {
        append(
            line,
            record[..AREA_LOW].iter().map(|&word| word.min(NOBODY)),
        );
        append(line, [area_number(area(record))]);
    }
}

/// The number of a text for an area. No area is as large as to be taken for nobody.
pub fn area_number(area: i64) -> i64 {
    let number = NO_AREA + area;
    assert!((0..NOBODY.into()).contains(&number), "an area of {area}");
    number
}

/// Numbers, each behind a space.
pub fn append<N: std::fmt::Display>(line: &mut String, numbers: impl IntoIterator<Item = N>) {
    for number in numbers {
        write!(line, " {number}").expect("a string takes every number");
    }
}
