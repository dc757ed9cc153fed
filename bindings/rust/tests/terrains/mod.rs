//! Random terrains, for the tests beside this folder. Each of them uses a part of this.

#![allow(dead_code)]

use nigrulent::{Level, Point, Refusal, Ring, Rows, Rule, Terrain};

/// How many random terrains are drawn.
const TERRAINS: u64 = 600;

/// Numbers of every kind: also such whose difference overflows.
pub const HEIGHTS: [f64; 12] = [
    0.0,
    -0.0,
    0.1,
    1.0,
    1.5,
    7.0,
    1e-310,
    1e308,
    -1e308,
    f64::INFINITY,
    f64::NEG_INFINITY,
    f64::NAN,
];
pub const THRESHOLDS: [f64; 7] = [0.0, 0.3, 1.0, 1.5, 1e308, f64::INFINITY, f64::NEG_INFINITY];

/// Random numbers from a fixed seed.
pub struct Random(pub u64);

impl Random {
    pub fn below(&mut self, bound: u64) -> u64 {
        self.0 = self.0.wrapping_mul(6364136223846793005).wrapping_add(1);
        (self.0 >> 33) % bound
    }

    /// One of these.
    fn of<T: Copy>(&mut self, all: &[T]) -> T {
        all[self.below(all.len() as u64) as usize]
    }
}

/// Calls with terrains of sides 1 to 12, of whole values up to 4, and a level at one of these by either rule.
pub fn for_terrains(call: impl FnMut(&Terrain, Level) -> Result<(), Refusal>) {
    for_terrains_of(&[0.0, 1.0, 2.0, 3.0, 4.0], &[1.0, 2.0, 3.0, 4.0], call);
}

/// Calls with terrains of sides 1 to 12, of these values and thresholds.
pub fn for_terrains_of(
    heights: &[f64],
    thresholds: &[f64],
    mut call: impl FnMut(&Terrain, Level) -> Result<(), Refusal>,
) {
    let mut random = Random(1);
    for _ in 0..TERRAINS {
        let [dx, dy] = [(); 2].map(|()| 1 + random.below(12) as usize);
        let values: Vec<_> = (0..dx * dy).map(|_| random.of(heights)).collect();
        let level = Level {
            threshold: random.of(thresholds),
            rule: random.of(&[Rule::AtLeast, Rule::MoreThan]),
        };
        let terrain = Terrain::new(&values, dx, dy).expect("sides and count are right");
        call(&terrain, level).expect("nothing is refused");
    }
}

/// Document 01's area of a ring: the sum over i of y(i-1)·x(i) - x(i-1)·y(i), the last point standing before the first.
pub fn summed_area(ring: &[Point]) -> i64 {
    let before = ring.last().into_iter().chain(ring);
    before
        .zip(ring)
        .map(|(before, at)| (before.map(i64::from), at.map(i64::from)))
        .map(|([x0, y0], [x1, y1])| y0 * x1 - x0 * y1)
        .sum()
}

/// The rings of all rows and of the end, one after the other.
pub fn row_by_row(terrain: &Terrain, level: Level) -> Result<Vec<Ring>, Refusal> {
    let mut rows = Rows::begin(level, terrain.dx(), terrain.dy())?;
    let mut rings = Vec::new();
    for row in terrain.values().chunks(terrain.dx()) {
        rings.extend(rows.push(row)?.to_rings());
    }
    rings.extend(rows.finish()?.to_rings());
    Ok(rings)
}
