//! The terrains, what is drawn of each, and what it is held against. The noise comes from a fixed seed.

use Against::{Crate, OurRings};
use Figure::{Band, Contours, Lines, Rings};

pub struct Terrain {
    pub dx: usize,
    pub dy: usize,
    pub values: Vec<f64>,
}

/// What is drawn of a terrain, and at which thresholds.
#[derive(Clone, Copy)]
pub enum Figure {
    Rings(f64),
    Contours(f64),
    Band([f64; 2]),
    /// Smoothed, and placed by `ORIGIN` and `STEP`.
    Lines(f64),
}

/// Where lines are placed: x first.
pub const ORIGIN: [f64; 2] = [10.0, 20.0];
pub const STEP: [f64; 2] = [0.5, 0.25];

impl Figure {
    pub fn thresholds(&self) -> &[f64] {
        match self {
            Figure::Rings(threshold) | Figure::Contours(threshold) | Figure::Lines(threshold) => {
                std::slice::from_ref(threshold)
            }
            Figure::Band(pair) => pair,
        }
    }

    /// Whether the library has it: bench/run looks.
    pub fn is_in_library(&self) -> bool {
        match self {
            Figure::Rings(_) => true,
            Figure::Contours(_) | Figure::Band(_) => cfg!(feature = "regions"),
            Figure::Lines(_) => cfg!(feature = "lines"),
        }
    }
}

/// What the time of our build is held against.
#[derive(Clone, Copy, PartialEq)]
pub enum Against {
    /// The crate's time for the same.
    Crate,
    /// Our own time for the rings at each threshold.
    OurRings,
}

/// A line of the bench: its name, its terrain, and what is timed. The terrain is made when it is due, since
/// the largest takes 128 MiB.
pub type Line = (&'static str, fn() -> Terrain, Figure, Against);

#[rustfmt::skip]
pub const LINES: [Line; 15] = [
    ("cone-2048", || cone(2_048), Rings(204.8), Crate),
    ("waves-2048", || waves(2_048), Rings(0.1), Crate),
    ("noise-2048", || noise(2_048, 2_048), Rings(0.5), Crate),
    ("cone-4096", || cone(4_096), Rings(409.6), Crate),
    ("noise-4-4096", || noise(4, 4_096), Rings(0.5), Crate),
    ("contours-half-256", || noise(256, 256), Contours(0.5), Crate),
    ("contours-half-2048", || noise(2_048, 2_048), Contours(0.5), OurRings),
    ("contours-three-quarters-2048", || noise(2_048, 2_048), Contours(0.25), OurRings),
    ("bands-128", || noise(128, 128), Band([0.5, 0.6]), Crate),
    ("bands-1024", || noise(1_024, 1_024), Band([0.5, 0.6]), OurRings),
    ("contours-waves-2048", || waves(2_048), Contours(0.1), Crate),
    ("bands-waves-2048", || waves(2_048), Band([0.1, 0.6]), Crate),
    ("lines-cone-2048", || cone(2_048), Lines(204.8), Crate),
    ("lines-waves-2048", || waves(2_048), Lines(0.1), Crate),
    ("lines-noise-2048", || noise(2_048, 2_048), Lines(0.5), Crate),
];

/// A line that times the writer, a ring's fate, both rules, or an earlier library: its name, its terrain, and the
/// threshold.
pub type Text = (&'static str, fn() -> Terrain, f64);

pub const TEXTS: [Text; 2] = [
    ("geojson-1024", || noise(1_024, 1_024), 0.5),
    ("geojson-three-quarters-1024", || noise(1_024, 1_024), 0.25),
];

/// The terrains that are timed by both rules.
pub const BOTH_RULES: [Text; 3] = [
    ("more-cone-2048", || cone(2_048), 204.8),
    ("more-waves-2048", || waves(2_048), 0.1),
    ("more-noise-2048", || noise(2_048, 2_048), 0.5),
];

/// A line that times the row form: its name, its terrain, and the threshold.
#[cfg(feature = "rows")]
pub type Rows = (&'static str, fn() -> Terrain, f64);

#[cfg(feature = "rows")]
pub const ROWS: [Rows; 4] = [
    ("rows-cone-2048", || cone(2_048), 204.8),
    ("rows-waves-2048", || waves(2_048), 0.1),
    ("rows-noise-2048", || noise(2_048, 2_048), 0.5),
    ("rows-noise-4-4096", || noise(4, 4_096), 0.5),
];

/// The contours of which a ring's fate is timed.
#[cfg(feature = "why")]
pub const WHY: [Text; 3] = [
    ("why-512", || noise(512, 512), 0.5),
    ("why-1024", || noise(1_024, 1_024), 0.5),
    ("why-2048", || noise(2_048, 2_048), 0.5),
];

/// The terrains on which an earlier library is timed too.
#[cfg(feature = "before")]
pub const BEFORE: [Text; 5] = [
    ("before-cone-2048", || cone(2_048), 204.8),
    ("before-waves-2048", || waves(2_048), 0.1),
    ("before-noise-2048", || noise(2_048, 2_048), 0.5),
    ("before-noise-60-4096", || noise(60, 4_096), 0.5),
    ("before-noise-4-4096", || noise(4, 4_096), 0.5),
];

impl Terrain {
    fn new(dx: usize, dy: usize, mut height: impl FnMut(usize, usize) -> f64) -> Self {
        Terrain {
            dx,
            dy,
            values: (0..dx * dy).map(|k| height(k % dx, k / dx)).collect(),
        }
    }

    /// One plain pass over the values: how many are at least the threshold.
    pub fn count_above(&self, threshold: f64) -> usize {
        let values = self.values.iter();
        values.filter(|&&value| value >= threshold).count()
    }
}

/// A cone about the centre. A fifth of its height cuts it in one circle, whose diameter is four fifths of the
/// side: few crossings.
fn cone(side: usize) -> Terrain {
    let middle = side as f64 / 2.0;
    Terrain::new(side, side, |x, y| {
        middle - (x as f64 - middle).hypot(y as f64 - middle)
    })
}

/// Waves that cross each other: hills, dales and passes some dozens of samples wide.
fn waves(side: usize) -> Terrain {
    Terrain::new(side, side, |x, y| {
        let (x, y) = (x as f64, y as f64);
        (x / 9.0).sin() * (y / 11.0).cos() + 0.4 * ((x + 2.0 * y) / 31.0).sin()
    })
}

/// Uniform noise from 0 to 1. Cut in the middle, every other sample pair is crossed.
fn noise(dx: usize, dy: usize) -> Terrain {
    let mut state = 0x6E6F_6973_65u64;
    Terrain::new(dx, dy, |_, _| {
        state = state.wrapping_add(0x9E37_79B9_7F4A_7C15);
        let mut z = state;
        z = (z ^ (z >> 30)).wrapping_mul(0xBF58_476D_1CE4_E5B9);
        z = (z ^ (z >> 27)).wrapping_mul(0x94D0_49BB_1331_11EB);
        ((z ^ (z >> 31)) >> 11) as f64 / (1u64 << 53) as f64
    })
}
