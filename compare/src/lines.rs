//! How lines are drawn: smoothed or not, and where. The lines that the crate itself draws, and terrains whose
//! values smoothing has to reckon with.

use crate::random::Random;
use crate::rings::{at_random_threshold, random_grid, Grid};
use crate::rules::AT_LEAST;
use contour::ContourBuilder;
use std::f64::{INFINITY, MAX, MIN_POSITIVE, NAN, NEG_INFINITY};

/// The least number above 0.
const LEAST: f64 = 5e-324;

/// Where lines stand: x_origin, y_origin, x_step and y_step.
pub type Placement = [f64; 4];

#[derive(Clone, Copy, Debug)]
pub struct Pen {
    /// 0 for no, any other number for yes.
    pub smooth: u32,
    pub placement: Placement,
}

/// No, and yes in several ways.
pub const SMOOTH: [u32; 7] = [0, 1, 2, 256, 65_536, 1 << 31, u32::MAX];

/// Placements that place nothing, plain ones, those of one coordinate, negative ones and zeros of either sign,
/// tiny and huge ones, infinities and NaN.
#[rustfmt::skip]
pub const PLACEMENTS: [Placement; 34] = [
    [0.0, 0.0, 1.0, 1.0], [-0.0, 0.0, 1.0, 1.0], [0.0, -0.0, 1.0, 1.0], [-0.0, -0.0, 1.0, 1.0],
    [10.0, 20.0, 0.5, 0.25], [0.1, 0.2, 0.3, 0.7], [1e5, -1e5, 1e-5, 1e5],
    [7.0, 0.0, 1.0, 1.0], [0.0, 7.0, 1.0, 1.0], [0.0, 0.0, 3.0, 1.0], [0.0, 0.0, 1.0, 3.0],
    [-3.5, -1e3, -1.0, -0.1], [0.0, 0.0, -1.0, -1.0], [-0.0, -0.0, -1.0, -2.0], [-4.0, -4.0, 1.0, 1.0],
    [0.0, 0.0, 0.0, 0.0], [-0.0, -0.0, -0.0, -0.0], [-0.0, 0.0, 0.0, -0.0], [-0.0, -0.0, 2.0, 0.0],
    [LEAST, -LEAST, LEAST, -LEAST], [MIN_POSITIVE, 0.0, 1e-310, -1e-310], [LEAST, LEAST, 1.0, 1.0],
    [1e308, -1e308, MAX, -MAX], [MAX, MAX, 1.0, 1.0], [-MAX, 0.0, MAX, 1e300],
    [INFINITY, NEG_INFINITY, 1.0, 1.0], [0.0, 0.0, INFINITY, NEG_INFINITY], [NEG_INFINITY, 0.0, INFINITY, 1.0],
    [0.0, INFINITY, 1.0, 1.0], [NAN, 0.0, 1.0, 1.0], [0.0, NAN, 1.0, 1.0], [0.0, 0.0, NAN, 1.0],
    [0.0, 0.0, 1.0, NAN], [-NAN, NAN, 2.0, -NAN],
];

impl Pen {
    /// Where a point is placed: by its step and origin, if the origin differs from (0, 0) or the step from (1, 1).
    pub fn placed(self, [x, y]: [f64; 2]) -> [f64; 2] {
        let [x_origin, y_origin, x_step, y_step] = self.placement;
        match [x_origin, y_origin] != [0.0, 0.0] || [x_step, y_step] != [1.0, 1.0] {
            true => [x * x_step + x_origin, y * y_step + y_origin],
            false => [x, y],
        }
    }
}

/// The crate's lines, in its order: each its coordinates x, y, x, y, and so on. It smooths by the threshold that it is
/// asked for, so that smoothed ones are those of "at least" alone.
pub fn crate_lines(grid: &Grid, pen: Pen) -> Vec<Vec<f64>> {
    assert!(
        grid.rule == AT_LEAST || pen.smooth == 0,
        "smoothed by the crate"
    );
    let [x_origin, y_origin, x_step, y_step] = pen.placement;
    let builder = ContourBuilder::new(grid.dx, grid.dy, pen.smooth != 0)
        .x_origin(x_origin)
        .y_origin(y_origin)
        .x_step(x_step)
        .y_step(y_step);
    let patterns = grid.by_crate(&[grid.threshold], |values, thresholds| {
        let drawn = builder.lines(values, thresholds);
        let mut drawn = drawn.expect("the crate draws every grid with all its values");
        let (lines, _) = drawn.remove(0).into_inner();
        let lines = lines.iter().map(|line| line.0.iter());
        lines
            .map(|line| line.flat_map(|p| [p.x.to_bits(), p.y.to_bits()]).collect())
            .collect::<Vec<Vec<u64>>>()
    });
    let lines = patterns.into_iter();
    lines
        .map(|line| line.into_iter().map(f64::from_bits).collect())
        .collect()
}

/// Smoothed in two of three. A placement is one of those above, has each number from any of them, or four
/// random numbers.
pub fn random_pen(random: &mut Random) -> Pen {
    let smooth = match random.below(3) {
        0 => 0,
        _ => random.pick(&SMOOTH[1..]),
    };
    let kind = random.below(4);
    let listed = random.pick(&PLACEMENTS);
    let placement = [0, 1, 2, 3].map(|k| match kind {
        0 => random.pick(&PLACEMENTS)[k],
        1 => (random.below(2_000_001) as f64 - 1e6) / 1e3,
        _ => listed[k],
    });
    Pen { smooth, placement }
}

/// A random terrain of this shape: one of those of rings, noise, any values at all, or values about one
/// threshold.
pub fn random_line_grid(random: &mut Random, dx: usize, dy: usize) -> Grid {
    match random.below(4) {
        0 => random_grid(random, dx, dy),
        1 => {
            let lift = random.pick(&[0.0, 1.0, -1e6]);
            let reach = random.pick(&[1e-16, 1e-20, 1e290]);
            let mut height = || lift + reach * random.below(1 << 53) as f64;
            let threshold = height();
            Grid::new(dx, dy, threshold, |_, _| height())
        }
        2 => {
            let values = (0..dx * dy).map(|_| f64::from_bits(random.next()));
            let values = values.collect();
            at_random_threshold(random, dx, dy, values)
        }
        _ => {
            let few = random.between(2, 9);
            let grid = Grid::new(dx, dy, 1.0, |_, _| f64::from(u8::from(random.once_in(few))));
            dressed(random, &grid)
        }
    }
}

/// The same samples above, with other values and another threshold. Values are the threshold itself and its
/// nearest neighbours, zeros of either sign, tiny, plain and huge ones, infinities, NaN and random ones.
pub fn dressed(random: &mut Random, grid: &Grid) -> Grid {
    #[rustfmt::skip]
    const PLAIN: [f64; 12] = [
        0.0, -0.0, 0.5, 1.0, -1.0, 3.0, LEAST, -LEAST, MIN_POSITIVE, -1e-310, MAX, -MAX,
    ];
    let threshold: f64 = random.pick(&PLAIN);
    let mut value = || match random.below(8) {
        0 => threshold,
        1 => f64::from_bits(threshold.to_bits().wrapping_add(1)),
        2 => f64::from_bits(threshold.to_bits().wrapping_sub(1)),
        3 | 4 => random.pick(&PLAIN),
        5 => random.pick(&[INFINITY, NEG_INFINITY, NAN]),
        _ => threshold + random.between(0, 2_000) as f64 / 7.0 - 1e3 / 7.0,
    };
    let mut on_side = |above: bool| loop {
        let value = value();
        if grid.rule.is_above(value, threshold) == above {
            return value;
        }
    };
    let values = grid.values.iter();
    let values = values.map(|&height| on_side(grid.is_above(height)));
    Grid {
        values: values.collect(),
        threshold,
        ..*grid
    }
}
