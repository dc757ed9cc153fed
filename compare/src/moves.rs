//! What smoothing does to a vertex: document 01's formula in f64, and lines that are smoothed by it. Beside it a list of
//! all places that are midway between two neighbouring samples of which at least one is in the grid. The formula takes
//! the threshold alone, whatever the rule.

use crate::asked::Asked;
use crate::lines::{crate_lines, Pen};
use crate::points::Points;
use crate::rings::{Grid, Ring};
use crate::Pt;

/// What becomes of a coordinate.
#[derive(Clone, Copy)]
pub enum Move {
    Stayed,
    Moved(f64),
    NotANumber,
}

impl Move {
    /// By (t - v0) / (v1 - v0), each operation rounded once.
    fn by(t: f64, v0: f64, v1: f64) -> Self {
        let fraction = (t - v0) / (v1 - v0);
        match fraction.is_nan() {
            true => Move::NotANumber,
            false => Move::Moved(fraction),
        }
    }

    /// Where it takes a coordinate.
    fn taken(self, from: f64) -> f64 {
        match self {
            Move::Stayed => from,
            Move::Moved(fraction) => from + fraction - 0.5,
            Move::NotANumber => f64::NAN,
        }
    }
}

/// The moves of x and y at a vertex. With xt and yt the whole parts and v1 the sample (xt, yt): x moves if it is whole
/// and 0 < x < dx, by v1 and the sample (xt - 1, yt); y likewise, by v1 and the sample (xt, yt - 1).
fn moves(grid: &Grid, [x, y]: [f64; 2]) -> [Move; 2] {
    let Grid {
        dx, dy, threshold, ..
    } = *grid;
    let [xt, yt] = [x, y].map(|coordinate| coordinate.trunc() as usize);
    let sample = |column: usize, row: usize| grid.values[row * dx + column];
    let is_moved = |coordinate: f64, side: usize| {
        coordinate == coordinate.trunc() && 0.0 < coordinate && coordinate < side as f64
    };
    let mut moves = [Move::Stayed; 2];
    if is_moved(x, dx) {
        moves[0] = Move::by(threshold, sample(xt - 1, yt), sample(xt, yt));
    }
    if is_moved(y, dy) {
        moves[1] = Move::by(threshold, sample(xt, yt - 1), sample(xt, yt));
    }
    moves
}

/// The lines that these rings become, smoothed by the grid's threshold and placed.
pub fn smoothed_lines(grid: &Grid, pen: Pen, rings: &[Ring]) -> Vec<Vec<f64>> {
    let smoothed = |point: &Pt| {
        let [x, y] = moves(grid, [point.x, point.y]);
        pen.placed([x.taken(point.x), y.taken(point.y)])
    };
    let points = rings.iter().map(|ring| ring.points.iter());
    points
        .map(|line| line.flat_map(smoothed).collect())
        .collect()
}

/// By "at least" these lines have to be the crate's, or the run stops. Any NaN is as good as another.
pub fn hold_to_crate(grid: &Grid, pen: Pen, rings: &[Ring]) {
    let lines = [smoothed_lines(grid, pen, rings), crate_lines(grid, pen)];
    let [stated, drawn] = lines.map(|lines| {
        let lines = lines.into_iter();
        lines
            .map(|line| Points::expected(line.into_iter()))
            .collect::<Vec<_>>()
    });
    assert!(stated == drawn, "the crate's lines are not document 01's");
}

/// A terrain whose vertices are smoothed.
pub struct Smoothing<'a> {
    grid: &'a Grid,
    midway: Marks,
}

impl<'a> Smoothing<'a> {
    /// There is none where the call is refused whatever the ring set.
    pub fn of(asked: &Asked<'a>) -> Option<Self> {
        let grid = asked.grid;
        (asked.refusal() == 0).then(|| Smoothing {
            grid,
            midway: Marks::midway(grid),
        })
    }

    /// The moves of x and y at a point of doubled coordinates, if it is midway.
    pub fn at(&self, point: [u16; 2]) -> Option<[Move; 2]> {
        let [x, y] = point.map(|word| f64::from(word) / 2.0);
        self.midway.has(point).then(|| moves(self.grid, [x, y]))
    }

    /// The crate's vertices have to be midway, or the run stops.
    pub fn hold_midway(&self, rings: &[Ring]) {
        let mut points = rings.iter().flat_map(|ring| ring.words.chunks_exact(2));
        let midway = points.all(|p| self.midway.has([p[0], p[1]]));
        assert!(midway, "the crate's vertices are not midway");
    }
}

/// A set of points in doubled coordinates.
struct Marks {
    width: usize,
    marks: Vec<bool>,
}

impl Marks {
    /// Every pair of a sample, in the grid or beside it, and the next in its row or column, if at least one of the two
    /// is in the grid. A sample stands at twice its column and row and one more, so the place midway is the sum of
    /// both samples' and one more.
    fn midway(grid: &Grid) -> Self {
        let (dx, dy) = (grid.dx as isize, grid.dy as isize);
        let is_in = |column, row| (0..dx).contains(&column) && (0..dy).contains(&row);
        let width = 2 * grid.dx + 1;
        let mut marks = vec![false; width * (2 * grid.dy + 1)];
        for row in -1..=dy {
            for column in -1..=dx {
                for (next, below) in [(column + 1, row), (column, row + 1)] {
                    if is_in(column, row) || is_in(next, below) {
                        let (x, y) = (column + next + 1, row + below + 1);
                        marks[y as usize * width + x as usize] = true;
                    }
                }
            }
        }
        Marks { width, marks }
    }

    fn has(&self, [x, y]: [u16; 2]) -> bool {
        let (x, y) = (usize::from(x), usize::from(y));
        let mark = self.marks.get(y * self.width + x);
        x < self.width && mark == Some(&true)
    }
}
