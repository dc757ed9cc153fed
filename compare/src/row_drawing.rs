//! A terrain drawn row by row, by document 01's stitching rules over lists of points: what each call of the row form
//! needs and gives out. Neither the crate nor our library has a part in it.

use crate::rings::Grid;
use std::collections::{BTreeMap, VecDeque};

/// The sides between which each cell number draws its segments, in the order of drawing.
const CASES: [&[[Side; 2]]; 16] = {
    use Side::{Bottom as B, Left as L, Right as R, Top as T};
    [
        &[],
        &[[B, L]],
        &[[R, B]],
        &[[R, L]],
        &[[T, R]],
        &[[B, L], [T, R]],
        &[[T, B]],
        &[[T, L]],
        &[[L, T]],
        &[[B, T]],
        &[[L, T], [R, B]],
        &[[R, T]],
        &[[L, R]],
        &[[B, R]],
        &[[L, B]],
        &[],
    ]
};
/// The most samples of a grid on which segments in no ring are also looked up after each cell.
const LOOKED_UP: usize = 12;

/// What a call that draws a row of cells needs, and the rings that it gives out.
#[derive(Default)]
pub struct Turn {
    /// The most open lines after a cell of it.
    pub peak: usize,
    /// The most segments in no closed ring after a cell of it.
    pub held: usize,
    /// The words of the rings that it closes.
    pub rings: Vec<Vec<u16>>,
}

/// A turn for each row of cells: one for each row of values, and one for the end.
pub fn turns(grid: &Grid) -> Vec<Turn> {
    let mut open = OpenLines::default();
    let rows = 0..=grid.dy;
    let turns = rows.map(|row| turn(grid, row, &mut open)).collect();
    assert!(open.lines.is_empty(), "a line is open after the last cell");
    turns
}

/// The cells of a row, from left to right.
fn turn(grid: &Grid, row: usize, open: &mut OpenLines) -> Turn {
    let mut turn = Turn::default();
    for column in 0..=grid.dx {
        for &[from, to] in CASES[number(grid, column, row)] {
            let [from, to] = [from, to].map(|side| point(side, column, row));
            if let Some(ring) = open.draw(from, to) {
                turn.rings.push(ring.into_iter().flatten().collect());
            }
        }
        if grid.values.len() <= LOOKED_UP {
            assert!(open.held == open.held_by_lookup(), "two counts of segments");
        }
        turn.peak = turn.peak.max(open.lines.len());
        turn.held = turn.held.max(open.held);
    }
    turn
}

/// The number of the cell whose lower right sample is (column, row).
fn number(grid: &Grid, column: usize, row: usize) -> usize {
    let share = |weight: usize, left: usize, up: usize| {
        let sample = column.checked_sub(left).zip(row.checked_sub(up));
        let inside = sample.filter(|&(x, y)| x < grid.dx && y < grid.dy);
        let value = inside.map(|(x, y)| grid.values[y * grid.dx + x]);
        weight * usize::from(value.map_or(false, |value| grid.is_above(value)))
    };
    share(1, 1, 0) + share(2, 0, 0) + share(4, 0, 1) + share(8, 1, 1)
}

#[derive(Clone, Copy)]
enum Side {
    Left,
    Right,
    Top,
    Bottom,
}

/// A point of doubled coordinates.
type Point = [u16; 2];

/// The middle of a side of the cell whose lower right sample is (column, row).
fn point(side: Side, column: usize, row: usize) -> Point {
    let (x, y) = (2 * column, 2 * row);
    let doubled = match side {
        Side::Left => [x - 1, y],
        Side::Right => [x + 1, y],
        Side::Top => [x, y - 1],
        Side::Bottom => [x, y + 1],
    };
    doubled.map(|coordinate| coordinate as u16)
}

/// The open lines by number, and the number of the line that starts or ends at a point.
#[derive(Default)]
struct OpenLines {
    lines: BTreeMap<usize, VecDeque<Point>>,
    starts: BTreeMap<Point, usize>,
    ends: BTreeMap<Point, usize>,
    opened: usize,
    /// The segments of all open lines.
    held: usize,
}

impl OpenLines {
    /// One segment more; the ring that it closes, if it closes one.
    fn draw(&mut self, from: Point, to: Point) -> Option<VecDeque<Point>> {
        self.held += 1;
        match (self.ends.remove(&from), self.starts.remove(&to)) {
            (Some(f), Some(g)) if f == g => {
                let mut ring = self.take(f);
                ring.push_back(to);
                self.held -= ring.len() - 1;
                return Some(ring);
            }
            (Some(f), Some(g)) => {
                let behind = self.take(g);
                self.ends.insert(behind[behind.len() - 1], f);
                self.line(f).extend(behind);
            }
            (Some(f), None) => {
                self.line(f).push_back(to);
                self.ends.insert(to, f);
            }
            (None, Some(g)) => {
                self.line(g).push_front(from);
                self.starts.insert(from, g);
            }
            (None, None) => {
                self.lines.insert(self.opened, [from, to].into());
                self.starts.insert(from, self.opened);
                self.ends.insert(to, self.opened);
                self.opened += 1;
            }
        }
        None
    }

    fn line(&mut self, number: usize) -> &mut VecDeque<Point> {
        let line = self.lines.get_mut(&number);
        line.expect("an open line at each tip")
    }

    fn take(&mut self, number: usize) -> VecDeque<Point> {
        let line = self.lines.remove(&number);
        line.expect("an open line at each tip")
    }

    /// The segments of all open lines once more, line by line.
    fn held_by_lookup(&self) -> usize {
        self.lines.values().map(|line| line.len() - 1).sum()
    }
}
