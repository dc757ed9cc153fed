//! S and H of a terrain, counted from its samples by document 01's words. Neither the crate nor our
//! library has a part in it.

use crate::rings::Grid;

/// How many segments each cell number draws.
const DRAWN: [usize; 16] = [0, 1, 1, 1, 1, 2, 1, 1, 1, 1, 2, 1, 1, 1, 1, 0];

/// The segments drawn, and the peak of open lines: the largest half-count of crossed sample pairs that a
/// finished and an unfinished cell share, after any cell.
#[derive(Clone, Copy, Default)]
pub struct Counts {
    pub segments: usize,
    pub peak: usize,
}

impl Counts {
    pub fn of(grid: &Grid) -> Self {
        let (mut segments, mut peak, mut crossed) = (0, 0, 0);
        for row in 0..=grid.dy {
            let mut west = [false; 2];
            for column in 0..=grid.dx {
                let east = [
                    above(grid, column, row.wrapping_sub(1)),
                    above(grid, column, row),
                ];
                let cell = Cell { west, east };
                segments += DRAWN[cell.number()];
                crossed += usize::from(cell.right()) + usize::from(cell.lower());
                crossed -= usize::from(cell.left()) + usize::from(cell.upper());
                assert!(crossed % 2 == 0, "an odd number of pairs after a cell");
                peak = peak.max(crossed / 2);
                west = east;
            }
        }
        Counts { segments, peak }
    }

    /// The larger of each.
    pub fn larger(self, other: Self) -> Self {
        Counts {
            segments: self.segments.max(other.segments),
            peak: self.peak.max(other.peak),
        }
    }
}

/// The peak once more, with the shared pairs looked up anew after each cell. Slow: for small grids.
pub fn peak_by_lookup(grid: &Grid) -> usize {
    let width = grid.dx + 1;
    let cells: Vec<_> = (0..width * (grid.dy + 1))
        .map(|k| Cell::at(grid, k % width, k / width))
        .collect();
    let shared_after = |last: usize| {
        let to_the_right = usize::from(cells[last].right());
        let below = (0..=last).filter(|k| k + width > last && cells[*k].lower());
        to_the_right + below.count()
    };
    (0..cells.len()).map(shared_after).max().unwrap_or(0) / 2
}

/// Whether a sample is above. Everything outside the grid is not.
fn above(grid: &Grid, x: usize, y: usize) -> bool {
    x < grid.dx && y < grid.dy && grid.is_above(grid.values[y * grid.dx + x])
}

/// The four samples of a cell, upper one first on either side. An edge is crossed when its pair differs.
struct Cell {
    west: [bool; 2],
    east: [bool; 2],
}

impl Cell {
    /// The cell whose lower right sample is (column, row).
    fn at(grid: &Grid, column: usize, row: usize) -> Self {
        let side = |x: usize| [above(grid, x, row.wrapping_sub(1)), above(grid, x, row)];
        Cell {
            west: side(column.wrapping_sub(1)),
            east: side(column),
        }
    }

    fn number(&self) -> usize {
        usize::from(self.west[1])
            + 2 * usize::from(self.east[1])
            + 4 * usize::from(self.east[0])
            + 8 * usize::from(self.west[0])
    }

    fn left(&self) -> bool {
        self.west[0] != self.west[1]
    }

    fn right(&self) -> bool {
        self.east[0] != self.east[1]
    }

    fn upper(&self) -> bool {
        self.west[0] != self.east[0]
    }

    fn lower(&self) -> bool {
        self.west[1] != self.east[1]
    }
}
