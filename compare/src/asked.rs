//! What an entry is asked: a terrain, for a band a list of thresholds, for lines how they are drawn. The tables that
//! are lent for the answer are not known here.

use crate::guarded::Guarded;
use crate::kinds::Kind;
use crate::lines::Pen;
use crate::rings::{Grid, Pair};

const LONGEST_SIDE: usize = 4_096;

/// A terrain as it is lent, and for a band the list of thresholds: the patterns of floats between guards. The
/// guards of the values are above every threshold that has any above it; those of the list have every sample
/// above them. The number of values need not be that of the sides, and the list need not have the pair.
pub struct Asked<'a> {
    pub kind: Kind,
    pub grid: &'a Grid,
    pub pair: Option<&'a Pair>,
    pub pen: Option<Pen>,
    pub values: Guarded<u64>,
    pub list: Guarded<u64>,
}

impl<'a> Asked<'a> {
    /// Rings or contours at the grid's own threshold.
    pub fn new(kind: Kind, grid: &'a Grid) -> Self {
        Asked {
            kind,
            grid,
            pair: None,
            pen: None,
            values: guarded(&grid.values, f64::INFINITY),
            list: guarded(&[], f64::NEG_INFINITY),
        }
    }

    /// A band, whatever the grid's own threshold.
    pub fn band(grid: &'a Grid, pair: &'a Pair) -> Self {
        Asked {
            pair: Some(pair),
            list: guarded(&pair.list, f64::NEG_INFINITY),
            ..Asked::new(Kind::Bands, grid)
        }
    }

    /// Lines at the grid's own threshold.
    pub fn lines(grid: &'a Grid, pen: Pen) -> Self {
        Asked {
            pen: Some(pen),
            ..Asked::new(Kind::Lines, grid)
        }
    }

    /// The lowest refusal that applies whatever the room, or 0.
    pub fn refusal(&self) -> u32 {
        let Grid { dx, dy, .. } = *self.grid;
        if [dx, dy]
            .iter()
            .any(|&side| side == 0 || side > LONGEST_SIDE)
        {
            return 1;
        }
        if self.grid.values.len() != dx * dy {
            return 2;
        }
        match self.pair {
            Some(pair) if pair.list.len() < 2 => 3,
            Some(pair) if pair.thresholds().is_none() => 4,
            _ => 0,
        }
    }

    /// The terrain at each threshold that is drawn, unless the call is refused whatever the room.
    pub fn sets(&self) -> Vec<Grid> {
        let at = |&threshold: &f64| self.grid.at(threshold);
        match self.pair {
            None => vec![at(&self.grid.threshold)],
            Some(pair) => pair.thresholds().unwrap_or(&[]).iter().map(at).collect(),
        }
    }

    /// Whether everything lent to be read is still what it was.
    pub fn is_still(&self) -> bool {
        let list = self.pair.map_or(&[][..], |pair| &pair.list);
        self.values.is_still(&patterns(&self.grid.values)) && self.list.is_still(&patterns(list))
    }
}

fn guarded(floats: &[f64], guard: f64) -> Guarded<u64> {
    Guarded::new(&patterns(floats), guard.to_bits())
}

fn patterns(floats: &[f64]) -> Vec<u64> {
    floats.iter().map(|float| float.to_bits()).collect()
}
