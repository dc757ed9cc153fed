//! What stands in the tables after a call: rings or lines, borrowed, each with its number, class, owner and area.

use crate::record::{area_in, Words, CLASS, COUNT, FIRST, OWNER};
use crate::{Point, Vertex};

/// The owner word of a ring that has none.
pub(crate) const NO_OWNER: u32 = u32::MAX;

/// The class words.
pub(crate) const POLYGON: u32 = 0;
pub(crate) const HOLE: u32 = 1;
pub(crate) const LINE: u32 = 2;

/// What became of a ring: its class and its owner.
#[derive(Clone, Copy, Debug, PartialEq, Eq, Hash)]
pub enum Fate {
    /// The exterior of a polygon, which owns itself.
    Polygon,
    /// A hole, or an interior ring of a band, of the polygon that has this number.
    Hole(u32),
    /// A hole that belongs to no polygon.
    Dropped,
    /// A bare ring or a line, of which nothing is asked.
    Line,
}

impl Fate {
    /// The class word of the library: 0 for a polygon, 1 for a hole, dropped or not, 2 for a bare ring or a
    /// line.
    pub fn class(self) -> u32 {
        match self {
            Fate::Polygon => POLYGON,
            Fate::Hole(_) | Fate::Dropped => HOLE,
            Fate::Line => LINE,
        }
    }

    fn of(record: &Words) -> Self {
        match (record[CLASS], record[OWNER]) {
            (POLYGON, _) => Fate::Polygon,
            (HOLE, NO_OWNER) => Fate::Dropped,
            (HOLE, owner) => Fate::Hole(owner),
            _ => Fate::Line,
        }
    }
}

/// A ring or a line, borrowed from the tables.
#[derive(Clone, Copy, Debug, PartialEq)]
pub struct Record<'t, P = Point> {
    /// Its number: its place among all that was drawn, of a terrain that comes row by row since its first row.
    /// Those of rings, lines and a contour are counted in the order in which they close, those of a band by size,
    /// the smallest first.
    pub number: u32,
    /// Its class and owner.
    pub fate: Fate,
    /// Its [`area`](crate::area()): eight times the enclosed area in squares of one step from sample to sample, signed.
    /// A line has that of its ring, before it was smoothed and placed.
    pub area: i64,
    /// Its points, the first repeated last.
    pub points: &'t [P],
}

impl<P> Record<'_, P> {
    /// The number of the polygon that the ring belongs to: its own as a polygon. A dropped hole, a bare ring
    /// and a line have none.
    pub fn owner(&self) -> Option<u32> {
        match self.fate {
            Fate::Polygon => Some(self.number),
            Fate::Hole(owner) => Some(owner),
            Fate::Dropped | Fate::Line => None,
        }
    }
}

/// All that a call has drawn, borrowed from the tables that it was drawn into.
#[derive(Clone, Copy, Debug)]
pub struct Drawn<'t, P = Point> {
    pub(crate) points: &'t [P],
    pub(crate) directory: &'t [Words],
    /// The number of the first of them: 0, but where rows before this one have closed rings.
    pub(crate) first: u32,
}

/// Rings, borrowed.
pub type Rings<'t> = Drawn<'t, Point>;

/// Lines, borrowed.
pub type Lines<'t> = Drawn<'t, Vertex>;

impl<'t, P> Drawn<'t, P> {
    /// How many there are.
    pub fn len(&self) -> usize {
        self.directory.len()
    }

    /// Whether nothing was drawn.
    pub fn is_empty(&self) -> bool {
        self.directory.is_empty()
    }

    /// The points of each, as slices, by number.
    pub fn iter(&self) -> impl ExactSizeIterator<Item = &'t [P]> + DoubleEndedIterator + 't {
        let points = self.points;
        self.directory
            .iter()
            .map(move |record| points_of(record, points))
    }

    /// Each with its number, class, owner and area, by number; dropped holes too.
    ///
    /// ```
    /// use nigrulent::{Placement, Tables, Terrain};
    /// # fn main() -> Result<(), nigrulent::Refusal> {
    /// let values = [1.0, 1.0, 1.0, 1.0, 0.0, 1.0, 1.0, 1.0, 1.0];
    /// let terrain = Terrain::new(&values, 3, 3)?;
    /// let mut tables = Tables::new();
    /// let rings = tables.rings(&terrain, 1.0)?;
    /// assert!(rings.records().map(|ring| ring.area).eq([-4, 68]));
    /// // The lines have the areas of their rings, wherever they are placed.
    /// let placement = Placement { x_step: 10.0, ..Placement::default() };
    /// let lines = tables.lines(&terrain, 1.0, true, placement)?;
    /// assert!(lines.records().map(|line| line.area).eq([-4, 68]));
    /// # Ok(())
    /// # }
    /// ```
    pub fn records(
        &self,
    ) -> impl ExactSizeIterator<Item = Record<'t, P>> + DoubleEndedIterator + 't {
        let (points, first) = (self.points, self.first);
        // A place fits a word: the library counts rings in one.
        self.directory
            .iter()
            .enumerate()
            .map(move |(place, record)| record_of(first + place as u32, record, points))
    }

    /// That of a number.
    pub fn record(&self, number: u32) -> Option<Record<'t, P>> {
        let place = number.checked_sub(self.first)? as usize;
        let record = self.directory.get(place)?;
        Some(record_of(number, record, self.points))
    }
}

fn record_of<'t, P>(number: u32, record: &Words, points: &'t [P]) -> Record<'t, P> {
    Record {
        number,
        fate: Fate::of(record),
        area: area_in(record),
        points: points_of(record, points),
    }
}

fn points_of<'t, P>(record: &Words, points: &'t [P]) -> &'t [P] {
    let [first, count] = [FIRST, COUNT].map(|word| record[word] as usize);
    &points[first..first + count]
}
