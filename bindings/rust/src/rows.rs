//! A terrain that comes row by row: its rings, handed out as they close.

use crate::drawn::Rings;
use crate::ffi::{RECORD_WORDS, STATE_WORDS};
use crate::record::Words;
use crate::{ffi, Level, Point, Refusal};

/// A table that grows has this length at least.
const LEAST: usize = 64;

/// A terrain that comes row by row and is never held. Each row hands out the rings that close in it, the end those
/// that close at the lower edge. All of them together are the rings of [`Terrain::rings`](crate::Terrain::rings), in
/// its order, and their numbers count through from 0.
///
/// Between two rows it holds which samples of the last one are above, and the unfinished lines. Its tables grow as the
/// terrain asks for it, by what is unfinished and what closes in one row. What is handed out is borrowed from them
/// until the next row; [`to_rings`](crate::Rings::to_rings) keeps it. A clone goes on by itself.
///
/// A ring is bare: whether a hole's polygon is there shows only later, so nothing is said of owners. Its
/// [`area`](crate::Record::area) tells a hole, for which it is below 0.
///
/// ```
/// use nigrulent::{Refusal, Rows};
/// # fn main() -> Result<(), Refusal> {
/// let mut rows = Rows::begin(1.0, 3, 3)?;
/// assert!(rows.push(&[1.0, 1.0, 1.0])?.is_empty());
/// assert!(rows.push(&[1.0, 0.0, 1.0])?.is_empty());
/// // The hole's ring closes when the row below it is there.
/// let closed = rows.push(&[1.0, 1.0, 1.0])?.to_rings();
/// assert_eq!((closed.len(), closed[0].number, closed[0].area), (1, 0, -4));
/// assert_eq!(closed[0].points, [[3, 4], [2, 3], [3, 2], [4, 3], [3, 4]]);
/// let last = rows.finish()?.to_rings();
/// assert_eq!((last.len(), last[0].number, last[0].points.len()), (1, 1, 13));
/// # Ok(())
/// # }
/// ```
///
/// A terrain whose height is not known beforehand is begun with [`SIDE_LIMIT`](crate::SIDE_LIMIT) rows. A row that is
/// nowhere above, as one of NaN, takes the place of the end:
///
/// ```
/// use nigrulent::{Refusal, Rows, SIDE_LIMIT};
/// # fn main() -> Result<(), Refusal> {
/// let mut rows = Rows::begin(1.0, 2, SIDE_LIMIT)?;
/// assert!(rows.push(&[1.0, 1.0])?.is_empty());
/// assert_eq!(rows.push(&[f64::NAN; 2])?.len(), 1);
/// # Ok(())
/// # }
/// ```
#[derive(Clone, Debug)]
pub struct Rows {
    state: [u32; STATE_WORDS],
    open: Vec<u32>,
    links: Vec<u32>,
    points: Vec<Point>,
    directory: Vec<Words>,
    dx: usize,
    dy: usize,
    /// How many rings were handed out.
    handed_out: u32,
}

impl Rows {
    /// A terrain of dx columns and dy rows, of which there is no row yet, at a level.
    ///
    /// # Errors
    ///
    /// [`Refusal::Side`] where a side is 0 or above 4,096.
    pub fn begin(level: impl Into<Level>, dx: usize, dy: usize) -> Result<Self, Refusal> {
        let Level { threshold, rule } = level.into();
        let mut state = [0; STATE_WORDS];
        let words = state.as_mut_ptr();
        // Safety: the library writes the words of a state.
        Refusal::of(unsafe { ffi::contour_rows_begin(threshold, rule.number(), dx, dy, words) })?;
        Ok(Rows {
            state,
            // With so many words no row finds the open table short.
            open: vec![0; dx + 2 + 4 * ((dx + 2) / 2)],
            links: Vec::new(),
            points: Vec::new(),
            directory: Vec::new(),
            dx,
            dy,
            handed_out: 0,
        })
    }

    /// The number of columns.
    pub fn dx(&self) -> usize {
        self.dx
    }

    /// The number of rows.
    pub fn dy(&self) -> usize {
        self.dy
    }

    /// Takes the next row, and hands out the rings that close in it.
    ///
    /// # Errors
    ///
    /// [`Refusal::Row`] where there is not a value for each column, else [`Refusal::Turn`] where all rows are there.
    /// The terrain then stays as it was, and goes on with the right row.
    ///
    /// ```
    /// use nigrulent::{Refusal, Rows};
    /// # fn main() -> Result<(), Refusal> {
    /// let mut rows = Rows::begin(1.0, 2, 1)?;
    /// assert_eq!(rows.push(&[1.0]).err(), Some(Refusal::Row));
    /// assert!(rows.push(&[1.0, 0.0])?.is_empty());
    /// assert_eq!(rows.push(&[1.0, 0.0]).err(), Some(Refusal::Turn));
    /// # Ok(())
    /// # }
    /// ```
    pub fn push(&mut self, values: &[f64]) -> Result<Rings<'_>, Refusal> {
        self.advance(Some(values))
    }

    /// Ends the terrain after its last row, and hands out the rings that close at its lower edge.
    ///
    /// # Errors
    ///
    /// [`Refusal::Turn`] where a row is still to come, or where the terrain has ended already. It then stays as it
    /// was.
    ///
    /// ```
    /// use nigrulent::{Refusal, Rows};
    /// # fn main() -> Result<(), Refusal> {
    /// let mut rows = Rows::begin(1.0, 1, 1)?;
    /// assert_eq!(rows.finish().err(), Some(Refusal::Turn));
    /// assert!(rows.push(&[1.0])?.is_empty());
    /// assert_eq!(rows.finish()?.len(), 1);
    /// assert_eq!(rows.finish().err(), Some(Refusal::Turn));
    /// # Ok(())
    /// # }
    /// ```
    pub fn finish(&mut self) -> Result<Rings<'_>, Refusal> {
        self.advance(None)
    }

    /// A row, or the end where there are no values, with as much room as it needs: a call that is refused has
    /// changed nothing, and is made again.
    fn advance(&mut self, values: Option<&[f64]>) -> Result<Rings<'_>, Refusal> {
        let mut closed = 0;
        while let Err(refusal) = self.call(values, &mut closed) {
            self.widen(refusal)?;
        }
        let first = self.handed_out;
        self.handed_out += closed;
        Ok(Rings {
            points: &self.points,
            directory: &self.directory[..closed as usize],
            first,
        })
    }

    fn call(&mut self, values: Option<&[f64]>, closed: &mut u32) -> Result<(), Refusal> {
        let state = self.state.as_mut_ptr();
        let (open, open_words) = (self.open.as_mut_ptr(), self.open.len());
        let (links, links_words) = (self.links.as_mut_ptr(), self.links.len());
        let (points, points_words) = (self.points.as_mut_ptr().cast(), 2 * self.points.len());
        let (directory, directory_words) = (
            self.directory.as_mut_ptr().cast(),
            RECORD_WORDS * self.directory.len(),
        );
        // Safety: the library reads the values and reads and writes the state, the tables and the number lent,
        // within the lengths passed beside them.
        Refusal::of(unsafe {
            match values {
                Some(values) => ffi::contour_rows_row(
                    state,
                    values.as_ptr(),
                    values.len(),
                    open,
                    open_words,
                    links,
                    links_words,
                    points,
                    points_words,
                    directory,
                    directory_words,
                    closed,
                ),
                None => ffi::contour_rows_end(
                    state,
                    open,
                    open_words,
                    links,
                    links_words,
                    points,
                    points_words,
                    directory,
                    directory_words,
                    closed,
                ),
            }
        })
    }

    /// More room in the table that a refusal names; its words stay. The most that a table can need goes by the most
    /// segments that a terrain of these sides has, and by four segments a ring.
    fn widen(&mut self, refusal: Refusal) -> Result<(), Refusal> {
        let segments = 2 * self.dx * self.dy + self.dx + self.dy;
        let rings = segments / 4;
        let wider = match refusal.number() {
            6 => widened(&mut self.links, 2 * segments),
            7 => widened(&mut self.points, segments + rings),
            8 => widened(&mut self.directory, rings),
            _ => false,
        };
        match wider {
            true => Ok(()),
            false => Err(refusal),
        }
    }
}

/// Makes a table twice as long, up to the most that it can need. Whether it has become longer.
fn widened<T: Clone + Default>(table: &mut Vec<T>, most: usize) -> bool {
    let before = table.len();
    table.resize((2 * before).max(LEAST).min(most).max(before), T::default());
    before < table.len()
}
