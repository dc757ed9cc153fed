//! The tables that the library is lent: sized by its first report, and kept from call to call.

use crate::drawn::{Lines, Rings};
use crate::ffi::RECORD_WORDS;
use crate::record::Words;
use crate::{ffi, Level, Placement, Point, Refusal, Rule, Terrain, Vertex};

/// The tables that the library is lent. They grow to what a call needs and stay for the next one, so that who
/// draws many terrains, or one at many thresholds, takes memory once. What a call has drawn is borrowed from
/// them until the next.
///
/// They are sized by the first report and by what it bounds: each ring has four segments or more. So each
/// terrain is stitched once.
///
/// ```
/// use nigrulent::{Fate, Tables, Terrain};
/// # fn main() -> Result<(), nigrulent::Refusal> {
/// let values = [1.0, 1.0, 1.0, 1.0, 0.0, 1.0, 1.0, 1.0, 1.0];
/// let terrain = Terrain::new(&values, 3, 3)?;
/// let mut tables = Tables::new();
/// for threshold in [0.0, 0.5, 1.0] {
///     let rings = tables.contours(&terrain, threshold)?;
///     let longest = rings.iter().map(<[_]>::len).max();
///     assert_eq!(longest, Some(13));
/// }
/// let fates: Vec<_> = tables.contours(&terrain, 1.0)?.records().map(|r| (r.number, r.fate)).collect();
/// assert_eq!(fates, [(0, Fate::Hole(1)), (1, Fate::Polygon)]);
/// # Ok(())
/// # }
/// ```
#[derive(Debug, Default)]
pub struct Tables {
    open: Vec<u32>,
    links: Vec<u32>,
    points: Vec<Point>,
    vertices: Vec<Vertex>,
    directory: Vec<Words>,
}

/// What is drawn, and at which thresholds.
#[derive(Clone, Copy)]
enum Figure<'a> {
    Rings(Level),
    Contours(Level),
    Band(&'a [f64], Rule, usize),
}

/// Calls one of three functions, for rings, contours or a band, with a terrain and what else it takes.
macro_rules! call {
    ($terrain:expr, $figure:expr, [$rings:ident, $contours:ident, $band:ident], $($rest:expr),* $(,)?) => {{
        let (values, dx, dy) = ($terrain.values(), $terrain.dx(), $terrain.dy());
        let (at, count) = (values.as_ptr(), values.len());
        // Safety: the library reads the values and the thresholds and writes the tables and outputs lent,
        // within the lengths passed beside them.
        Refusal::of(unsafe {
            match $figure {
                Figure::Rings(Level { threshold, rule }) => {
                    ffi::$rings(at, count, threshold, rule.number(), dx, dy, $($rest),*)
                }
                Figure::Contours(Level { threshold, rule }) => {
                    ffi::$contours(at, count, threshold, rule.number(), dx, dy, $($rest),*)
                }
                Figure::Band(list, rule, k) => {
                    let (thresholds, length) = (list.as_ptr(), list.len());
                    ffi::$band(at, count, thresholds, length, rule.number(), k, dx, dy, $($rest),*)
                }
            }
        })
    }};
}

impl Tables {
    /// Tables of no room.
    pub fn new() -> Self {
        Tables::default()
    }

    /// The rings, in the order in which they close, as [`Terrain::rings`] hands them out.
    ///
    /// # Errors
    ///
    /// None that the library leaves for a terrain; should it refuse all the same, its number.
    pub fn rings(
        &mut self,
        terrain: &Terrain,
        level: impl Into<Level>,
    ) -> Result<Rings<'_>, Refusal> {
        self.draw(terrain, Figure::Rings(level.into()))
    }

    /// The rings with class and owner, as [`Terrain::contours`] sorts them into polygons.
    ///
    /// # Errors
    ///
    /// As of [`rings`](Tables::rings).
    pub fn contours(
        &mut self,
        terrain: &Terrain,
        level: impl Into<Level>,
    ) -> Result<Rings<'_>, Refusal> {
        self.draw(terrain, Figure::Contours(level.into()))
    }

    /// The rings of a band, by size, with class and owner, as [`Terrain::isobands`] sorts them into polygons.
    ///
    /// # Errors
    ///
    /// [`Refusal::Thresholds`] where the list has fewer than two thresholds, else [`Refusal::Pair`] where it has
    /// no pair k and k + 1.
    pub fn isobands(
        &mut self,
        terrain: &Terrain,
        thresholds: &[f64],
        rule: Rule,
        k: usize,
    ) -> Result<Rings<'_>, Refusal> {
        self.draw(terrain, Figure::Band(thresholds, rule, k))
    }

    /// The lines, as [`Terrain::lines`] hands them out.
    ///
    /// # Errors
    ///
    /// As of [`rings`](Tables::rings).
    pub fn lines(
        &mut self,
        terrain: &Terrain,
        level: impl Into<Level>,
        smooth: bool,
        placement: Placement,
    ) -> Result<Lines<'_>, Refusal> {
        let level = level.into();
        let most_points = self.lend(terrain, Figure::Rings(level))?;
        make_room(&mut self.vertices, most_points);
        let mut rings = 0;
        // Safety: the library reads the values and writes the tables and outputs lent, within the lengths
        // passed beside them.
        Refusal::of(unsafe {
            ffi::contour_lines(
                terrain.values().as_ptr(),
                terrain.values().len(),
                level.threshold,
                level.rule.number(),
                terrain.dx(),
                terrain.dy(),
                smooth.into(),
                placement.x_origin,
                placement.y_origin,
                placement.x_step,
                placement.y_step,
                self.open.as_mut_ptr(),
                self.open.len(),
                self.links.as_mut_ptr(),
                self.links.len(),
                self.vertices.as_mut_ptr().cast(),
                2 * self.vertices.len(),
                self.directory.as_mut_ptr().cast(),
                RECORD_WORDS * self.directory.len(),
                &mut rings,
            )
        })?;
        Ok(Lines {
            points: &self.vertices,
            directory: &self.directory[..rings as usize],
            first: 0,
        })
    }

    fn draw(&mut self, terrain: &Terrain, figure: Figure) -> Result<Rings<'_>, Refusal> {
        let most_points = self.lend(terrain, figure)?;
        make_room(&mut self.points, most_points);
        let mut rings = 0;
        call!(
            terrain,
            figure,
            [contour_rings, contour_contours, contour_isobands],
            self.open.as_mut_ptr(),
            self.open.len(),
            self.links.as_mut_ptr(),
            self.links.len(),
            self.points.as_mut_ptr().cast(),
            2 * self.points.len(),
            self.directory.as_mut_ptr().cast(),
            RECORD_WORDS * self.directory.len(),
            &mut rings,
        )?;
        Ok(Rings {
            points: &self.points,
            directory: &self.directory[..rings as usize],
            first: 0,
        })
    }

    /// Room in the work tables and the directory, by the first report. Gives the number of points that there
    /// are at most. A band has two sets of rings, of so many segments each.
    fn lend(&mut self, terrain: &Terrain, figure: Figure) -> Result<usize, Refusal> {
        let (mut segments, mut peak) = (0, 0);
        call!(
            terrain,
            figure,
            [
                contour_first_report,
                contour_first_report,
                contour_band_first_report
            ],
            &mut segments,
            &mut peak,
        )?;
        let (segments, peak) = (segments as usize, peak as usize);
        let all_segments = match figure {
            Figure::Band(..) => 2 * segments,
            _ => segments,
        };
        let most_rings = all_segments / 4;
        make_room(&mut self.open, 4 * peak + terrain.dx() + 2);
        make_room(&mut self.links, 2 * segments);
        make_room(&mut self.directory, most_rings);
        Ok(all_segments + most_rings)
    }
}

/// A table that is short is taken anew: nothing in it is kept.
fn make_room<T: Clone + Default>(table: &mut Vec<T>, count: usize) {
    if table.len() < count {
        *table = Vec::new();
        *table = vec![T::default(); count];
    }
}
