//! A terrain as a value, and what is drawn of it as plain vectors.

use crate::{Level, Point, Refusal, Regions, Rule, Tables, Vertex};

/// The largest side of a terrain.
pub const SIDE_LIMIT: usize = 4096;

/// The samples of a terrain, row after row, with its dx columns and dy rows. A value of this type has sides
/// that the library takes and as many values as they say.
///
/// The [`Level`] that is drawn at says which samples are above; a number in its place stands for those whose
/// value >= it. A NaN is not above, and outside the terrain nothing is.
///
/// The functions here take tables for one call each. Who draws often keeps [`Tables`].
#[derive(Clone, Copy, Debug, PartialEq)]
pub struct Terrain<'a> {
    values: &'a [f64],
    dx: usize,
    dy: usize,
}

/// Where lines stand: a point (x, y) is placed at (x · x_step + x_origin, y · y_step + y_origin). The default
/// is origin 0 and step 1, which places nothing.
#[derive(Clone, Copy, Debug, PartialEq)]
pub struct Placement {
    /// Where x = 0 comes to.
    pub x_origin: f64,
    /// Where y = 0 comes to.
    pub y_origin: f64,
    /// From a column to the next.
    pub x_step: f64,
    /// From a row to the next.
    pub y_step: f64,
}

impl Default for Placement {
    fn default() -> Self {
        Placement {
            x_origin: 0.0,
            y_origin: 0.0,
            x_step: 1.0,
            y_step: 1.0,
        }
    }
}

impl<'a> Terrain<'a> {
    /// The terrain of dx columns and dy rows that has these values, row after row.
    ///
    /// # Errors
    ///
    /// [`Refusal::Side`] where a side is 0 or above 4,096, else [`Refusal::ValueCount`] where the number of
    /// values is not dx·dy.
    ///
    /// ```
    /// use nigrulent::{Refusal, Terrain};
    /// assert!(Terrain::new(&[1.0, 2.0, 3.0], 3, 1).is_ok());
    /// assert_eq!(Terrain::new(&[1.0, 2.0, 3.0], 3, 0), Err(Refusal::Side));
    /// assert_eq!(Terrain::new(&[1.0, 2.0, 3.0], 2, 2), Err(Refusal::ValueCount));
    /// ```
    pub fn new(values: &'a [f64], dx: usize, dy: usize) -> Result<Self, Refusal> {
        let sides = 1..=SIDE_LIMIT;
        if !sides.contains(&dx) || !sides.contains(&dy) {
            return Err(Refusal::Side);
        }
        if values.len() != dx * dy {
            return Err(Refusal::ValueCount);
        }
        Ok(Terrain { values, dx, dy })
    }

    /// The values, row after row.
    pub fn values(&self) -> &'a [f64] {
        self.values
    }

    /// The number of columns.
    pub fn dx(&self) -> usize {
        self.dx
    }

    /// The number of rows.
    pub fn dy(&self) -> usize {
        self.dy
    }

    /// The rings, in the order in which they close. Each is a closed list of points, the first repeated last.
    ///
    /// # Errors
    ///
    /// None that the library leaves for a terrain; should it refuse all the same, its number.
    ///
    /// ```
    /// # fn main() -> Result<(), nigrulent::Refusal> {
    /// let terrain = nigrulent::Terrain::new(&[5.0], 1, 1)?;
    /// assert_eq!(terrain.rings(5.0)?, [[[2, 1], [1, 0], [0, 1], [1, 2], [2, 1]]]);
    /// assert!(terrain.rings(6.0)?.is_empty());
    /// # Ok(())
    /// # }
    /// ```
    pub fn rings(&self, level: impl Into<Level>) -> Result<Vec<Vec<Point>>, Refusal> {
        let mut tables = Tables::new();
        let rings = tables.rings(self, level)?;
        Ok(rings.iter().map(<[Point]>::to_vec).collect())
    }

    /// The contour: polygons about the samples that are above. Polygons come in the order in which their rings
    /// close, and so do the holes of each.
    ///
    /// # Errors
    ///
    /// As of [`rings`](Terrain::rings).
    ///
    /// ```
    /// # fn main() -> Result<(), nigrulent::Refusal> {
    /// let values = [1.0, 1.0, 1.0, 1.0, 0.0, 1.0, 1.0, 1.0, 1.0];
    /// let contour = nigrulent::Terrain::new(&values, 3, 3)?.contours(1.0)?;
    /// // The hole's ring closes first.
    /// assert_eq!(contour.polygons[0].number(), 1);
    /// assert_eq!(contour.polygons[0].interiors[0].number, 0);
    /// # Ok(())
    /// # }
    /// ```
    pub fn contours(&self, level: impl Into<Level>) -> Result<Regions, Refusal> {
        Ok(Tables::new().contours(self, level)?.to_regions())
    }

    /// The band of thresholds k and k + 1 of a list, counted from 0, as the library draws it: the rings of both
    /// thresholds, by one rule, as polygons and interior rings. Polygons come in the order of their sizes, the
    /// smallest first, and so do the interior rings of each.
    ///
    /// The rings of the two thresholds share edges wherever the terrain jumps over the band. The polygons are
    /// then not valid for many readers, and samples of the band can be in none of them. Who wants a band for a
    /// map draws the contour at 1 of a terrain that is 1 where low <= value < high, or under [`Rule::MoreThan`]
    /// where low < value <= high, and 0 elsewhere.
    ///
    /// # Errors
    ///
    /// [`Refusal::Thresholds`] where the list has fewer than two thresholds, else [`Refusal::Pair`] where it has
    /// no pair k and k + 1.
    ///
    /// ```
    /// use nigrulent::{Refusal, Rule, Terrain};
    /// # fn main() -> Result<(), nigrulent::Refusal> {
    /// let terrain = Terrain::new(&[1.0], 1, 1)?;
    /// let band = terrain.isobands(&[1.0, 1.0], Rule::AtLeast, 0)?;
    /// assert_eq!((band.polygons.len(), band.dropped.len()), (0, 2));
    /// // The sample is more than 0 and not more than 1, so there is the ring of 0 alone.
    /// let band = terrain.isobands(&[0.0, 1.0], Rule::MoreThan, 0)?;
    /// assert_eq!((band.polygons.len(), band.dropped.len()), (1, 0));
    /// assert_eq!(terrain.isobands(&[1.0], Rule::AtLeast, 0), Err(Refusal::Thresholds));
    /// assert_eq!(terrain.isobands(&[1.0, 2.0], Rule::AtLeast, 1), Err(Refusal::Pair));
    /// # Ok(())
    /// # }
    /// ```
    pub fn isobands(&self, thresholds: &[f64], rule: Rule, k: usize) -> Result<Regions, Refusal> {
        let mut tables = Tables::new();
        Ok(tables.isobands(self, thresholds, rule, k)?.to_regions())
    }

    /// The lines: the rings as floats, in the same order. Before they are placed, sample (column, row) stands at
    /// (column + 0.5, row + 0.5).
    ///
    /// A vertex stands midway between a sample that is above and one that is not. Smoothed, it stands where the
    /// threshold lies between their values, whatever the rule; at the sides of the terrain it stays. Where a number
    /// is infinite, NaN or huge, coordinates may be infinite or NaN.
    ///
    /// # Errors
    ///
    /// As of [`rings`](Terrain::rings).
    ///
    /// ```
    /// use nigrulent::{Placement, Terrain};
    /// # fn main() -> Result<(), nigrulent::Refusal> {
    /// let terrain = Terrain::new(&[0.0, 4.0], 2, 1)?;
    /// assert_eq!(terrain.lines(1.0, true, Placement::default())?[0][2], [0.75, 0.5]);
    /// let placement = Placement { x_origin: 10.0, x_step: 2.0, ..Placement::default() };
    /// assert_eq!(terrain.lines(1.0, true, placement)?[0][2], [11.5, 0.5]);
    /// # Ok(())
    /// # }
    /// ```
    pub fn lines(
        &self,
        level: impl Into<Level>,
        smooth: bool,
        placement: Placement,
    ) -> Result<Vec<Vec<Vertex>>, Refusal> {
        let mut tables = Tables::new();
        let lines = tables.lines(self, level, smooth, placement)?;
        Ok(lines.iter().map(<[Vertex]>::to_vec).collect())
    }

    /// What [`contours`](Terrain::contours) draws, as GeoJSON text: a MultiPolygon of its polygons, each followed
    /// by its holes, in the units of columns and rows. Sample (column, row) stands at (column + 0.5, row + 0.5).
    /// Without polygons the coordinates are `[]`.
    ///
    /// Taken with y upward, polygons run counterclockwise and holes clockwise, as RFC 7946 asks: rings of a contour
    /// are written backwards, each from its first point.
    ///
    /// # Errors
    ///
    /// As of [`rings`](Terrain::rings).
    ///
    /// ```
    /// # fn main() -> Result<(), nigrulent::Refusal> {
    /// let text = nigrulent::Terrain::new(&[1.0], 1, 1)?.contours_geojson(1.0)?;
    /// let ring = "[[1,0.5],[0.5,1],[0,0.5],[0.5,0],[1,0.5]]";
    /// assert_eq!(text, format!(r#"{{"type":"MultiPolygon","coordinates":[[{ring}]]}}"#));
    /// # Ok(())
    /// # }
    /// ```
    pub fn contours_geojson(&self, level: impl Into<Level>) -> Result<String, Refusal> {
        Tables::new().contours(self, level)?.geojson()
    }

    /// What [`isobands`](Terrain::isobands) draws, as GeoJSON text of the same form.
    ///
    /// # Errors
    ///
    /// Those of [`isobands`](Terrain::isobands).
    pub fn isobands_geojson(
        &self,
        thresholds: &[f64],
        rule: Rule,
        k: usize,
    ) -> Result<String, Refusal> {
        let mut tables = Tables::new();
        tables.isobands(self, thresholds, rule, k)?.geojson()
    }
}

#[cfg(test)]
mod tests {
    use super::{Refusal, Rule, Terrain};
    use crate::ffi;

    /// A terrain is refused as the library refuses it.
    #[test]
    fn refused_as_by_the_library() {
        let values = vec![0.0; 4096];
        let sides = [0, 1, 2, 3, 4, 64, 4095, 4096, 4097, 1 << 32, usize::MAX];
        for (dx, dy) in sides.iter().flat_map(|&dx| sides.map(|dy| (dx, dy))) {
            for count in [0, 1, 2, 4, 6, 8, 4095, 4096] {
                let (mut segments, mut peak) = (0, 0);
                // Safety: the library reads so many values and writes two numbers.
                let library = Refusal::of(unsafe {
                    ffi::contour_first_report(
                        values.as_ptr(),
                        count,
                        0.0,
                        Rule::AtLeast.number(),
                        dx,
                        dy,
                        &mut segments,
                        &mut peak,
                    )
                });
                let ours = Terrain::new(&values[..count], dx, dy).map(|_| ());
                assert_eq!(ours, library, "{count} values, {dx} by {dy}");
            }
        }
    }
}
