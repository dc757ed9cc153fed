//! Polygons with their holes as GeoJSON text, out of the tables or out of vectors.

use crate::drawn::{Rings, HOLE, NO_OWNER, POLYGON};
use crate::record::{record, Words};
use crate::ring_set::{read, word};
use crate::{area, Point, Refusal, Regions};

/// Polygons, drawn or made by hand, as GeoJSON text of the form of
/// [`contours_geojson`](crate::Terrain::contours_geojson). They are written in the order of the lists, whatever
/// the numbers and areas of their rings, and as RFC 7946 asks, whichever way their points run. The dropped holes are
/// checked as the others are, and left out.
///
/// # Errors
///
/// Those of [`check`].
///
/// ```
/// use nigrulent::{geojson, Terrain};
/// # fn main() -> Result<(), nigrulent::Refusal> {
/// let terrain = Terrain::new(&[1.0, 0.0, 1.0], 3, 1)?;
/// assert_eq!(geojson(&terrain.contours(1.0)?)?, terrain.contours_geojson(1.0)?);
/// # Ok(())
/// # }
/// ```
pub fn geojson(regions: &Regions) -> Result<String, Refusal> {
    Packed::of(regions)?.rings().geojson()
}

/// Whether [`geojson`] takes these polygons.
///
/// # Errors
///
/// [`Refusal::RingSet`] where a ring, that of a dropped hole too, has fewer than four points or more than
/// 67,108,864, a last point that is not the first, or a coordinate above 8,192.
///
/// ```
/// use nigrulent::{check, Polygon, Refusal, Regions, Ring};
/// let made = |points: &[[u16; 2]]| {
///     let exterior = Ring { points: points.to_vec(), ..Ring::default() };
///     Regions { polygons: vec![Polygon { exterior, interiors: vec![] }], dropped: vec![] }
/// };
/// assert_eq!(check(&made(&[[0, 0], [4, 0], [0, 4], [0, 0]])), Ok(()));
/// assert_eq!(check(&made(&[[0, 0], [4, 0], [0, 4]])), Err(Refusal::RingSet));
/// assert_eq!(check(&made(&[])), Err(Refusal::RingSet));
/// ```
pub fn check(regions: &Regions) -> Result<(), Refusal> {
    Packed::of(regions)?.rings().check()
}

impl Rings<'_> {
    /// The polygons with their holes, those of a contour or a band, as GeoJSON text of the form of
    /// [`contours_geojson`](crate::Terrain::contours_geojson).
    ///
    /// # Errors
    ///
    /// [`Refusal::RingSet`] where there are bare rings, which are no polygons.
    pub fn geojson(&self) -> Result<String, Refusal> {
        let mut text = Vec::new();
        self.write_geojson(&mut text)?;
        Ok(String::from_utf8(text).expect("the library writes ASCII"))
    }

    /// The same into a vector that is kept from call to call; what it held is gone.
    ///
    /// # Errors
    ///
    /// Those of [`geojson`](Rings::geojson); the vector is then empty.
    ///
    /// ```
    /// use nigrulent::{Refusal, Tables, Terrain};
    /// # fn main() -> Result<(), nigrulent::Refusal> {
    /// let terrain = Terrain::new(&[1.0, 0.0, 1.0], 3, 1)?;
    /// let (mut tables, mut text) = (Tables::new(), Vec::new());
    /// for threshold in [0.0, 1.0, 2.0] {
    ///     tables.contours(&terrain, threshold)?.write_geojson(&mut text)?;
    ///     assert_eq!(text, terrain.contours_geojson(threshold)?.as_bytes());
    /// }
    /// assert_eq!(tables.rings(&terrain, 1.0)?.geojson(), Err(Refusal::RingSet));
    /// # Ok(())
    /// # }
    /// ```
    pub fn write_geojson(&self, text: &mut Vec<u8>) -> Result<(), Refusal> {
        let mut length = 0;
        text.clear();
        read!(contour_geojson_length, self, &mut length)?;
        text.resize(length as usize, 0);
        let room = text.len();
        read!(contour_geojson, self, text.as_mut_ptr(), room, &mut length)
    }

    fn check(&self) -> Result<(), Refusal> {
        read!(contour_check, self)
    }
}

/// The points and records of polygons that are in vectors.
#[derive(Default)]
struct Packed {
    points: Vec<Point>,
    directory: Vec<Words>,
}

impl Packed {
    /// A record for each polygon, followed by those of its holes; then the dropped holes.
    fn of(regions: &Regions) -> Result<Self, Refusal> {
        let mut packed = Packed::default();
        for polygon in &regions.polygons {
            let number = word(packed.directory.len())?;
            packed.push(&polygon.exterior.points, POLYGON, number)?;
            for interior in &polygon.interiors {
                packed.push(&interior.points, HOLE, number)?;
            }
        }
        for ring in &regions.dropped {
            packed.push(&ring.points, HOLE, NO_OWNER)?;
        }
        Ok(packed)
    }

    /// The area is that of the points. A ring that has none is one that no ring set may have.
    fn push(&mut self, ring: &[Point], class: u32, owner: u32) -> Result<(), Refusal> {
        let (first, count) = (word(self.points.len())?, word(ring.len())?);
        let area = area(ring).map_err(|_| Refusal::RingSet)?;
        self.directory
            .push(record(first, count, class, owner, area));
        self.points.extend_from_slice(ring);
        Ok(())
    }

    fn rings(&self) -> Rings<'_> {
        Rings {
            points: &self.points,
            directory: &self.directory,
            first: 0,
        }
    }
}
