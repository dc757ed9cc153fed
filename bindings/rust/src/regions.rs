//! Contours and bands as polygons with their holes, in vectors.

use crate::drawn::{Fate, Record, Rings};
use crate::Point;

/// A ring with its area and its number, by which owners are named: of a contour its place in the order in which rings
/// close, of a band its place by size.
#[derive(Clone, Debug, Default, PartialEq, Eq)]
pub struct Ring {
    /// Its number.
    pub number: u32,
    /// Its [`area`](crate::area()) as it was drawn: above 0 for a polygon of a contour and below for a hole. No call
    /// looks at that of a ring which is made by hand.
    pub area: i64,
    /// A closed list of points, the first repeated last.
    pub points: Vec<Point>,
}

/// A ring with the holes that belong to it.
#[derive(Clone, Debug, Default, PartialEq, Eq)]
pub struct Polygon {
    /// The ring about it.
    pub exterior: Ring,
    /// Its holes, by number.
    pub interiors: Vec<Ring>,
}

impl Polygon {
    /// The number of its exterior, which its holes have for owner.
    pub fn number(&self) -> u32 {
        self.exterior.number
    }

    /// The exterior, then the holes.
    pub fn rings(&self) -> impl Iterator<Item = &Ring> {
        std::iter::once(&self.exterior).chain(&self.interiors)
    }
}

/// The polygons of a contour or a band by number, and the holes that belong to none of them.
#[derive(Clone, Debug, Default, PartialEq, Eq)]
pub struct Regions {
    /// The polygons.
    pub polygons: Vec<Polygon>,
    /// The holes that belong to none.
    pub dropped: Vec<Ring>,
}

impl Rings<'_> {
    /// Each polygon with its holes, and the dropped holes, in vectors. Bare rings have no class and are left
    /// out.
    ///
    /// ```
    /// use nigrulent::{Tables, Terrain};
    /// # fn main() -> Result<(), nigrulent::Refusal> {
    /// let terrain = Terrain::new(&[1.0, 0.0, 1.0], 3, 1)?;
    /// let regions = Tables::new().contours(&terrain, 1.0)?.to_regions();
    /// assert_eq!(regions, terrain.contours(1.0)?);
    /// # Ok(())
    /// # }
    /// ```
    pub fn to_regions(&self) -> Regions {
        let mut regions = Regions::default();
        let mut places = vec![0; self.len()];
        for record in self.records().filter(|r| r.fate == Fate::Polygon) {
            places[record.number as usize] = regions.polygons.len();
            regions.polygons.push(Polygon {
                exterior: ring(record),
                interiors: Vec::new(),
            });
        }
        // A hole's record may stand before that of its polygon.
        for record in self.records() {
            let holes = match record.fate {
                Fate::Hole(owner) => &mut regions.polygons[places[owner as usize]].interiors,
                Fate::Dropped => &mut regions.dropped,
                Fate::Polygon | Fate::Line => continue,
            };
            holes.push(ring(record));
        }
        regions
    }

    /// Every ring with its number and area, whatever its class, in vectors.
    ///
    /// ```
    /// use nigrulent::{Tables, Terrain};
    /// # fn main() -> Result<(), nigrulent::Refusal> {
    /// let terrain = Terrain::new(&[1.0, 0.0, 1.0], 3, 1)?;
    /// let rings = Tables::new().rings(&terrain, 1.0)?.to_rings();
    /// assert_eq!((rings[1].number, rings[1].area), (1, 4));
    /// assert_eq!(rings[1].points, terrain.rings(1.0)?[1]);
    /// # Ok(())
    /// # }
    /// ```
    pub fn to_rings(&self) -> Vec<Ring> {
        self.records().map(ring).collect()
    }
}

fn ring(record: Record) -> Ring {
    Ring {
        number: record.number,
        area: record.area,
        points: record.points.to_vec(),
    }
}
