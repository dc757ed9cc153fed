//! Why a ring is a polygon, a hole or dropped, and where smoothing puts a vertex.

use crate::drawn::{Rings, NO_OWNER, POLYGON};
use crate::ring_set::read;
use crate::{Level, Refusal, Terrain};

/// The vertex word where none decides.
const NO_VERTEX: u32 = u32::MAX;

/// What smoothing does to a coordinate, in words of the library.
const STAYED: u32 = 0;
const MOVED: u32 = 1;

/// What a polygon answers for a ring, and which vertex of the ring decided it: the first that is not on the
/// polygon's boundary. A vertex in the row of the polygon's first point counts as on its boundary. Vertices are
/// counted from 0.
#[derive(Clone, Copy, Debug, PartialEq, Eq, Hash)]
pub enum Decision {
    /// The vertex of this number lies inside, and every one before it is on the boundary.
    Inside(u32),
    /// The vertex of this number lies outside, and every one before it is on the boundary.
    Outside(u32),
    /// Every vertex is on the boundary.
    Undecided,
}

/// What becomes of a ring of a contour, and why.
#[derive(Clone, Copy, Debug, PartialEq, Eq, Hash)]
pub enum RingFate {
    /// Its area is above 0.
    Polygon,
    /// Its area is not, and this polygon is the first, by number, that does not answer that the ring lies
    /// outside: every polygon of a lower number does.
    Hole {
        /// The number of the polygon.
        owner: u32,
        /// What the polygon answers for the ring.
        by: Decision,
    },
    /// Its area is not above 0, and it lies outside every polygon.
    Dropped,
}

/// What smoothing does to a coordinate of a vertex.
#[derive(Clone, Copy, Debug, PartialEq)]
pub enum Coordinate {
    /// It stays.
    Stayed,
    /// With this fraction, x becomes x + fraction - 0.5, from left to right, in the units of columns and rows.
    Moved(f64),
    /// The fraction is not a number, so the coordinate becomes none either.
    NotANumber,
}

/// All calls here read the rings of a contour or a band. Bare rings are refused with [`Refusal::RingSet`], those that
/// come row by row among them, so a number counts from 0 wherever it is looked at.
impl Rings<'_> {
    /// What becomes of the ring of this number, and why. It is worked out from the points alone: of a contour's
    /// rings it is what their records say, of a band's what a contour would make of them.
    ///
    /// To see why a hole went to its owner and to no polygon before it, ask for their [`answer`](Rings::answer).
    ///
    /// # Errors
    ///
    /// [`Refusal::RingSet`] where there are bare rings, else [`Refusal::NotThere`] where no ring has this number.
    ///
    /// ```
    /// use nigrulent::{Decision, Refusal, RingFate, Tables, Terrain};
    /// # fn main() -> Result<(), Refusal> {
    /// let values = [1.0, 1.0, 1.0, 1.0, 0.0, 1.0, 1.0, 1.0, 1.0];
    /// let terrain = Terrain::new(&values, 3, 3)?;
    /// let mut tables = Tables::new();
    /// let rings = tables.contours(&terrain, 1.0)?;
    /// assert_eq!(rings.fate(0)?, RingFate::Hole { owner: 1, by: Decision::Inside(0) });
    /// assert_eq!(rings.fate(1)?, RingFate::Polygon);
    /// assert_eq!(rings.fate(2), Err(Refusal::NotThere));
    /// assert_eq!(tables.rings(&terrain, 1.0)?.fate(0), Err(Refusal::RingSet));
    /// # Ok(())
    /// # }
    /// ```
    pub fn fate(&self, ring: u32) -> Result<RingFate, Refusal> {
        let (mut class, mut owner, mut vertex) = (0, 0, 0);
        read!(
            contour_ring_fate,
            self,
            ring,
            &mut class,
            &mut owner,
            &mut vertex,
        )?;
        let by = match vertex {
            NO_VERTEX => Decision::Undecided,
            vertex => Decision::Inside(vertex),
        };
        Ok(match (class, owner) {
            (POLYGON, _) => RingFate::Polygon,
            (_, NO_OWNER) => RingFate::Dropped,
            (_, owner) => RingFate::Hole { owner, by },
        })
    }

    /// What one ring, called the polygon whatever its class, answers for another: [`contains`](crate::contains),
    /// with the vertex that decided.
    ///
    /// # Errors
    ///
    /// [`Refusal::RingSet`] where there are bare rings, else [`Refusal::NotThere`] where no ring has one of these
    /// numbers.
    ///
    /// ```
    /// use nigrulent::{Decision, Tables, Terrain};
    /// # fn main() -> Result<(), nigrulent::Refusal> {
    /// let terrain = Terrain::new(&[1.0, 0.0, 1.0], 3, 1)?;
    /// let mut tables = Tables::new();
    /// let rings = tables.contours(&terrain, 1.0)?;
    /// // Vertex 0 is in the row of the first point of the other ring, so vertex 1 decides.
    /// assert_eq!(rings.answer(0, 1)?, Decision::Outside(1));
    /// assert_eq!(rings.answer(0, 0)?, Decision::Undecided);
    /// # Ok(())
    /// # }
    /// ```
    pub fn answer(&self, polygon: u32, ring: u32) -> Result<Decision, Refusal> {
        let (mut answer, mut vertex) = (0, 0);
        read!(
            contour_polygon_answer,
            self,
            polygon,
            ring,
            &mut answer,
            &mut vertex,
        )?;
        Ok(match answer {
            1.. => Decision::Inside(vertex),
            0 => Decision::Undecided,
            _ => Decision::Outside(vertex),
        })
    }

    /// What smoothing does to a vertex of a ring, x first. The rings of a contour are the
    /// [`lines`](Terrain::lines) of its terrain and level, number by number and vertex by vertex: before it is
    /// placed, the vertex of the smoothed line is what this says. The rule of the level changes no fraction.
    ///
    /// # Errors
    ///
    /// [`Refusal::RingSet`] where there are bare rings, else [`Refusal::NotThere`] where no ring has this number,
    /// where it has no vertex of this number, or where the vertex does not stand midway between two neighbouring
    /// samples of which at least one is in the terrain.
    ///
    /// ```
    /// use nigrulent::{Coordinate, Placement, Tables, Terrain};
    /// # fn main() -> Result<(), nigrulent::Refusal> {
    /// let terrain = Terrain::new(&[0.0, 4.0], 2, 1)?;
    /// let mut tables = Tables::new();
    /// let rings = tables.contours(&terrain, 1.0)?;
    /// let vertex = rings.smoothed_vertex(&terrain, 1.0, 0, 2)?;
    /// assert_eq!(vertex, [Coordinate::Moved(0.25), Coordinate::Stayed]);
    /// // It stood at (1, 0.5).
    /// let lines = terrain.lines(1.0, true, Placement::default())?;
    /// assert_eq!(lines[0][2], [1.0 + 0.25 - 0.5, 0.5]);
    /// # Ok(())
    /// # }
    /// ```
    pub fn smoothed_vertex(
        &self,
        terrain: &Terrain,
        level: impl Into<Level>,
        ring: u32,
        vertex: u32,
    ) -> Result<[Coordinate; 2], Refusal> {
        let Level { threshold, rule } = level.into();
        let (values, dx, dy) = (terrain.values(), terrain.dx(), terrain.dy());
        let (mut kinds, mut fractions) = ([STAYED; 2], [0.0; 2]);
        let ([x_kind, y_kind], [x_fraction, y_fraction]) = (&mut kinds, &mut fractions);
        read!(
            contour_smoothed_vertex[values.as_ptr(), values.len(), threshold, rule.number(), dx, dy],
            self,
            ring,
            vertex,
            x_kind,
            x_fraction,
            y_kind,
            y_fraction,
        )?;
        Ok([0, 1].map(|axis| match kinds[axis] {
            STAYED => Coordinate::Stayed,
            MOVED => Coordinate::Moved(fractions[axis]),
            _ => Coordinate::NotANumber,
        }))
    }
}

/// Sets made by hand have what no contour has: a hole in no polygon, one that lies on a polygon's boundary with
/// every vertex, and a vertex where no sample pair is.
#[cfg(test)]
mod tests {
    use super::*;
    use crate::drawn::HOLE;
    use crate::record::record;
    use crate::{area, Point};

    /// A square that runs as a polygon does, the same the other way round, its middle line there and back, and a
    /// hole beside it.
    const POLYGON_RING: [Point; 5] = [[8, 0], [0, 0], [0, 8], [8, 8], [8, 0]];
    const HOLE_RING: [Point; 5] = [[8, 8], [0, 8], [0, 0], [8, 0], [8, 8]];
    const LINE_RING: [Point; 5] = [[0, 4], [4, 4], [8, 4], [4, 4], [0, 4]];
    const FAR: [Point; 5] = [[10, 2], [12, 2], [12, 4], [10, 4], [10, 2]];

    /// A set of these rings of five points, whose records all say that they are dropped.
    fn with_set<T>(rings: &[[Point; 5]], call: impl FnOnce(Rings) -> T) -> T {
        let points: Vec<_> = rings.iter().flatten().copied().collect();
        let directory: Vec<_> = (0..)
            .zip(rings)
            .map(|(k, ring)| {
                let area = area(ring).expect("a ring of few points and small coordinates");
                record(5 * k, 5, HOLE, NO_OWNER, area)
            })
            .collect();
        call(Rings {
            points: &points,
            directory: &directory,
            first: 0,
        })
    }

    #[test]
    fn fates_go_by_the_points_alone() {
        let fates = |rings: &[[Point; 5]]| -> Result<Vec<_>, _> {
            with_set(rings, |set| {
                (0..rings.len() as u32).map(|k| set.fate(k)).collect()
            })
        };
        let undecided = RingFate::Hole {
            owner: 1,
            by: Decision::Undecided,
        };
        assert_eq!(
            fates(&[HOLE_RING, POLYGON_RING]),
            Ok(vec![undecided, RingFate::Polygon])
        );
        let inside = RingFate::Hole {
            owner: 0,
            by: Decision::Inside(1),
        };
        // The line begins on the square, and its second vertex lies inside.
        assert_eq!(
            fates(&[POLYGON_RING, LINE_RING]),
            Ok(vec![RingFate::Polygon, inside])
        );
        assert_eq!(
            fates(&[FAR, POLYGON_RING]),
            Ok(vec![RingFate::Dropped, RingFate::Polygon])
        );
        assert_eq!(fates(&[HOLE_RING]), Ok(vec![RingFate::Dropped]));
    }

    #[test]
    fn any_ring_answers_as_a_polygon() {
        with_set(&[HOLE_RING, LINE_RING, FAR], |set| {
            assert_eq!(set.answer(0, 0), Ok(Decision::Undecided));
            assert_eq!(set.answer(0, 1), Ok(Decision::Inside(1)));
            assert_eq!(set.answer(0, 2), Ok(Decision::Outside(0)));
            assert_eq!(set.answer(1, 0), Ok(Decision::Outside(0)));
            assert_eq!(set.answer(0, 3), Err(Refusal::NotThere));
            assert_eq!(set.answer(3, 0), Err(Refusal::NotThere));
        });
    }

    /// The samples of a 2 by 2 terrain stand at 1 and 3 in x and in y. A point midway between two of them, or between
    /// one of them and one outside, has one of these for one coordinate; the other is even and at most 4.
    #[test]
    fn vertices_stand_between_samples() {
        let terrain = Terrain::new(&[0.0, 4.0, 4.0, 0.0], 2, 2).expect("sides and count are right");
        for (x, y) in (0..8).flat_map(|x| (0..8).map(move |y| (x, y))) {
            let in_row = x % 2 == 0 && x <= 4 && y % 2 == 1 && y < 4;
            let in_column = y % 2 == 0 && y <= 4 && x % 2 == 1 && x < 4;
            let answer = with_set(&[[[x, y]; 5]], |set| {
                set.smoothed_vertex(&terrain, 1.0, 0, 4)
            });
            assert_eq!(answer.is_ok(), in_row || in_column, "({x}, {y})");
        }
    }
}
