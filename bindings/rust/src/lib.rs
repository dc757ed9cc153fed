//! Rings of a terrain, their areas and containment, the polygons with holes that they make, these as GeoJSON,
//! and smoothed and placed lines, drawn by the proved library libcontour_c.a.
//!
//! A [`Terrain`] is its values and sides. Its own functions hand out plain vectors. [`Tables`] keeps what the
//! library is lent from call to call, and hands out rings as slices that it lends in turn, with the number, area,
//! class and owner of each; [`Rings::fate`] says why a ring of a contour has its class and owner. [`Rows`] takes a
//! terrain that comes row by row and is never held. A [`Level`] says which samples are above: those that are at least
//! a threshold, for which a number does, or those that are more.
//!
//! Coordinates are doubled whole numbers: sample (column, row) stands at (2·column + 1, 2·row + 1). Those of
//! lines are floats.
//!
//! ```
//! use nigrulent::Terrain;
//! # fn main() -> Result<(), nigrulent::Refusal> {
//! let values = [1.0, 1.0, 1.0, 1.0, 0.0, 1.0, 1.0, 1.0, 1.0];
//! let terrain = Terrain::new(&values, 3, 3)?;
//! let contour = terrain.contours(1.0)?;
//! let hole = &contour.polygons[0].interiors[0];
//! assert_eq!(hole.points, [[3, 4], [2, 3], [3, 2], [4, 3], [3, 4]]);
//! assert_eq!(hole.area, -4);
//! # Ok(())
//! # }
//! ```

#![warn(missing_docs)]

mod drawn;
// The wrapper asks no second report; compare and bench do.
#[allow(dead_code)]
mod ffi;
mod geojson;
mod level;
mod record;
mod refusal;
mod regions;
mod ring_set;
mod rows;
mod tables;
mod terrain;
mod why;

pub use drawn::{Drawn, Fate, Lines, Record, Rings};
pub use geojson::{check, geojson};
pub use level::{Level, Rule};
pub use refusal::Refusal;
pub use regions::{Polygon, Regions, Ring};
pub use rows::Rows;
pub use tables::Tables;
pub use terrain::{Placement, Terrain, SIDE_LIMIT};
pub use why::{Coordinate, Decision, RingFate};

/// The examples of README.md.
#[cfg(doctest)]
#[doc = include_str!("../README.md")]
struct Readme;

/// A point of a ring in doubled coordinates, x first.
pub type Point = [u16; 2];

/// A vertex of a line, x first.
pub type Vertex = [f64; 2];

/// Where a tested ring lies.
#[derive(Clone, Copy, Debug, PartialEq, Eq)]
pub enum Place {
    /// Inside the outer ring.
    Inside,
    /// On its boundary, with every point.
    Boundary,
    /// Outside of it.
    Outside,
}

/// The area of a ring: eight times the enclosed area in squares of one step from sample to sample, above 0
/// for a polygon of a contour and below for a hole. A [`Record`] and a [`Ring`] that was drawn have it already.
///
/// # Errors
///
/// [`Refusal::Ring`] for a ring that is empty, has more than 67,108,864 points or a coordinate above 8,192.
///
/// ```
/// use nigrulent::{area, Refusal};
/// assert_eq!(area(&[[2, 1], [1, 0], [0, 1], [1, 2], [2, 1]]), Ok(4));
/// assert_eq!(area(&[]), Err(Refusal::Ring));
/// ```
pub fn area(ring: &[Point]) -> Result<i64, Refusal> {
    let mut area = 0;
    // Safety: the library reads the words lent and writes one number.
    Refusal::of(unsafe { ffi::contour_area(ring.as_ptr().cast(), 2 * ring.len(), &mut area) })?;
    Ok(area)
}

/// A tested ring against an outer one: its first point that is not on the boundary decides. A point in the
/// row of a closed ring's first point counts as on its boundary. The tested ring may be empty.
///
/// # Errors
///
/// [`Refusal::Ring`] where the outer ring is empty, or either has more than 67,108,864 points or a coordinate
/// above 8,192.
///
/// ```
/// use nigrulent::{contains, Place, Terrain};
/// # fn main() -> Result<(), nigrulent::Refusal> {
/// let values = [1.0, 1.0, 1.0, 1.0, 0.0, 1.0, 1.0, 1.0, 1.0];
/// let rings = Terrain::new(&values, 3, 3)?.rings(1.0)?;
/// assert_eq!(contains(&rings[1], &rings[0])?, Place::Inside);
/// assert_eq!(contains(&rings[0], &rings[1])?, Place::Outside);
/// # Ok(())
/// # }
/// ```
pub fn contains(outer: &[Point], tested: &[Point]) -> Result<Place, Refusal> {
    let mut answer = 0;
    // Safety: the library reads the words lent and writes one number.
    Refusal::of(unsafe {
        ffi::contour_contains(
            outer.as_ptr().cast(),
            2 * outer.len(),
            tested.as_ptr().cast(),
            2 * tested.len(),
            &mut answer,
        )
    })?;
    Ok(match answer {
        1.. => Place::Inside,
        0 => Place::Boundary,
        _ => Place::Outside,
    })
}
