//! What the library draws of a slice of the heights: polygons with their holes, or lines. All calls of the
//! library that draw stand here.

use crate::levels::{is_above, Slice};
use crate::options::Figure;
use crate::terrain::Terrain;
use nigrulent::{Level, Placement, Point, Record, Refusal, Regions, Rings, Tables, Vertex};
use std::borrow::Cow;

/// A line's vertices, the first repeated last.
pub type Line = Vec<Vertex>;

/// The polygons about the samples of a slice, in doubled grid units.
pub fn polygons(terrain: &Terrain, slice: Slice, figure: Figure) -> Result<Regions, Refusal> {
    match (slice, figure) {
        (Slice::Between(low, high), Figure::Isobands) => {
            let pair = [low.threshold, high.threshold];
            of_values(terrain, &terrain.values)?.isobands(&pair, low.rule, 0)
        }
        _ => {
            let (values, level) = sheet(&terrain.values, slice);
            of_values(terrain, &values)?.contours(level)
        }
    }
}

/// The rings about the samples of a slice, with class and owner, in tables.
pub fn contour<'t>(
    tables: &'t mut Tables,
    terrain: &Terrain,
    slice: Slice,
) -> Result<Rings<'t>, Refusal> {
    let (values, level) = sheet(&terrain.values, slice);
    tables.contours(&of_values(terrain, &values)?, level)
}

/// The polygons as GeoJSON in grid units, in the library's own words.
pub fn polygons_text(terrain: &Terrain, slice: Slice, figure: Figure) -> Result<String, Refusal> {
    match (slice, figure) {
        (Slice::Between(low, high), Figure::Isobands) => {
            let pair = [low.threshold, high.threshold];
            of_values(terrain, &terrain.values)?.isobands_geojson(&pair, low.rule, 0)
        }
        _ => {
            let (values, level) = sheet(&terrain.values, slice);
            of_values(terrain, &values)?.contours_geojson(level)
        }
    }
}

/// The polygons about the samples that are not numbers.
pub fn no_data(terrain: &Terrain) -> Result<Regions, Refusal> {
    let none = indicator(&terrain.values, f64::is_nan);
    of_values(terrain, &none)?.contours(1.0)
}

/// A terrain of the library with the sides of this one.
fn of_values<'a>(terrain: &Terrain, values: &'a [f64]) -> Result<nigrulent::Terrain<'a>, Refusal> {
    nigrulent::Terrain::new(values, terrain.dx, terrain.dy)
}

/// Values and a level that they are above exactly in the slice. Between two levels these are 1 inside and 0
/// outside, so that a band is drawn as a contour is: no two of its rings share an edge.
pub fn sheet(values: &[f64], slice: Slice) -> (Cow<'_, [f64]>, Level) {
    match slice {
        Slice::Above(level) => (Cow::Borrowed(values), level),
        Slice::Between(low, high) => {
            let inside = |value| is_above(value, low) && !is_above(value, high);
            (Cow::Owned(indicator(values, inside)), Level::at_least(1.0))
        }
    }
}

fn indicator(values: &[f64], inside: impl Fn(f64) -> bool) -> Vec<f64> {
    let inside = values.iter().map(|value| inside(*value));
    inside.map(|inside| f64::from(u8::from(inside))).collect()
}

/// A point of a ring in the units of columns and rows.
pub fn half(point: Point) -> Vertex {
    point.map(|at| f64::from(at) / 2.0)
}

/// What a ring encloses, in squares of one step from sample to sample; of a hole it is below 0.
pub fn ring_area(ring: &Record) -> f64 {
    in_squares(ring.area)
}

/// What polygons enclose, holes left out, in squares of one step from sample to sample.
pub fn area(regions: &Regions) -> f64 {
    let enclosed = regions.polygons.iter().map(|polygon| {
        let holes = polygon.interiors.iter().map(|ring| ring.area.abs());
        polygon.exterior.area.abs() - holes.sum::<i64>()
    });
    in_squares(enclosed.sum())
}

/// The library's areas are in eighths of such a square. A float holds any that there are.
fn in_squares(eighths: i64) -> f64 {
    eighths as f64 / 8.0
}

/// The lines at the heights of a slice, those at the lower one first. Smoothing gives no number beside a sample
/// that is none, as where there are no data; such a coordinate stays midway.
pub fn lines(
    terrain: &Terrain,
    slice: Slice,
    smooth: bool,
    placement: Placement,
) -> Result<Vec<Line>, Refusal> {
    let levels = match slice {
        Slice::Above(level) => vec![level],
        Slice::Between(low, high) => vec![low, high],
    };
    let drawn = |smooth: bool| -> Result<Vec<Line>, Refusal> {
        let mut lines = Vec::new();
        for level in &levels {
            lines.extend(of_values(terrain, &terrain.values)?.lines(*level, smooth, placement)?);
        }
        Ok(lines)
    };
    let mut lines = drawn(smooth)?;
    if lines.iter().flatten().flatten().any(|at| !at.is_finite()) {
        let midway = drawn(false)?;
        let midway = midway.iter().flatten().flatten();
        let moved = lines.iter_mut().flatten().flatten().zip(midway);
        moved
            .filter(|(at, _)| !at.is_finite())
            .for_each(|(at, stays)| *at = *stays);
    }
    Ok(lines)
}
