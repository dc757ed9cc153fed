//! Figures as GeoJSON, written as they are drawn: no text is held but that of one figure in grid units, which
//! the library writes. Polygons run as RFC 7946 asks: exteriors counterclockwise, holes clockwise, y taken upward.

use crate::failure::Failure;
use crate::levels::Slice;
use crate::options::{Figure, Options};
use crate::shapes::{self, Line};
use crate::terrain::Terrain;
use nigrulent::{Placement, Point, Record, Refusal, Regions, Ring, Rule, Vertex};
use std::io::{self, Write};

/// Writes one figure as a bare geometry, or all of them as a collection, a feature a line.
pub fn write(
    out: &mut dyn Write,
    terrain: &Terrain,
    slices: &[Slice],
    options: &Options,
) -> Result<(), Failure> {
    let writer = Writer {
        terrain,
        figure: options.figure,
    };
    if !options.wanted.collected {
        slices
            .iter()
            .try_for_each(|slice| writer.geometry(out, *slice))?;
        return Ok(out.write_all(b"\n")?);
    }
    out.write_all(b"{\"type\":\"FeatureCollection\",\"features\":[")?;
    for (k, slice) in slices.iter().enumerate() {
        out.write_all(if k == 0 { b"\n" } else { b",\n" })?;
        writer.feature(out, *slice)?;
    }
    Ok(out.write_all(b"\n]}\n")?)
}

/// As the library places lines.
fn placed(placement: Placement, [x, y]: Vertex) -> Vertex {
    let Placement {
        x_origin,
        y_origin,
        x_step,
        y_step,
    } = placement;
    [x * x_step + x_origin, y * y_step + y_origin]
}

/// What all figures of a run have in common.
struct Writer<'a> {
    terrain: &'a Terrain,
    figure: Figure,
}

impl Writer<'_> {
    fn geometry(&self, out: &mut dyn Write, slice: Slice) -> Result<(), Failure> {
        match (self.figure, self.terrain.placement) {
            (Figure::Lines { smooth }, _) => write_lines(out, &self.lines(slice, smooth)?)?,
            (_, None) => {
                let text = shapes::polygons_text(self.terrain, slice, self.figure)?;
                out.write_all(text.as_bytes())?;
            }
            (_, Some(at)) => {
                let regions = shapes::polygons(self.terrain, slice, self.figure)?;
                write_polygons(out, &regions, at)?;
            }
        }
        Ok(())
    }

    /// A figure with its heights, and what there is of it.
    fn feature(&self, out: &mut dyn Write, slice: Slice) -> Result<(), Failure> {
        write_heights(out, slice)?;
        if let Figure::Lines { smooth } = self.figure {
            let lines = self.lines(slice, smooth)?;
            write!(out, ",\"lines\":{}}},\"geometry\":", lines.len())?;
            write_lines(out, &lines)?;
        } else {
            let regions = shapes::polygons(self.terrain, slice, self.figure)?;
            let at = self.terrain.placement.unwrap_or_default();
            let area = number(shapes::area(&regions) * (at.x_step * at.y_step).abs());
            let polygons = regions.polygons.len();
            write!(
                out,
                ",\"area\":{area},\"polygons\":{polygons}}},\"geometry\":"
            )?;
            write_polygons(out, &regions, at)?;
        }
        Ok(out.write_all(b"}")?)
    }

    fn lines(&self, slice: Slice, smooth: bool) -> Result<Vec<Line>, Refusal> {
        shapes::lines(
            self.terrain,
            slice,
            smooth,
            self.terrain.placement.unwrap_or_default(),
        )
    }
}

/// Writes one bare ring as a feature of its own and ends the line: a closed line, with its number, and its area, below
/// 0 for a hole.
pub fn write_ring_feature(
    out: &mut dyn Write,
    ring: &Record,
    slice: Slice,
    placement: Option<Placement>,
) -> Result<(), Failure> {
    write_heights(out, slice)?;
    let Placement { x_step, y_step, .. } = placement.unwrap_or_default();
    let area = number(shapes::ring_area(ring) * (x_step * y_step).abs());
    write!(
        out,
        ",\"ring\":{},\"area\":{area}}},\"geometry\":",
        ring.number
    )?;
    out.write_all(b"{\"type\":\"LineString\",\"coordinates\":")?;
    match placement {
        None => write_points(out, halves(ring.points))?,
        Some(at) => write_points(out, halves(ring.points).map(|point| placed(at, point)))?,
    }
    Ok(out.write_all(b"}}\n")?)
}

/// The beginning of a feature, with the heights that it is drawn at, and their rule where it is not the usual one.
fn write_heights(out: &mut dyn Write, slice: Slice) -> io::Result<()> {
    out.write_all(b"{\"type\":\"Feature\",\"properties\":{")?;
    match slice {
        Slice::Above(level) => write!(out, "\"value\":{}", number(level.threshold))?,
        Slice::Between(low, high) => {
            let [low, high] = [low, high].map(|level| number(level.threshold));
            write!(out, "\"low\":{low},\"high\":{high}")?;
        }
    }
    match slice.rule() {
        Rule::AtLeast => Ok(()),
        Rule::MoreThan => out.write_all(b",\"rule\":\">\""),
    }
}

/// The points of a ring in the units of columns and rows.
fn halves(ring: &[Point]) -> impl DoubleEndedIterator<Item = Vertex> + '_ {
    ring.iter().copied().map(shapes::half)
}

/// A number of JSON, which has none that is infinite: a band without a bound has null there.
fn number(number: f64) -> String {
    match number.is_finite() {
        true => number.to_string(),
        false => "null".to_owned(),
    }
}

fn write_lines(out: &mut dyn Write, lines: &[Line]) -> io::Result<()> {
    out.write_all(b"{\"type\":\"MultiLineString\",\"coordinates\":[")?;
    for (k, line) in lines.iter().enumerate() {
        write_comma(out, k)?;
        write_points(out, line.iter().copied())?;
    }
    out.write_all(b"]}")
}

/// Each polygon's ring, and behind it those of its holes.
fn write_polygons(out: &mut dyn Write, regions: &Regions, at: Placement) -> io::Result<()> {
    out.write_all(b"{\"type\":\"MultiPolygon\",\"coordinates\":[")?;
    for (k, polygon) in regions.polygons.iter().enumerate() {
        write_comma(out, k)?;
        out.write_all(b"[")?;
        write_ring(out, &polygon.exterior, at, true)?;
        for interior in &polygon.interiors {
            out.write_all(b",")?;
            write_ring(out, interior, at, false)?;
        }
        out.write_all(b"]")?;
    }
    out.write_all(b"]}")
}

/// A ring, from its first point on, so that it runs as it should; one that encloses nothing as it stands.
fn write_ring(
    out: &mut dyn Write,
    ring: &Ring,
    at: Placement,
    counterclockwise: bool,
) -> io::Result<()> {
    let points = halves(&ring.points).map(|point| placed(at, point));
    // A ring of area above 0 runs clockwise where y grows upward, and a map that is turned over turns it over.
    let turned = (at.x_step < 0.0) != (at.y_step < 0.0);
    let area = if turned { -ring.area } else { ring.area };
    let backwards = match counterclockwise {
        true => area > 0,
        false => area < 0,
    };
    match backwards {
        true => write_points(out, points.rev()),
        false => write_points(out, points),
    }
}

fn write_points(out: &mut dyn Write, points: impl Iterator<Item = Vertex>) -> io::Result<()> {
    out.write_all(b"[")?;
    for (k, [x, y]) in points.enumerate() {
        write_comma(out, k)?;
        write!(out, "[{x},{y}]")?;
    }
    out.write_all(b"]")
}

/// The comma before all members but the first.
fn write_comma(out: &mut dyn Write, k: usize) -> io::Result<()> {
    out.write_all(if k == 0 { b"" } else { b"," })
}
