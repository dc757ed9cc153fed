//! Rings as the paths of a picture, in hundredths of a pixel, by steps from point to point.

use crate::layout::Layout;
use crate::shapes::{half, Line};
use nigrulent::{Polygon, Regions, Vertex};
use std::io::{self, Write};

/// What a hundredth of a pixel is, where paths are drawn.
pub const UNIT: f64 = 0.01;

/// All rings of some polygons in half steps, as steps.
pub fn rings(regions: &Regions) -> impl Iterator<Item = Line> + '_ {
    let rings = regions.polygons.iter().flat_map(Polygon::rings);
    rings.map(|ring| ring.points.iter().copied().map(half).collect())
}

/// Writes rings as the steps of one path.
pub fn write(
    out: &mut dyn Write,
    layout: &Layout,
    rings: impl Iterator<Item = Line>,
) -> io::Result<()> {
    for ring in rings {
        write_ring(out, layout, &ring)?;
    }
    Ok(())
}

/// A ring, whose last point is the first, to which z goes back. Steps are taken between points of the picture, so
/// that what is rounded off does not add up.
fn write_ring(out: &mut dyn Write, layout: &Layout, ring: &[Vertex]) -> io::Result<()> {
    let mut corners = corners(ring).map(|[x, y]| {
        let x = (layout.left + x * layout.column) / UNIT;
        let y = (layout.top + y * layout.row) / UNIT;
        (x.round() as i64, y.round() as i64)
    });
    let mut last = match corners.next() {
        Some(first) => first,
        None => return Ok(()),
    };
    write!(out, "M{}", numbers(last))?;
    let mut letter = "l";
    for corner in corners {
        if corner != last {
            write!(
                out,
                "{letter}{}",
                numbers((corner.0 - last.0, corner.1 - last.1))
            )?;
            // A step that begins with a minus needs no letter and no blank.
            letter = "";
            last = corner;
        }
    }
    out.write_all(b"z")
}

/// The points of a ring at which it does not go straight on, without the closing one.
fn corners(ring: &[Vertex]) -> impl Iterator<Item = Vertex> + '_ {
    let count = ring.len() - 1;
    let turns = (0..count).filter(move |&k| {
        let (before, at, behind) = (ring[(k + count - 1) % count], ring[k], ring[k + 1]);
        let one = [at[0] - before[0], at[1] - before[1]];
        let other = [behind[0] - at[0], behind[1] - at[1]];
        let straight = one[0] * other[1] == one[1] * other[0];
        !(straight && one[0] * other[0] + one[1] * other[1] > 0.0)
    });
    turns.map(|k| ring[k])
}

/// Two numbers of a path, with a blank before one that has no minus.
fn numbers((x, y): (i64, i64)) -> String {
    let blank = |number: i64| if number < 0 { "" } else { " " };
    format!("{}{x}{}{y}", blank(x), blank(y))
}
