//! How many polygons, holes and vertices, or how many lines, the library draws.

use crate::failure::Failure;
use crate::levels::Slice;
use crate::options::{Figure, Options};
use crate::shapes;
use crate::terrain::Terrain;
use nigrulent::Placement;
use std::io::Write;

/// Writes a line for each count; of several slices, each is headed by its heights.
pub fn write(
    out: &mut dyn Write,
    terrain: &Terrain,
    slices: &[Slice],
    options: &Options,
) -> Result<(), Failure> {
    for slice in slices {
        match slice {
            _ if !options.wanted.collected => (),
            Slice::Above(level) => writeln!(out, "value {}", level.threshold)?,
            Slice::Between(low, high) => {
                writeln!(out, "low {}\nhigh {}", low.threshold, high.threshold)?
            }
        }
        match options.figure {
            Figure::Lines { smooth } => {
                let lines = shapes::lines(terrain, *slice, smooth, Placement::default())?;
                let vertices: usize = lines.iter().map(Vec::len).sum();
                writeln!(out, "lines {}\nvertices {vertices}", lines.len())?;
            }
            figure => write_polygons(out, terrain, *slice, figure)?,
        }
    }
    Ok(())
}

/// Polygons, their holes, the holes that belong to none, and the vertices of the first two, closing ones too.
fn write_polygons(
    out: &mut dyn Write,
    terrain: &Terrain,
    slice: Slice,
    figure: Figure,
) -> Result<(), Failure> {
    let regions = shapes::polygons(terrain, slice, figure)?;
    let (mut holes, mut vertices) = (0, 0);
    for polygon in &regions.polygons {
        holes += polygon.interiors.len();
        vertices += polygon.rings().map(|ring| ring.points.len()).sum::<usize>();
    }
    let [polygons, dropped] = [regions.polygons.len(), regions.dropped.len()];
    writeln!(
        out,
        "polygons {polygons}\nholes {holes}\ndropped {dropped}\nvertices {vertices}"
    )?;
    Ok(())
}
