//! A terrain as a whole, out of a text.

use crate::fields::{self, Fault};
use crate::reader::{Reader, Shape, Taker, Unread};
use nigrulent::{Placement, Refusal};

/// A terrain as the library takes it, and where it stands.
#[derive(Debug, Default, PartialEq)]
pub struct Terrain {
    pub values: Vec<f64>,
    pub dx: usize,
    pub dy: usize,
    /// Where its lines and polygons stand on a map; none are grid units.
    pub placement: Option<Placement>,
}

/// Whether all coordinates are numbers. Nothing drawn lies outside the grid, so its far corner decides.
pub fn check_placement(dx: usize, dy: usize, placement: Option<Placement>) -> Result<(), String> {
    let at = placement.unwrap_or_default();
    let x = dx as f64 * at.x_step + at.x_origin;
    let y = dy as f64 * at.y_step + at.y_origin;
    match x.is_finite() && y.is_finite() {
        true => Ok(()),
        false => Err("a coordinate is too large for its origin and step".to_owned()),
    }
}

/// The terrain that a text holds.
pub fn read(bytes: &[u8]) -> Result<Terrain, Unread> {
    let text = std::str::from_utf8(bytes)
        .map_err(|error| Unread::Foreign(not_text(bytes, error.valid_up_to())))?;
    let text = text.strip_prefix('\u{feff}').unwrap_or(text);
    let end = fields::lines(text).last().expect("a text has a line");
    let (mut reader, mut terrain) = (Reader::new(), Terrain::default());
    for line in fields::lines(text) {
        reader.line(line, &mut terrain)?;
    }
    reader.finish(end, &mut terrain)?;
    check_sides(terrain.dx, terrain.dy)?;
    Ok(terrain)
}

/// Keeps all rows.
impl Taker for Terrain {
    type Error = Unread;

    fn begin(&mut self, shape: Shape) -> Result<(), Unread> {
        (self.dx, self.placement) = (shape.dx, shape.placement);
        if let Some(dy) = shape.dy {
            check_sides(shape.dx, dy)?;
            self.values.reserve_exact(shape.dx * dy);
        }
        Ok(())
    }

    fn row(&mut self, values: &[f64]) -> Result<(), Unread> {
        self.values.extend_from_slice(values);
        self.dy += 1;
        Ok(())
    }
}

/// Bytes that are no UTF-8 from this one on.
fn not_text(bytes: &[u8], at: usize) -> Fault {
    let before = String::from_utf8_lossy(&bytes[..at]);
    let last = fields::lines(&before).last().expect("a text has a line");
    Fault {
        line: last.number,
        column: last.text.chars().count() + 1,
        what: "this is not text".to_owned(),
    }
}

/// Whether the library takes such sides, which it says before it looks at values.
pub fn check_sides(dx: usize, dy: usize) -> Result<(), Unread> {
    match nigrulent::Terrain::new(&[], dx, dy) {
        Err(Refusal::Side) => Err(Unread::Sides(dx, dy)),
        _ => Ok(()),
    }
}
