//! The crate's builds of the same.

use crate::ours::Drawn;
use crate::records::{CLASS, OWNER};
use crate::terrains::{Figure, Terrain, ORIGIN, STEP};
use contour::ContourBuilder;

/// What the crate gives: rings, polygons with their interiors, or lines.
pub enum Built {
    Rings(Vec<contour::Ring>),
    Contour(contour::Contour),
    Band(contour::Band),
    Lines(contour::Line),
}

pub fn draw(terrain: &Terrain, figure: Figure) -> Built {
    let Terrain { dx, dy, ref values } = *terrain;
    let builder = ContourBuilder::new(dx, dy, false);
    let built = match figure {
        Figure::Rings(threshold) => {
            contour::contour_rings(values, threshold, dx, dy).map(Built::Rings)
        }
        Figure::Contours(threshold) => builder
            .contours(values, &[threshold])
            .map(|mut all| Built::Contour(all.remove(0))),
        Figure::Band(pair) => builder
            .isobands(values, &pair)
            .map(|mut all| Built::Band(all.remove(0))),
        Figure::Lines(threshold) => ContourBuilder::new(dx, dy, true)
            .x_origin(ORIGIN[0])
            .y_origin(ORIGIN[1])
            .x_step(STEP[0])
            .y_step(STEP[1])
            .lines(values, &[threshold])
            .map(|mut all| Built::Lines(all.remove(0))),
    };
    built.expect("the crate draws every grid with all its values")
}

/// A ring's points as words, x first; of a line the bit patterns.
type Words = Vec<u64>;

impl Built {
    /// Each ring or line alone, or each polygon's exterior and interiors, in the order of our records.
    pub fn groups(&self) -> Vec<Vec<Words>> {
        let polygons = match self {
            Built::Rings(rings) => return rings.iter().map(|ring| vec![doubled(ring)]).collect(),
            Built::Lines(lines) => {
                let lines = lines.geometry().iter();
                return lines.map(|line| vec![patterns(&line.0)]).collect();
            }
            Built::Contour(contour) => contour.geometry(),
            Built::Band(band) => band.geometry(),
        };
        let rings = polygons.iter().map(|polygon| {
            let rings = std::iter::once(polygon.exterior()).chain(polygon.interiors());
            rings.map(|ring| doubled(&ring.0)).collect()
        });
        let mut groups: Vec<_> = rings.collect();
        if let Built::Band(_) = self {
            groups.reverse();
        }
        groups
    }
}

fn doubled(ring: &[contour::Pt]) -> Words {
    let words = ring.iter().flat_map(|p| [p.x, p.y]);
    words.map(|half| (2.0 * half) as u64).collect()
}

fn patterns(line: &[contour::Pt]) -> Words {
    line.iter()
        .flat_map(|p| [p.x.to_bits(), p.y.to_bits()])
        .collect()
}

/// The same groups of our own build: bare rings and polygons by record number, and behind a polygon the holes
/// that it owns.
pub fn groups_of(drawn: &Drawn) -> Vec<Vec<Words>> {
    let records: Vec<&[u32]> = drawn.records().collect();
    let mut groups = vec![Vec::new(); records.len()];
    let is_hole = |record: &[u32]| record[CLASS] == 1;
    for (number, record) in records.iter().enumerate().filter(|(_, r)| !is_hole(r)) {
        groups[number].push(drawn.ring(record));
    }
    for record in records.iter().filter(|r| is_hole(r)) {
        if let Some(group) = groups.get_mut(record[OWNER] as usize) {
            group.push(drawn.ring(record));
        }
    }
    groups.retain(|group| !group.is_empty());
    groups
}
