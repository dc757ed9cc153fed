//! Ring sets, as the writer and the calls that explain read them: points, a directory and the number of rings stated.
//! What document 01 says of one is written down here from its records: number 9, and which polygons they make. Their
//! text is written by two writers, `word_text` and `geojson`, and the latter also writes that of the crate's own
//! polygons. Which rings are written backwards is found in two ways too: by document 02's rule for `word_text`, by RFC
//! 7946 for `geojson`.

use crate::declared::RECORD_WORDS;
use crate::directory::{record, HOLE, NOBODY, POLYGON};
use crate::drawing::Drawing;
use crate::exact::{LARGEST, MOST_POINTS};
use crate::geojson;
use crate::oracle::{halved, signed_area};
use crate::points::Points;
use crate::records::{area, fate, place, records, records_mut, set_area, CLASS, COUNT};
use crate::word_text;
use crate::Pt;
use geo_types::LineString;
use std::iter::once;

/// The refusals of the writer.
pub const FAULTY: u32 = 9;
pub const SHORT: u32 = 10;

const FEWEST_POINTS: u32 = 4;

#[derive(Clone, Default)]
pub struct RingSet {
    /// The words that stand in memory.
    pub points: Vec<u16>,
    pub directory: Vec<u32>,
    /// How many of the last words of each are not lent.
    pub withheld: [usize; 2],
    /// The number of rings stated.
    pub rings: u32,
}

impl RingSet {
    /// The tables of a contour or band.
    pub fn of(drawing: &Drawing) -> Self {
        let points = match &drawing.points {
            Points::Words(words) => words.clone(),
            Points::Patterns(_) => unreachable!("lines are no ring set"),
        };
        RingSet {
            points,
            directory: drawing.directory.clone(),
            rings: drawing.rings() as u32,
            ..RingSet::default()
        }
    }

    /// One more ring.
    pub fn push(&mut self, ring: &[u16], class: u32, owner: u32) {
        let first = self.points.len() / 2;
        self.points.extend(ring);
        self.directory
            .extend(record(first, &halved(ring), [class, owner]));
        self.rings += 1;
    }

    /// Gives each stated record the area of its points, if these stand in memory, whatever else its ring may be.
    pub fn right_areas(&mut self) {
        for record in records_mut(&mut self.directory).take(self.rings as usize) {
            let ring = self.points.get(place(record)).unwrap_or(&[]);
            if !ring.is_empty() {
                set_area(record, signed_area(&halved(ring)));
            }
        }
    }

    pub fn lent_points(&self) -> &[u16] {
        &self.points[..self.points.len() - self.withheld[0]]
    }

    pub fn lent_directory(&self) -> &[u32] {
        &self.directory[..self.directory.len() - self.withheld[1]]
    }

    /// The stated records, as far as the directory has them.
    fn records(&self) -> Vec<&[u32]> {
        let records = records(self.lent_directory());
        records.take(self.rings as usize).collect()
    }

    /// Whether number 9 is due: a directory shorter than the stated rings, or a faulty record.
    pub fn is_faulty(&self) -> bool {
        let records = self.records();
        let mut numbered = (0..).zip(records.iter().copied());
        self.lent_directory().len() < RECORD_WORDS * self.rings as usize
            || numbered.any(|(number, record)| self.is_faulty_record(&records, number, record))
    }

    fn is_faulty_record(&self, records: &[&[u32]], number: u32, record: &[u32]) -> bool {
        let (count, [class, owner]) = (record[COUNT], fate(record));
        let ring = match self.ring(record) {
            None => return true,
            Some(ring) => ring,
        };
        let is_polygon = |number: u32| match records.get(number as usize) {
            Some(record) => record[CLASS] == POLYGON,
            None => false,
        };
        count < FEWEST_POINTS
            || count as usize > MOST_POINTS
            || ring.iter().any(|&coordinate| coordinate > LARGEST)
            || ring[ring.len() - 2..] != ring[..2]
            || match class {
                POLYGON => owner != number,
                HOLE => owner != NOBODY && !is_polygon(owner),
                _ => true,
            }
            || area(record) != signed_area(&halved(ring))
    }

    /// The words of a record's points, unless its range is outside the points.
    fn ring(&self, record: &[u32]) -> Option<&[u16]> {
        self.lent_points().get(place(record))
    }

    /// The point of a stated ring's vertex, if the set, which is without fault, has both.
    #[cfg(feature = "why")]
    pub fn vertex(&self, ring: u32, vertex: u32) -> Option<[u16; 2]> {
        let record = records(self.lent_directory()).nth(ring as usize);
        let record = record.filter(|record| ring < self.rings && vertex < record[COUNT])?;
        let word = place(record).start + 2 * vertex as usize;
        Some([self.points[word], self.points[word + 1]])
    }

    /// The words of each stated ring of a set without fault.
    #[cfg(feature = "why")]
    pub fn stated(&self) -> Vec<&[u16]> {
        let records = self.records();
        records.iter().filter_map(|r| self.ring(r)).collect()
    }

    /// The polygons of a set without fault, by record number, each its own record and then those of its holes by
    /// number.
    fn polygons(&self) -> Option<Vec<Vec<&[u32]>>> {
        if self.is_faulty() {
            return None;
        }
        let records = self.records();
        let numbered = (0..).zip(&records);
        let polygons = numbered.filter(|(_, record)| record[CLASS] == POLYGON);
        let with_holes = polygons.map(|(number, &polygon)| {
            let holes = records.iter().filter(|r| fate(r) == [HOLE, number]);
            once(polygon).chain(holes.copied()).collect()
        });
        Some(with_holes.collect())
    }

    /// Class and area of each ring that stands in the text of a set without fault.
    pub fn in_text(&self) -> Vec<(u32, i64)> {
        let records = self.records().into_iter();
        let drawn = records.filter(|record| fate(record) != [HOLE, NOBODY]);
        drawn.map(|record| (record[CLASS], area(record))).collect()
    }

    /// The text of a set without fault, from its words; from floats it has to be the same.
    pub fn text(&self) -> Option<Vec<u8>> {
        let polygons = self.polygons()?;
        let words = polygons.iter().map(|records| {
            let rings = records.iter();
            rings.map(|record| self.written(record)).collect()
        });
        let text = word_text::text(&words.collect::<Vec<_>>());
        let floats = polygons.iter().map(|records| {
            let rings = records.iter().filter_map(|record| self.ring(record));
            right_handed(rings.map(halved))
        });
        assert!(
            geojson::text(floats) == text,
            "the text from floats is not that from words"
        );
        Some(text)
    }

    /// The words of a record's points in the order in which document 02 has them written: backwards from the first
    /// point, which is also the last, for a polygon of positive area and for a hole of negative area.
    fn written(&self, record: &[u32]) -> Vec<u16> {
        let ring = self.ring(record).expect("a record without fault");
        let area = signed_area(&halved(ring));
        let backwards = match record[CLASS] {
            POLYGON => area > 0,
            _ => area < 0,
        };
        match backwards {
            true => ring.rchunks_exact(2).flatten().copied().collect(),
            false => ring.to_vec(),
        }
    }
}

/// The text of a contour or band, from the crate's polygons; from the records of the directory it has to be the same.
pub fn drawn_text(drawing: &Drawing) -> Vec<u8> {
    let text = crate_text(drawing);
    assert!(
        RingSet::of(drawing).text().as_ref() == Some(&text),
        "the text of the records is not that of the crate's polygons"
    );
    text
}

/// The crate's polygons as text.
fn crate_text(drawing: &Drawing) -> Vec<u8> {
    geojson::text(drawing.polygons.iter().map(|polygon| {
        let rings = once(polygon.exterior()).chain(polygon.interiors());
        right_handed(rings.map(|LineString(points)| points.clone()))
    }))
}

/// The rings of a polygon, the exterior first, by the right-hand rule of RFC 7946, section 3.1.6: the exterior
/// counterclockwise, the others clockwise. A ring that runs the other way is given in reverse, and one that runs no way
/// is left.
fn right_handed(
    rings: impl Iterator<Item = Vec<Pt>>,
) -> impl Iterator<Item = impl Iterator<Item = [f64; 2]>> {
    rings.enumerate().map(|(number, mut ring)| {
        let counterclockwise = turning(&ring);
        let wrong = match number {
            0 => counterclockwise < 0.0,
            _ => counterclockwise > 0.0,
        };
        if wrong {
            ring.reverse();
        }
        ring.into_iter().map(|p| [p.x, p.y])
    })
}

/// Above 0 for a ring that runs counterclockwise, x to the right and y upward; below 0 for one that runs clockwise.
fn turning(ring: &[Pt]) -> f64 {
    let sides = ring.windows(2);
    sides
        .map(|side| side[0].x * side[1].y - side[1].x * side[0].y)
        .sum()
}
