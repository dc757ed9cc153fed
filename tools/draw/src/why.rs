//! What became of the rings of a contour: of one of them in a sentence that says why, of all of them in a table.
//! Everything is in grid units.

use crate::failure::Failure;
use crate::levels::Slice;
use crate::shapes;
use crate::terrain::Terrain;
use nigrulent::{Decision, Fate, Point, Record, Refusal, RingFate, Rings, Tables};
use std::collections::BTreeMap;
use std::fmt::Display;
use std::io::Write;

/// So many polygons that do not hold a ring are asked, and named. Each takes a call that looks at the whole contour,
/// and a contour of noise has tens of thousands.
const NAMED: usize = 20;

/// A column of numbers is so wide, or wider.
const LEAST_WIDTH: usize = 6;

/// Writes the sentence on a ring, or the table of all.
pub fn write(
    out: &mut dyn Write,
    terrain: &Terrain,
    slices: &[Slice],
    ring: Option<u64>,
) -> Result<(), Failure> {
    let mut tables = Tables::new();
    for slice in slices {
        let rings = shapes::contour(&mut tables, terrain, *slice)?;
        match ring {
            Some(number) => writeln!(out, "{}", explain(&rings, number)?)?,
            None => write_table(out, &rings)?,
        }
    }
    Ok(())
}

/// A line for each ring, in columns: its number, its class, its owner, its number of points and its area.
fn write_table(out: &mut dyn Write, rings: &Rings) -> Result<(), Failure> {
    let points = rings.iter().map(<[Point]>::len).max().unwrap_or(0);
    // No number of a ring has more digits than how many there are.
    let [number, points] = [rings.len(), points].map(|most| width(&most));
    let areas = rings.records().map(|ring| width(&shapes::ring_area(&ring)));
    let area = areas.max().unwrap_or(LEAST_WIDTH);
    let mut line = |[ring, class, owner, count, size]: [&dyn Display; 5]| {
        writeln!(
            out,
            "{ring:>number$}  {class:<7}  {owner:>number$}  {count:>points$}  {size:>area$}"
        )
    };
    line([&"ring", &"class", &"owner", &"points", &"area"])?;
    for record in rings.records() {
        let class = match record.fate {
            Fate::Polygon => "polygon",
            Fate::Dropped => "dropped",
            Fate::Hole(_) | Fate::Line => "hole",
        };
        let owner = record.owner().map(|owner| owner.to_string());
        let owner = owner.as_deref().unwrap_or("-");
        let (count, size) = (record.points.len(), shapes::ring_area(&record));
        line([&record.number, &class, &owner, &count, &size])?;
    }
    Ok(())
}

/// How wide a column has to be for this.
fn width(shown: &dyn Display) -> usize {
    shown.to_string().len().max(LEAST_WIDTH)
}

/// The sentence on the ring of a number, if there is such a ring.
fn explain(rings: &Rings, number: u64) -> Result<String, Failure> {
    let ring = u32::try_from(number)
        .ok()
        .and_then(|number| rings.record(number));
    let ring = ring.ok_or_else(|| no_ring(number, rings.len()))?;
    let fate = rings.fate(ring.number)?;
    let others = match fate {
        RingFate::Polygon => Others::default(),
        RingFate::Hole { owner, .. } => Others::below(owner, rings, ring.number)?,
        RingFate::Dropped => Others::below(u32::MAX, rings, ring.number)?,
    };
    Ok(sentence(&ring, fate, &others))
}

fn no_ring(number: u64, count: usize) -> String {
    match count {
        0 => format!("there is no ring {number}: the contour has none"),
        1 => format!("there is no ring {number}: the contour has ring 0 alone"),
        _ => format!(
            "there is no ring {number}: the contour has the rings 0 to {}",
            count - 1
        ),
    }
}

/// The polygons that a ring lies outside of: those below its owner, or all of them where it has none.
#[derive(Default)]
struct Others {
    /// Those that were asked, by the number of the ring's vertex that lies outside.
    asked: BTreeMap<u32, Vec<u32>>,
    /// How many more there are.
    more: usize,
}

impl Others {
    /// The polygons below this number. That the ring lies outside of all of them is why the owner has it, so beyond
    /// those that are named they are only counted.
    fn below(owner: u32, rings: &Rings, ring: u32) -> Result<Self, Refusal> {
        let polygons = rings
            .records()
            .filter(|record| record.fate == Fate::Polygon);
        let mut lower = polygons
            .map(|polygon| polygon.number)
            .take_while(|&number| number < owner);
        let mut asked: BTreeMap<_, Vec<_>> = BTreeMap::new();
        for polygon in lower.by_ref().take(NAMED) {
            match rings.answer(polygon, ring)? {
                Decision::Outside(vertex) => asked.entry(vertex).or_default().push(polygon),
                _ => unreachable!("the owner is the first polygon that answers otherwise"),
            }
        }
        let more = lower.count();
        Ok(Others { asked, more })
    }

    /// A clause for each vertex that lies outside, and one for those that were not asked.
    fn clauses(&self) -> impl Iterator<Item = String> + '_ {
        let asked = self.asked.iter().map(|(vertex, polygons)| {
            let numbers = listed(polygons);
            match polygons[..] {
                [_] => format!("polygon {numbers} does not hold it: vertex {vertex} lies outside"),
                _ => {
                    format!("polygons {numbers} do not hold it: vertex {vertex} lies outside each")
                }
            }
        });
        asked.chain(match self.more {
            0 => None,
            1 => Some("nor does 1 more".to_owned()),
            more => Some(format!("nor do {more} more")),
        })
    }
}

/// Numbers with commas between them, and a word before the last: 1, 4 and 9.
fn listed(numbers: &[u32]) -> String {
    let words: Vec<_> = numbers.iter().map(u32::to_string).collect();
    match &words[..] {
        [before @ .., last] if !before.is_empty() => format!("{} and {last}", before.join(", ")),
        words => words.concat(),
    }
}

/// What became of a ring, and why.
fn sentence(ring: &Record, fate: RingFate, others: &Others) -> String {
    let alone = others.asked.is_empty();
    let area = format!("its area is {}", shapes::ring_area(ring));
    let became = match fate {
        RingFate::Polygon => format!("a polygon: {area}, which is above 0"),
        RingFate::Hole { owner, by } => {
            format!("a hole of polygon {owner}: {}", held(ring.points, by))
        }
        RingFate::Dropped if alone => "dropped: it is a hole, and there is no polygon".to_owned(),
        RingFate::Dropped => "dropped: it is a hole that no polygon holds".to_owned(),
    };
    let mut clauses = vec![format!("ring {} is {became}", ring.number)];
    if alone && matches!(fate, RingFate::Hole { .. }) {
        clauses.push("no polygon has a lower number".to_owned());
    }
    clauses.extend(others.clauses());
    if !matches!(fate, RingFate::Polygon) {
        clauses.push(area);
    }
    clauses.join("; ")
}

/// Why a polygon holds a ring.
fn held(ring: &[Point], by: Decision) -> String {
    if let Decision::Inside(vertex) = by {
        let [x, y] = shapes::half(ring[vertex as usize]);
        return format!("its vertex {vertex} at ({x}, {y}) lies inside");
    }
    "each of its vertices lies on the boundary or in the row of the polygon's first point"
        .to_owned()
}

/// What no contour has: a hole that is dropped, and one that lies on a polygon's boundary with every vertex.
#[cfg(test)]
mod tests {
    use super::*;

    const RING: [Point; 5] = [[3, 4], [2, 3], [3, 2], [4, 3], [3, 4]];

    fn says(fate: RingFate, asked: &[(u32, &[u32])], more: usize) -> String {
        let ring = Record {
            number: 7,
            fate: Fate::Dropped,
            area: -4,
            points: &RING,
        };
        let asked = asked
            .iter()
            .map(|(vertex, polygons)| (*vertex, polygons.to_vec()));
        let others = Others {
            asked: asked.collect(),
            more,
        };
        sentence(&ring, fate, &others)
    }

    #[test]
    fn dropped_holes() {
        let dropped = |asked, more| says(RingFate::Dropped, asked, more);
        assert_eq!(
            dropped(&[], 0),
            "ring 7 is dropped: it is a hole, and there is no polygon; its area is -0.5"
        );
        assert_eq!(
            dropped(&[(0, &[1, 4, 9]), (3, &[5])], 0),
            "ring 7 is dropped: it is a hole that no polygon holds; polygons 1, 4 and 9 do not hold it: vertex 0 \
             lies outside each; polygon 5 does not hold it: vertex 3 lies outside; its area is -0.5"
        );
        assert_eq!(
            dropped(&[(2, &[8])], 1),
            "ring 7 is dropped: it is a hole that no polygon holds; polygon 8 does not hold it: vertex 2 lies \
             outside; nor does 1 more; its area is -0.5"
        );
    }

    #[test]
    fn holes_on_a_boundary() {
        let fate = RingFate::Hole {
            owner: 12,
            by: Decision::Undecided,
        };
        assert_eq!(
            says(fate, &[(0, &[1, 4])], 1234),
            "ring 7 is a hole of polygon 12: each of its vertices lies on the boundary or in the row of the polygon's \
             first point; polygons 1 and 4 do not hold it: vertex 0 lies outside each; nor do 1234 more; its area is \
             -0.5"
        );
    }
}
