//! What document 01 and the crate say of a terrain: the counts, the rings or lines as table words, and from
//! these the room, the answer and the final tables of every call.

use crate::asked::Asked;
use crate::counts::Counts;
use crate::directory::{crate_polygons, directory};
use crate::entries::{Entry, Step};
use crate::lent::{Lent, Room, Table, PEAK, POINTS, RINGS, SEGMENTS};
use crate::lines::{crate_lines, Pen};
use crate::moves::{hold_to_crate, smoothed_lines};
use crate::points::Points;
use crate::records::{place, records, CLASS, OWNER};
use crate::rings::{Grid, Ring};
use crate::rules::AT_LEAST;
use geo_types::Polygon;
use std::ops::Range;

pub struct Drawing {
    /// S and H; of a band the larger of its two sets'.
    pub counts: Counts,
    /// All rings' or lines' words, one after the other; of a band the lower set's first.
    pub points: Points,
    pub directory: Vec<u32>,
    /// The crate's polygons by record number.
    pub polygons: Vec<Polygon>,
    dx: usize,
}

impl Drawing {
    /// S and H from the samples, everything else from the crate. There is none where the call is refused
    /// whatever the room.
    pub fn of(asked: &Asked) -> Option<Self> {
        if asked.refusal() != 0 {
            return None;
        }
        let (mut counts, mut rings) = (Counts::default(), Vec::new());
        for set in asked.sets() {
            let (counted, drawn) = (Counts::of(&set), set.rings());
            let points: usize = drawn.iter().map(|ring| ring.points.len()).sum();
            let stated = counted.segments + drawn.len();
            assert!(points == stated, "points are not S + R");
            counts = counts.larger(counted);
            rings.extend(drawn);
        }
        let polygons = crate_polygons(asked);
        Some(Drawing {
            counts,
            directory: directory(asked, &rings, &polygons),
            polygons,
            points: match asked.pen {
                Some(pen) => {
                    let lines = lines(asked.grid, pen, &rings);
                    Points::expected(lines.into_iter().flatten())
                }
                None => Points::Words(rings.into_iter().flat_map(|ring| ring.words).collect()),
            },
            dx: asked.grid.dx,
        })
    }

    pub fn rings(&self) -> usize {
        records(&self.directory).len()
    }

    /// Each record's place among the points' words, class and owner.
    pub fn records(&self) -> impl Iterator<Item = (Range<usize>, u32, u32)> + '_ {
        let records = records(&self.directory);
        records.map(|record| (place(record), record[CLASS], record[OWNER]))
    }

    /// The words that each table needs.
    pub fn need(&self) -> Room {
        let Counts { segments, peak } = self.counts;
        Room([
            4 * peak + self.dx + 2,
            2 * segments,
            self.points.len(),
            self.directory.len(),
        ])
    }

    /// Writes into a copy of what is lent what a call that answers this number leaves there.
    pub fn settle(&self, entry: Entry, number: u32, lent: &mut Lent) {
        if entry.step != Step::FirstReport && [0, 7, 8].contains(&number) {
            let need = self.need();
            for table in [Table::Lines, Table::Links] {
                lent.table(table)[..need.of(table)].fill(0);
            }
        }
        if number == 0 {
            self.settle_outputs(entry, lent);
        }
    }

    fn settle_outputs(&self, entry: Entry, lent: &mut Lent) {
        let Counts { segments, peak } = self.counts;
        if entry.step != Step::Build {
            lent.set(SEGMENTS, segments as u32);
            lent.set(PEAK, peak as u32);
        }
        if entry.step != Step::FirstReport {
            lent.set(RINGS, self.rings() as u32);
        }
        if entry.step == Step::SecondReport {
            lent.set(POINTS, (self.points.len() / 2) as u32);
        }
        if entry.step == Step::Build {
            lent.put_points(&self.points);
            lent.table(Table::Directory)[..self.directory.len()].copy_from_slice(&self.directory);
        }
    }
}

/// The crate's lines, as long as its rings of the same terrain. By "more than" it would smooth by the next larger
/// threshold: then the lines are its rings smoothed by document 01's formula, which by that threshold has to give the
/// crate's own lines.
pub fn lines(grid: &Grid, pen: Pen, rings: &[Ring]) -> Vec<Vec<f64>> {
    if grid.rule != AT_LEAST && pen.smooth != 0 {
        if let Some(same) = grid.as_at_least() {
            hold_to_crate(&same, pen, rings);
        }
        return smoothed_lines(grid, pen, rings);
    }
    let lines = crate_lines(grid, pen);
    let lengths = lines.iter().map(|line| line.len() / 2);
    let as_long = lengths.eq(rings.iter().map(|ring| ring.points.len()));
    assert!(as_long, "the crate's lines are not as long as its rings");
    lines
}

/// The lowest refusal that applies to a call, or 0.
pub fn answer(entry: Entry, asked: &Asked, room: Room, drawing: Option<&Drawing>) -> u32 {
    let need = match drawing {
        Some(drawing) => drawing.need(),
        None => return asked.refusal(),
    };
    let short = entry
        .tables()
        .iter()
        .find(|&&table| room.of(table) < need.of(table));
    match short {
        Some(Table::Lines) => 5,
        Some(Table::Links) => 6,
        Some(Table::Points) => 7,
        Some(Table::Directory) => 8,
        None => 0,
    }
}
