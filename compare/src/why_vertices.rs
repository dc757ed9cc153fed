//! What smoothing does to each vertex: of the terrain's own rings, where the crate's smoothed lines show it too; of the
//! same rings at other thresholds; of the rings of other terrains; and of every point about a terrain.

use crate::area_checks::spread;
use crate::asked::Asked;
use crate::calls::compare_lent;
use crate::directory::{HOLE, NOBODY, POLYGON};
use crate::exact::LARGEST;
use crate::kinds::Kind;
use crate::lent_sets::LentSet;
use crate::lines::{random_line_grid, Pen, PLACEMENTS};
use crate::moves::{hold_to_crate, Smoothing};
use crate::random::Random;
use crate::records::{records, COUNT, FIRST};
use crate::ring_sets::{RingSet, FAULTY};
use crate::rings::{Grid, Ring};
use crate::shapes::{self, LONGEST_SIDE};
use crate::tally::Tally;
use crate::why_calls::{absent, compare_call, Reply, NOT_THERE};
use crate::why_entries::Question;
use std::f64::{INFINITY, MAX, NAN, NEG_INFINITY};

/// Of a set with more points some vertices are asked about, and else all.
const EVERY: usize = 400;
const SOME: usize = 100;
/// How many terrains a round smooths the rings of others by.
const OTHERS: usize = 5_000;
/// Thresholds to smooth the rings of another one by.
const THRESHOLDS: [f64; 7] = [NAN, INFINITY, NEG_INFINITY, 0.0, -0.0, 1.0, MAX];

/// Smoothed, and not placed.
const SMOOTHED: Pen = Pen {
    smooth: 1,
    placement: PLACEMENTS[0],
};

/// A ring set and a terrain by which its vertices are smoothed.
pub struct Vertices<'a> {
    lent: LentSet<'a>,
    terrain: &'a Asked<'a>,
    smoothing: Option<Smoothing<'a>>,
    is_faulty: bool,
}

impl<'a> Vertices<'a> {
    pub fn new(set: &'a RingSet, terrain: &'a Asked<'a>) -> Self {
        Vertices {
            lent: LentSet::new(set),
            terrain,
            smoothing: Smoothing::of(terrain),
            is_faulty: set.is_faulty(),
        }
    }

    /// One vertex.
    pub fn compare(&self, tally: &mut Tally, ring: u32, vertex: u32) {
        let question = Question::Vertex {
            terrain: self.terrain,
            ring,
            vertex,
        };
        compare_call(tally, &self.lent, question, self.reply(ring, vertex));
    }

    /// The lowest refusal that applies, or what becomes of the coordinates.
    fn reply(&self, ring: u32, vertex: u32) -> Reply {
        let set = self.lent.set;
        let smoothing = match &self.smoothing {
            None => return Reply::Refused(self.terrain.refusal()),
            Some(_) if self.is_faulty => return Reply::Refused(FAULTY),
            Some(smoothing) => smoothing,
        };
        let point = set.vertex(ring, vertex);
        let moves = point.and_then(|point| smoothing.at(point));
        moves.map_or(Reply::Refused(NOT_THERE), Reply::Moves)
    }

    /// Every vertex of a set without fault, or some; then numbers that no ring has, and numbers that no vertex of a
    /// ring has, with one that comes back to the first point in 32 bits.
    fn compare_all(&self, tally: &mut Tally, random: &mut Random) {
        let set = self.lent.set;
        let counts = (0..).zip(records(&set.directory).map(|record| record[COUNT]));
        let all = counts.flat_map(|(ring, count)| (0..count).map(move |vertex| (ring, vertex)));
        let all: Vec<(u32, u32)> = all.collect();
        let most = if all.len() > EVERY { SOME } else { EVERY };
        for k in spread(random, all.len(), most) {
            self.compare(tally, all[k].0, all[k].1);
        }
        for ring in absent(set.rings) {
            self.compare(tally, ring, 0);
        }
        let ring = random.below(set.rings.max(1) as usize) as u32;
        if let Some(record) = records(&set.directory).nth(ring as usize) {
            let [first, count] = [FIRST, COUNT].map(|word| record[word]);
            for vertex in absent(count) {
                self.compare(tally, ring, vertex);
            }
            self.compare(tally, ring, first.wrapping_neg().max(count));
        }
        self.close(tally);
    }

    /// Compares what was lent with what stands there now.
    pub fn close(&self, tally: &mut Tally) {
        self.lent.compare_still(tally);
        compare_lent(tally, self.terrain);
    }
}

/// A terrain's own rings, at its own threshold and at another. The crate's smoothed lines stop the run where they are
/// not where the moves take its rings; by "more than" at the threshold that the crate is asked for.
pub fn compare_grid(tally: &mut Tally, random: &mut Random, grid: &Grid) {
    let rings = grid.rings();
    if let Some(same) = grid.as_at_least() {
        hold_to_crate(&same, SMOOTHED, &rings);
    }
    let set = set_of(random, &rings);
    let other = random.pick(&THRESHOLDS);
    for (grid, is_own) in [(grid.at(grid.threshold), true), (grid.at(other), false)] {
        let terrain = Asked::new(Kind::Rings, &grid);
        let vertices = Vertices::new(&set, &terrain);
        if let (true, Some(smoothing)) = (is_own, &vertices.smoothing) {
            smoothing.hold_midway(&rings);
        }
        vertices.compare_all(tally, random);
    }
}

/// The crate's rings as polygons or as dropped holes.
fn set_of(random: &mut Random, rings: &[Ring]) -> RingSet {
    let class = random.pick(&[POLYGON, HOLE]);
    let mut set = RingSet::default();
    for (number, ring) in (0..).zip(rings) {
        let owner = if class == HOLE { NOBODY } else { number };
        set.push(&ring.words, class, owner);
    }
    set
}

/// The rings of one terrain by the samples of another, larger or smaller one.
pub fn other_terrains(tally: &mut Tally, random: &mut Random) {
    shapes::small(random, OTHERS, |random, dx, dy| {
        let [across, down] = [0; 2].map(|_| random.between(1, 9));
        let drawn = random_line_grid(random, dx, dy);
        let grid = random_line_grid(random, across, down);
        let set = set_of(random, &drawn.rings());
        let terrain = Asked::new(Kind::Rings, &grid);
        Vertices::new(&set, &terrain).compare_all(tally, random);
        1
    });
}

/// Every point of small terrains and beside them; the points about the corners of terrains with the longest sides.
pub fn every_point(tally: &mut Tally, random: &mut Random) {
    for (dx, dy) in (1..=6).flat_map(|dx| (1..=6).map(move |dy| (dx, dy))) {
        for _ in 0..4 {
            let grid = random_line_grid(random, dx, dy);
            let all = |side: usize| -> Vec<u16> { (0..=2 * side as u16 + 3).collect() };
            compare_points(tally, random, &grid, &all(dx), &all(dy));
        }
    }
    for (dx, dy) in [(1, LONGEST_SIDE), (LONGEST_SIDE, 1), (LONGEST_SIDE, 3)] {
        let grid = random_line_grid(random, dx, dy);
        compare_points(tally, random, &grid, &about_ends(dx), &about_ends(dy));
    }
}

/// Both sides the longest: the points about the corners.
pub fn largest_grid(tally: &mut Tally, random: &mut Random) {
    let grid = Grid::new(LONGEST_SIDE, LONGEST_SIDE, 0.7, |x, y| {
        ((3 * x + 5 * y) % 7) as f64
    });
    let ends = about_ends(LONGEST_SIDE);
    compare_points(tally, random, &grid, &ends, &ends);
}

/// The coordinates about both ends of a side.
fn about_ends(side: usize) -> Vec<u16> {
    let end = 2 * side as u16;
    let behind = (end.saturating_sub(6)..=end + 3).chain([LARGEST]);
    let coordinates = (0..6).chain(behind);
    coordinates.filter(|&c| c <= LARGEST).collect()
}

/// One ring through every point of these columns and rows.
fn compare_points(
    tally: &mut Tally,
    random: &mut Random,
    grid: &Grid,
    columns: &[u16],
    rows: &[u16],
) {
    let points = rows
        .iter()
        .flat_map(|&y| columns.iter().map(move |&x| [x, y]));
    let mut ring: Vec<u16> = points.flatten().collect();
    ring.extend_from_within(..2);
    let mut set = RingSet::default();
    set.push(&ring, HOLE, NOBODY);
    let terrain = Asked::new(Kind::Rings, grid);
    Vertices::new(&set, &terrain).compare_all(tally, random);
}
