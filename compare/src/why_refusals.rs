//! Refusals 1, 2, 9 and 15 of the calls that explain, each alone and together with the others.

use crate::asked::Asked;
use crate::directory::POLYGON;
use crate::grid_refusals::{listed_shapes, speckled, MOST_VALUES};
use crate::kinds::Kind;
use crate::random::Random;
use crate::records::{area, set_area};
use crate::ring_sets::RingSet;
use crate::rings::Grid;
use crate::rules::{AT_LEAST, MORE_THAN};
use crate::tally::Tally;
use crate::why_sets::compare_made;
use crate::why_vertices::Vertices;

/// The ring of the first sample with one vertex more, the fifth, which is midway in no pair.
const RING: [u16; 12] = [2, 1, 1, 0, 0, 1, 1, 2, 2, 2, 2, 1];
/// Numbers of rings and of vertices: those that are there, those about the last, and the largest.
const RINGS: [u32; 4] = [0, 1, 1 << 30, u32::MAX];
const VERTICES: [u32; 6] = [0, 4, 5, 6, 7, u32::MAX];

/// Every terrain that draws 1 or 2 or does not, by each rule, with sets that draw 9 or do not, and numbers that draw 15
/// or do not.
pub fn listed(tally: &mut Tally, random: &mut Random) {
    let sets = [
        RingSet::default(),
        sound(),
        open(),
        misstated(),
        stated(0),
        stated(2),
    ];
    for set in &sets {
        compare_made(tally, random, set);
    }
    for shape in listed_shapes().filter(|shape| shape[2] <= MOST_VALUES) {
        let grid = speckled(random, shape);
        for rule in [AT_LEAST, MORE_THAN] {
            compare_sets(tally, &grid.ones_by(rule), &sets);
        }
    }
}

/// Every set with every number, on one terrain.
fn compare_sets(tally: &mut Tally, grid: &Grid, sets: &[RingSet]) {
    let terrain = Asked::new(Kind::Rings, grid);
    for set in sets {
        let vertices = Vertices::new(set, &terrain);
        for (ring, vertex) in RINGS.iter().flat_map(|ring| VERTICES.map(|v| (*ring, v))) {
            vertices.compare(tally, ring, vertex);
        }
        vertices.close(tally);
    }
}

/// One ring.
fn sound() -> RingSet {
    let mut set = RingSet::default();
    set.push(&RING, POLYGON, 0);
    set
}

/// A last point that is not the first. The area is that of the points.
fn open() -> RingSet {
    let mut set = sound();
    set.points[10] = 3;
    set.right_areas();
    set
}

/// An area that is not the ring's.
fn misstated() -> RingSet {
    let mut set = sound();
    let area = area(&set.directory) + 1;
    set_area(&mut set.directory, area);
    set
}

/// Another number of rings stated than the directory has.
fn stated(rings: u32) -> RingSet {
    RingSet { rings, ..sound() }
}
