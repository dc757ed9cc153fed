//! Fates and answers on whole terrains: the tables of the crate's contours and bands. A band's records have classes
//! and owners of their own, which fates do not go by.

use crate::asked::Asked;
use crate::directory::{HOLE, POLYGON};
use crate::drawing::Drawing;
use crate::fates::Rings;
use crate::kinds::Kind;
use crate::made_sets::turn;
use crate::random::Random;
use crate::records::{self, records, records_mut, CLASS, OWNER};
use crate::ring_sets::RingSet;
use crate::rings::{random_grid, small_grids, Grid};
use crate::shapes::{self, LONGEST_SIDE};
use crate::tally::Tally;
use crate::text_checks::{random_classes, random_owner};
use crate::why_calls::compare_fates;

/// How many small grids of random shape a round draws, and how many to change their tables.
const SMALL_GRIDS: usize = 30_000;
const CHANGED: usize = 5_000;

/// A change of a ring set.
type Change = fn(&mut Random, &mut RingSet);

/// The tables of a contour or band. A contour's have to hold the fates, or the run stops.
pub fn compare_asked(tally: &mut Tally, random: &mut Random, asked: &Asked) -> Drawing {
    let drawing = Drawing::of(asked).expect("a question that passes");
    let set = RingSet::of(&drawing);
    let fates = compare_fates(tally, random, &set, &Rings::drawn(&set));
    for (ring, fate) in fates {
        let record = records(&drawing.directory).nth(ring);
        let same = record.map(records::fate) == Some([fate.class, fate.owner]);
        assert!(
            same || asked.kind != Kind::Contours,
            "the crate's polygons are not those of its area and contains"
        );
    }
    drawing
}

/// The tables of a contour after a change.
fn compare_changed(tally: &mut Tally, random: &mut Random, grid: &Grid, change: Change) {
    let drawing = Drawing::of(&Asked::new(Kind::Contours, grid));
    let mut set = RingSet::of(&drawing.expect("a question that passes"));
    change(random, &mut set);
    compare_fates(tally, random, &set, &Rings::drawn(&set));
}

/// Classes exchanged, or as they come, with owners that suit them.
fn relabel(random: &mut Random, set: &mut RingSet) {
    let share = random.below(9);
    let classes = match random.below(3) {
        0 => {
            let classes = records(&set.directory).map(|record| record[CLASS]);
            let exchanged = classes.map(|class| if class == HOLE { POLYGON } else { HOLE });
            exchanged.collect()
        }
        _ => random_classes(random, set.rings as usize, share),
    };
    for (number, record) in (0..).zip(records_mut(&mut set.directory)) {
        record[CLASS] = classes[number as usize];
        record[OWNER] = random_owner(random, &classes, number);
    }
}

/// A terrain's contour.
pub fn compare_grid(tally: &mut Tally, random: &mut Random, grid: &Grid) {
    compare_asked(tally, random, &Asked::new(Kind::Contours, grid));
}

/// Every two-valued grid of up to twelve samples. Like the next it returns how many there were.
pub fn all_small_grids(tally: &mut Tally, random: &mut Random) -> u64 {
    let grids = small_grids(12);
    grids
        .inspect(|grid| compare_grid(tally, random, grid))
        .count() as u64
}

/// Random grids of sides up to nine.
pub fn random_small_grids(tally: &mut Tally, random: &mut Random) -> u64 {
    shapes::small(random, SMALL_GRIDS, |random, dx, dy| {
        let grid = random_grid(random, dx, dy);
        compare_grid(tally, random, &grid);
        1
    })
}

/// Other classes and owners, such as number 9 lets pass.
pub fn other_records(tally: &mut Tally, random: &mut Random) {
    changed_grids(tally, random, relabel);
}

/// Rings run the other way: polygons become holes, most of them dropped, and holes polygons.
pub fn turned_rings(tally: &mut Tally, random: &mut Random) {
    changed_grids(tally, random, turn);
    compare_changed(tally, random, &chequerboard(), turn);
}

/// Random grids of sides up to nine, and one of every shape up to 32 by 32, with their tables changed.
fn changed_grids(tally: &mut Tally, random: &mut Random, change: Change) {
    let mut compare = |random: &mut Random, dx, dy| {
        let grid = random_grid(random, dx, dy);
        compare_changed(tally, random, &grid, change);
        1
    };
    shapes::small(random, CHANGED, &mut compare);
    shapes::every(random, 32, &mut compare);
}

/// The longest side with thousands of rings: a chequerboard, a plate of pinholes, and speckles.
pub fn many_rings(tally: &mut Tally, random: &mut Random) -> u64 {
    let plate = Grid::new(LONGEST_SIDE, 5, 1.0, |x, y| (1 - x * y % 2) as f64);
    let speckles = Grid::new(LONGEST_SIDE, 4, 1.0, |_, _| {
        f64::from(u8::from(random.once_in(3)))
    });
    let grids = [chequerboard(), plate, speckles];
    for grid in &grids {
        compare_grid(tally, random, grid);
    }
    grids.len() as u64
}

fn chequerboard() -> Grid {
    Grid::new(LONGEST_SIDE, 2, 1.0, |x, y| ((x + y) % 2) as f64)
}
