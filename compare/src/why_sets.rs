//! Fates and answers on ring sets that no terrain need have: of drawn slopes, of any slope, and with a fault.

use crate::asked::Asked;
use crate::fates::Rings;
use crate::grid_refusals::{mixed_shape, speckled, MOST_VALUES};
use crate::kinds::Kind;
use crate::made_sets::made;
use crate::random::Random;
use crate::ring_sets::RingSet;
use crate::tally::Tally;
use crate::text_checks::random_set;
use crate::why_calls::{absent, compare_fates, compare_faulty};
use crate::why_vertices::Vertices;

/// How many sets of either kind a round makes.
const SETS: usize = 10_000;
/// How many vertices of a set are asked about.
const VERTICES: usize = 4;

/// Any set, faulty or not: fates, answers, and vertices on a terrain that is often refused.
pub fn compare_any(tally: &mut Tally, random: &mut Random, set: &RingSet) {
    compare_made(tally, random, set);
    compare_vertices(tally, random, set);
}

/// Number 9, or fates and answers from the points alone.
pub fn compare_made(tally: &mut Tally, random: &mut Random, set: &RingSet) {
    if set.is_faulty() {
        compare_faulty(tally, random, set);
    } else {
        compare_fates(tally, random, set, &Rings::made(set));
    }
}

/// Some vertices of a set, each number of a ring or vertex often wrong, on a terrain that is often wrong too.
fn compare_vertices(tally: &mut Tally, random: &mut Random, set: &RingSet) {
    let shape = mixed_shape(random);
    if shape[2] > MOST_VALUES {
        return;
    }
    let grid = speckled(random, shape);
    let terrain = Asked::new(Kind::Rings, &grid);
    let vertices = Vertices::new(set, &terrain);
    for _ in 0..VERTICES {
        let [ring, vertex] = [set.rings, 5].map(|count| match random.below(8) {
            0 => random.pick(&absent(count)),
            _ => random.below(count.max(1) as usize) as u32,
        });
        vertices.compare(tally, ring, vertex);
    }
    vertices.close(tally);
}

/// Sets of any slope, where records share points, and any words stand between.
pub fn any_slopes(tally: &mut Tally, random: &mut Random) {
    for _ in 0..SETS {
        let set = random_set(random);
        compare_any(tally, random, &set);
    }
}

/// Sets of drawn slopes.
pub fn drawn_slopes(tally: &mut Tally, random: &mut Random) {
    for _ in 0..SETS {
        let set = made(random);
        assert!(!set.is_faulty(), "a set with a fault");
        compare_any(tally, random, &set);
    }
}
