//! Area and containment on rings that the crate draws, held to the crate itself.

use crate::exact::LARGEST;
use crate::random::Random;
use crate::rings::{random_grid, small_grids, Grid, Ring};
use crate::tally::{area_call, contains_call, Tally};
use crate::{ffi, oracle};

/// Rings with all vertices on each other answer 0 at every vertex, so a pair costs up to the product of
/// the point counts; pairs above this are left out.
pub const DEAREST_PAIR: usize = 200_000;
/// The longest side of a terrain.
const LONGEST_SIDE: usize = 4_096;

/// At most how many areas, pairs and points one terrain is asked for.
struct Share {
    areas: usize,
    pairs: usize,
    points: usize,
}

/// Every two-valued grid of up to twelve samples.
pub fn all_small_grids(tally: &mut Tally, random: &mut Random) {
    let share = Share {
        areas: 36,
        pairs: 36,
        points: 8,
    };
    for grid in small_grids(12) {
        compare_grid(tally, random, &grid, &share);
    }
}

/// A random grid of every shape up to 64 by 64.
pub fn every_shape(tally: &mut Tally, random: &mut Random) {
    let share = Share {
        areas: 24,
        pairs: 24,
        points: 24,
    };
    for (dx, dy) in (1..=64).flat_map(|dx| (1..=64).map(move |dy| (dx, dy))) {
        let grid = random_grid(random, dx, dy);
        compare_grid(tally, random, &grid, &share);
    }
}

/// Thin, tall and flat grids up to the longest side, where coordinates reach their limit.
pub fn thin_grids(tally: &mut Tally, random: &mut Random) {
    let share = Share {
        areas: 100,
        pairs: 100,
        points: 100,
    };
    for thin in (1..=4).flat_map(|thin| [thin; 8]) {
        let long = if random.once_in(3) {
            LONGEST_SIDE
        } else {
            random.between(65, LONGEST_SIDE)
        };
        for (dx, dy) in [(thin, long), (long, thin)] {
            let grid = random_grid(random, dx, dy);
            compare_grid(tally, random, &grid, &share);
        }
    }
    for (dx, dy) in [(1, LONGEST_SIDE), (LONGEST_SIDE, 1)] {
        let grid = Grid::new(dx, dy, 1.0, |_, _| 1.0);
        compare_grid(tally, random, &grid, &share);
    }
}

fn compare_grid(tally: &mut Tally, random: &mut Random, grid: &Grid, share: &Share) {
    let rings = grid.rings();
    if rings.is_empty() {
        return;
    }
    for k in spread(random, rings.len(), share.areas) {
        compare_area(tally, &rings[k]);
    }
    for k in spread(random, rings.len() * rings.len(), share.pairs) {
        let (outer, tested) = (&rings[k / rings.len()], &rings[k % rings.len()]);
        compare_pair(tally, outer, tested);
    }
    for _ in 0..share.points {
        let ring = &rings[random.below(rings.len())];
        let point = probe(random, grid, ring);
        compare_pair(
            tally,
            ring,
            &Ring {
                points: oracle::halved(&point),
                words: point.to_vec(),
            },
        );
    }
}

/// All numbers below n if at most `share`, else that many at random.
pub fn spread(random: &mut Random, n: usize, share: usize) -> Vec<usize> {
    if n <= share {
        (0..n).collect()
    } else {
        (0..share).map(|_| random.below(n)).collect()
    }
}

fn compare_area(tally: &mut Tally, ring: &Ring) {
    let expected = oracle::area(&ring.points);
    tally.same(expected, ffi::area(&ring.words), || area_call(&ring.words));
}

fn compare_pair(tally: &mut Tally, outer: &Ring, tested: &Ring) {
    if outer.points.len() * tested.points.len() > DEAREST_PAIR {
        return;
    }
    let expected = oracle::contains(&outer.points, &tested.points);
    let got = ffi::contains(&outer.words, &tested.words);
    tally.same(expected, got, || contains_call(&outer.words, &tested.words));
}

/// A point worth asking about: in the row of the ring's first vertex, on a vertex, on an edge, beside a
/// vertex, at a sample, anywhere in the terrain, or far off.
fn probe(random: &mut Random, grid: &Grid, ring: &Ring) -> [u16; 2] {
    let (width, height) = (2 * grid.dx as u16, 2 * grid.dy as u16);
    let anywhere = [
        random.below(width as usize + 1) as u16,
        random.below(height as usize + 1) as u16,
    ];
    let k = random.below(ring.words.len() / 2 - 1);
    let (from, to) = (
        &ring.words[2 * k..2 * k + 2],
        &ring.words[2 * k + 2..2 * k + 4],
    );
    match random.below(8) {
        0 | 1 => [anywhere[0], ring.words[1]],
        2 => [from[0], from[1]],
        3 => [(from[0] + to[0]) / 2, (from[1] + to[1]) / 2],
        4 => [
            from[0] + random.below(2) as u16,
            from[1].saturating_sub(random.below(2) as u16),
        ],
        5 => [anywhere[0] / 2 * 2 + 1, anywhere[1] / 2 * 2 + 1],
        6 => anywhere,
        _ => [random.between(0, LARGEST.into()) as u16, anywhere[1]],
    }
    .map(|coordinate| coordinate.min(LARGEST))
}
