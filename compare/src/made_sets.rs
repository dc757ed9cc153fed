//! Ring sets made by hand, in slopes that cells draw: outlines and walks, equal, reversed, begun elsewhere, pushed,
//! twice as large, without area; and rings whose points overlap. Number 9 lets all of them pass. Classes and owners
//! are as they come. The rings of other sets are run the other way here too.

use crate::directory::record;
use crate::exact::LARGEST;
use crate::lists::walk;
use crate::oracle::halved;
use crate::random::Random;
use crate::records::{place, records};
use crate::ring_sets::RingSet;
use crate::text_checks::{random_classes, random_owner};

type Point = [i32; 2];
/// A ring, its first point repeated last.
type Made = Vec<Point>;

/// A set of either kind.
pub fn made(random: &mut Random) -> RingSet {
    match random.below(4) {
        0 => overlapping(random),
        _ => related(random),
    }
}

/// Each ring of a set run the other way or not, from the same first point.
pub fn turn(random: &mut Random, set: &mut RingSet) {
    for record in records(&set.directory) {
        if random.once_in(2) {
            let ring = &mut set.points[place(record)];
            ring.reverse();
            ring.chunks_exact_mut(2).for_each(|point| point.swap(0, 1));
        }
    }
    set.right_areas();
}

/// Up to ten rings, each an outline or a walk, or made from one before. Any words may stand between them.
fn related(random: &mut Random) -> RingSet {
    let mut rings = vec![outline(random)];
    for _ in 0..random.below(10) {
        let from = random.below(rings.len());
        let ring = match random.below(8) {
            0 => closed_walk(random),
            1 | 2 => outline(random),
            3 => straight(random, &rings[from]),
            _ => changed(random, &rings[from]),
        };
        rings.push(ring);
    }
    let (mut set, classes) = (RingSet::default(), any_classes(random, rings.len()));
    for (number, ring) in (0..).zip(&rings) {
        let owner = random_owner(random, &classes, number);
        set.push(&words(ring), classes[number as usize], owner);
        if random.once_in(4) {
            let between = 2 * random.between(1, 3);
            set.points
                .extend((0..between).map(|_| random.next() as u16));
        }
    }
    set
}

/// A list of points that comes back to its first one again and again. The rings are stretches of it, from there to
/// there.
fn overlapping(random: &mut Random) -> RingSet {
    let mut points = outline(random);
    let mut returns = vec![0, points.len() - 1];
    for _ in 0..random.between(1, 4) {
        let ring = outline(random);
        let by = [0, 1].map(|k| points[0][k] - ring[0][k]);
        points.extend(&pushed(&ring, by)[1..]);
        returns.push(points.len() - 1);
    }
    let rings = random.between(2, 8);
    let mut set = RingSet {
        points: words(&points),
        rings: rings as u32,
        ..RingSet::default()
    };
    let classes = any_classes(random, rings);
    for (number, &class) in (0..).zip(&classes) {
        let from = random.below(returns.len() - 1);
        let to = random.between(from + 1, returns.len() - 1);
        let [first, last] = [from, to].map(|k| returns[k]);
        let owner = random_owner(random, &classes, number);
        let ring = halved(&set.points[2 * first..2 * last + 2]);
        set.directory.extend(record(first, &ring, [class, owner]));
    }
    set
}

fn any_classes(random: &mut Random, rings: usize) -> Vec<u32> {
    let share = random.below(9);
    random_classes(random, rings, share)
}

/// A rectangle or a diamond run either way, often with vertices on its edges, and changed. Many of them touch.
fn outline(random: &mut Random) -> Made {
    let most = random.pick(&[2, 4, 12]);
    let [a, b] = [0; 2].map(|_| random.between(1, most) as i32);
    let sides = match random.below(4) {
        0 => [[a, 0], [0, b], [-a, 0], [0, -b]],
        1 => [[0, b], [a, 0], [0, -b], [-a, 0]],
        2 => [[a, a], [-b, b], [-a, -a], [b, -b]],
        _ => [[a, a], [b, -b], [-a, -a], [-b, b]],
    };
    let corner = random.pick(&[64, 64, 64, i32::from(LARGEST) - 96]);
    let mut at = [0; 2].map(|_| corner + random.below(4) as i32);
    let mut ring = vec![at];
    for side in sides {
        let steps = side[0].abs().max(side[1].abs());
        let stop = random.between(0, steps as usize) as i32;
        if random.once_in(3) {
            ring.push([0, 1].map(|k| at[k] + side[k] / steps * stop));
        }
        at = [0, 1].map(|k| at[k] + side[k]);
        ring.push(at);
    }
    changed(random, &ring)
}

/// A closed walk of at least four points.
fn closed_walk(random: &mut Random) -> Made {
    let walk = walk(random);
    let points = walk.chunks_exact(2).map(|p| [p[0].into(), p[1].into()]);
    let mut ring: Made = points.collect();
    while ring.len() < 4 || ring.last() != ring.first() {
        ring.push(ring[0]);
    }
    ring
}

/// A ring without area: a point again and again, or there and back along a row, a column or a slope through a vertex
/// of another ring.
fn straight(random: &mut Random, near: &Made) -> Made {
    let from = random.pick(near);
    let by = random.pick(&[[0, 0], [1, 0], [0, 1], [1, 1], [-3, 0], [0, -3], [2, -2]]);
    let reach = random.between(1, 3) as i32;
    let ring = [0, reach, 1, 0].map(|steps| [0, 1].map(|k| from[k] + steps * by[k]));
    fitting(ring.to_vec(), &[from; 4])
}

/// The same ring, as it is, run the other way, begun elsewhere, pushed a little, or twice as large about its first
/// vertex.
fn changed(random: &mut Random, ring: &[Point]) -> Made {
    let mut points = ring.to_vec();
    match random.below(6) {
        0 => {}
        1 | 2 => points.reverse(),
        3 => {
            points.pop();
            let first = random.below(points.len());
            points.rotate_left(first);
            points.push(points[0]);
        }
        4 => points = pushed(ring, [0; 2].map(|_| random.below(5) as i32 - 2)),
        _ => {
            let twice = |p: &Point| [0, 1].map(|k| 2 * p[k] - ring[0][k]);
            points = fitting(ring.iter().map(twice).collect(), ring);
        }
    }
    points
}

/// The same ring elsewhere, or where it is.
fn pushed(ring: &[Point], by: Point) -> Made {
    let there = ring.iter().map(|p| [0, 1].map(|k| p[k] + by[k]));
    fitting(there.collect(), ring)
}

/// These points if their coordinates are within the limits, else the others.
fn fitting(points: Made, others: &[Point]) -> Made {
    let fits = |c: &i32| (0..=i32::from(LARGEST)).contains(c);
    match points.iter().flatten().all(fits) {
        true => points,
        false => others.to_vec(),
    }
}

fn words(ring: &[Point]) -> Vec<u16> {
    ring.iter().flatten().map(|&c| c as u16).collect()
}
