//! Area and containment on lists of points that no cell need draw: open and closed, short and long, with
//! repeated points. Areas are held to the crate. Containment is held to the exact test, and on drawn
//! slopes to the crate too.

use crate::exact::LARGEST;
use crate::random::Random;
use crate::tally::{area_call, contains_call, Tally};
use crate::{exact, ffi, oracle};

const LISTS: usize = 30_000;
/// The steps that a cell draws.
const STEPS: [(i32, i32); 8] = [
    (2, 0),
    (1, 1),
    (0, 2),
    (-1, 1),
    (-2, 0),
    (-1, -1),
    (0, -2),
    (1, -1),
];

/// Random points: every slope there is.
pub fn any_slopes(tally: &mut Tally, random: &mut Random) {
    for _ in 0..LISTS {
        let (low, high) = random_range(random);
        let outer = random_list(random, low, high);
        compare_area(tally, &outer);
        for tested in [
            random_tested(random, &outer, low, high),
            beside_edge(random, &outer).to_vec(),
        ] {
            let expected = exact::contains(&outer, &tested);
            tally.float_test(expected, crate_contains(&outer, &tested));
            compare_contains(tally, expected, &outer, &tested);
        }
    }
}

/// Walks in the steps of cells, back to where they began.
pub fn drawn_slopes(tally: &mut Tally, random: &mut Random) {
    for _ in 0..LISTS {
        let outer = walk(random);
        compare_area(tally, &outer);
        let (low, high) = (outer[0].saturating_sub(20), (outer[0] + 20).min(LARGEST));
        for tested in [
            random_tested(random, &outer, low, high),
            beside_edge(random, &outer).to_vec(),
        ] {
            compare_contains(tally, crate_contains(&outer, &tested), &outer, &tested);
            compare_contains(tally, exact::contains(&outer, &tested), &outer, &tested);
        }
    }
}

fn compare_area(tally: &mut Tally, ring: &[u16]) {
    let expected = oracle::area(&oracle::halved(ring));
    tally.same(expected, ffi::area(ring), || area_call(ring));
}

fn compare_contains(tally: &mut Tally, expected: ffi::Answer, outer: &[u16], tested: &[u16]) {
    tally.same(expected, ffi::contains(outer, tested), || {
        contains_call(outer, tested)
    });
}

fn crate_contains(outer: &[u16], tested: &[u16]) -> ffi::Answer {
    oracle::contains(&oracle::halved(outer), &oracle::halved(tested))
}

fn random_range(random: &mut Random) -> (u16, u16) {
    random.pick(&[
        (0, 3),
        (0, 16),
        (100, 130),
        (0, 255),
        (LARGEST - 12, LARGEST),
        (0, LARGEST),
    ])
}

/// Points with coordinates from low to high, some of them repeated, the first repeated last in one of two.
pub fn random_list(random: &mut Random, low: u16, high: u16) -> Vec<u16> {
    let count = match random.below(100) {
        0..=9 => random.between(1, 2),
        10..=69 => random.between(3, 8),
        70..=97 => random.between(3, 40),
        _ => random.between(100, 600),
    };
    let mut list: Vec<u16> = Vec::with_capacity(2 * count + 2);
    for _ in 0..count {
        if !list.is_empty() && random.once_in(8) {
            let again = 2 * random.below(list.len() / 2);
            list.extend_from_within(again..again + 2);
        } else {
            list.extend((0..2).map(|_| random.between(low.into(), high.into()) as u16));
        }
    }
    if random.once_in(2) {
        list.extend_from_within(0..2);
    }
    list
}

/// Up to five points, of which the first few mostly lie on the outer list and so leave the answer open.
fn random_tested(random: &mut Random, outer: &[u16], low: u16, high: u16) -> Vec<u16> {
    let count = random.below(6);
    let on_outer = random.below(count + 1);
    let mut tested = Vec::with_capacity(2 * count);
    for k in 0..count {
        let point = match random.below(4) {
            0 if k < on_outer => [random.between(low.into(), high.into()) as u16, outer[1]],
            _ if k < on_outer => on_edge(random, outer),
            _ => [0; 2].map(|_| random.between(low.into(), high.into()) as u16),
        };
        tested.extend(point);
    }
    tested
}

/// Two neighbouring points, the last and the first among them.
fn edge(random: &mut Random, list: &[u16]) -> [[i32; 2]; 2] {
    let count = list.len() / 2;
    let k = random.below(count);
    [k, (k + 1) % count].map(|k| [list[2 * k].into(), list[2 * k + 1].into()])
}

/// A point with whole coordinates on an edge, ends included.
fn on_edge(random: &mut Random, list: &[u16]) -> [u16; 2] {
    let [from, to] = edge(random, list);
    let (across, down) = (to[0] - from[0], to[1] - from[1]);
    let parts = greatest_divisor(across.abs(), down.abs()).max(1);
    let part = random.between(0, parts as usize) as i32;
    [
        from[0] + across / parts * part,
        from[1] + down / parts * part,
    ]
    .map(|c| c as u16)
}

/// A point at most one step beside the place where an edge meets a row, rounded to whole coordinates.
fn beside_edge(random: &mut Random, list: &[u16]) -> [u16; 2] {
    let [from, to] = edge(random, list);
    let down = to[1] - from[1];
    let row = random.between(from[1].min(to[1]) as usize, from[1].max(to[1]) as usize) as i32;
    let meets = match down {
        0 => from[0],
        _ => from[0] + (to[0] - from[0]) * (row - from[1]) / down,
    };
    let x = meets + random.between(0, 2) as i32 - 1;
    [x.clamp(0, LARGEST.into()) as u16, row as u16]
}

fn greatest_divisor(a: i32, b: i32) -> i32 {
    if b == 0 {
        a
    } else {
        greatest_divisor(b, a % b)
    }
}

/// A walk in drawn steps and standstills that ends where it began, inside the limits. In one of two the
/// last point is left out, unless it is the only one, so that the closing pair is a drawn step too.
pub fn walk(random: &mut Random) -> Vec<u16> {
    let far = i32::from(LARGEST);
    let corner = random.pick(&[0, 1, 500, far - 42, far - 1]);
    let home = [0; 2].map(|_| (corner + random.below(40) as i32).min(far));
    let mut at = home;
    let mut list = vec![at[0] as u16, at[1] as u16];
    for _ in 0..random.between(1, 40) {
        let (across, down) = random.pick(&STEPS);
        let next = [at[0] + across, at[1] + down];
        if next.iter().all(|c| (0..=far).contains(c)) && !random.once_in(12) {
            at = next;
        }
        list.extend(at.map(|c| c as u16));
    }
    while at != home {
        at = step_home(at, home);
        list.extend(at.map(|c| c as u16));
    }
    if list.len() > 2 && random.once_in(2) {
        list.truncate(list.len() - 2);
    }
    list
}

/// One drawn step nearer: steps keep both coordinates' distances even or both odd.
fn step_home(at: [i32; 2], home: [i32; 2]) -> [i32; 2] {
    let away = [home[0] - at[0], home[1] - at[1]];
    if away[0] % 2 != 0 {
        [at[0] + away[0].signum(), at[1] + away[1].signum()]
    } else if away[0] != 0 {
        [at[0] + 2 * away[0].signum(), at[1]]
    } else {
        [at[0], at[1] + 2 * away[1].signum()]
    }
}
