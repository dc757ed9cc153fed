//! Refusals 1 to 4 of everything that draws: at their bounds, together with each other and with tables that
//! are short too.

use crate::asked::Asked;
use crate::calls::compare_rooms;
use crate::drawing::Drawing;
use crate::kinds::Kind;
use crate::lent::Room;
use crate::lines::random_pen;
use crate::random::Random;
use crate::rings::{Grid, Pair};
use crate::rules::{Rule, AT_LEAST};
use crate::tally::Tally;

/// The sides that draw refusal 1, with sides that pass among them. The products of the last few pass the
/// word's end.
pub const SIDES: [usize; 11] = [
    0,
    1,
    2,
    4_095,
    4_096,
    4_097,
    8_192,
    65_536,
    1 << 32,
    1 << 63,
    usize::MAX,
];
/// The places in a list that are asked for: those of the list, the first few behind it, and those where the
/// place after passes the word's end.
const PLACES: [usize; 9] = [0, 1, 2, 3, 4, 1 << 32, 1 << 63, usize::MAX - 1, usize::MAX];
/// The most values that are lent for a refused call. The crate takes long over the regions of many rings.
pub const MOST_VALUES: usize = 20_000;
const MOST_REGION_VALUES: usize = 1_000;
const TRIES: usize = 20_000;

/// Every pair of sides with the counts about their product.
pub fn listed(tally: &mut Tally, random: &mut Random, kind: Kind) {
    for shape in listed_shapes() {
        compare_count(tally, random, kind, AT_LEAST, shape);
    }
}

/// The same as columns, rows and number of values.
pub fn listed_shapes() -> impl Iterator<Item = [usize; 3]> {
    let sides = SIDES
        .iter()
        .flat_map(|&dx| SIDES.iter().map(move |&dy| (dx, dy)));
    sides.flat_map(|(dx, dy)| {
        let product = dx.wrapping_mul(dy);
        let about = [product.wrapping_sub(1), product, product.wrapping_add(1)];
        let counts = about.into_iter().chain([0, 1, dx, dy]);
        counts.map(move |count| [dx, dy, count])
    })
}

/// Lists of none to three thresholds with every place, on terrains that pass and on some that do not.
pub fn listed_pairs(tally: &mut Tally, random: &mut Random) {
    for [dx, dy, count] in [
        [3, 3, 9],
        [1, 1, 1],
        [3, 3, 8],
        [0, 3, 0],
        [4_097, 1, 4_097],
    ] {
        let grid = speckled(random, [dx, dy, count]);
        for list in [&[][..], &[1.0], &[0.5, 1.0], &[1.0, 1.0, f64::NAN]] {
            for k in PLACES {
                let list = list.to_vec();
                compare_grid(tally, random, &Asked::band(&grid, &Pair { list, k }));
            }
        }
    }
}

/// Small sides, counts and rooms, each of which is often wrong.
pub fn mixed(tally: &mut Tally, random: &mut Random, kind: Kind, rule: Rule) {
    for _ in 0..TRIES {
        let shape = mixed_shape(random);
        compare_count(tally, random, kind, rule, shape);
    }
}

/// Small columns, rows and number of values, each of which is often wrong.
pub fn mixed_shape(random: &mut Random) -> [usize; 3] {
    let [dx, dy] = [0; 2].map(|_| match random.below(8) {
        0 => 0,
        1 => random.pick(&[4_096, 4_097, 1 << 32, usize::MAX]),
        _ => random.between(1, 6),
    });
    let product = dx.wrapping_mul(dy);
    let count = match random.below(6) {
        0 => product.wrapping_sub(1),
        1 => product.wrapping_add(1),
        2 => random.below(40),
        _ => product,
    };
    [dx, dy, count]
}

/// A terrain of so many columns, rows and values, if these are not too many; for a band a list of none to
/// four thresholds and a place that it often has; for lines a random pen.
fn compare_count(
    tally: &mut Tally,
    random: &mut Random,
    kind: Kind,
    rule: Rule,
    shape: [usize; 3],
) {
    let most = match kind {
        Kind::Rings | Kind::Lines => MOST_VALUES,
        Kind::Contours | Kind::Bands => MOST_REGION_VALUES,
    };
    if shape[2] > most {
        return;
    }
    let grid = speckled(random, shape).ones_by(rule);
    match kind {
        Kind::Rings | Kind::Contours => compare_grid(tally, random, &Asked::new(kind, &grid)),
        Kind::Lines => {
            let pen = random_pen(random);
            compare_grid(tally, random, &Asked::lines(&grid, pen));
        }
        Kind::Bands => {
            let list = (0..random.below(5)).map(|_| random.pick(&[0.0, 1.0, 2.0, f64::NAN]));
            let list = list.collect();
            let k = random
                .pick(&PLACES[..])
                .min(random.pick(&[1, 2, usize::MAX]));
            compare_grid(tally, random, &Asked::band(&grid, &Pair { list, k }));
        }
    }
}

/// Zeros and some ones.
pub fn speckled(random: &mut Random, [dx, dy, count]: [usize; 3]) -> Grid {
    let few = random.between(1, 9);
    Grid {
        dx,
        dy,
        values: (0..count)
            .map(|_| f64::from(u8::from(random.once_in(few))))
            .collect(),
        threshold: 1.0,
        rule: AT_LEAST,
    }
}

/// Every entry with no room, with little, and with what it needs.
fn compare_grid(tally: &mut Tally, random: &mut Random, asked: &Asked) {
    let drawing = Drawing::of(asked);
    let ample = drawing.as_ref().map_or(Room([30; 4]), Drawing::need);
    let rooms = [Room([0; 4]), Room([3; 4]), ample];
    compare_rooms(tally, random, asked, drawing.as_ref(), &rooms);
}
