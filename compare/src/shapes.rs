//! The shapes that terrains are drawn in. Each function hands one shape after the other to a comparison, which
//! returns how many terrains it compared, and returns how many these are together.

use crate::random::Random;

/// The longest side of a terrain, and of a small one.
pub const LONGEST_SIDE: usize = 4_096;
const SMALL_SIDE: usize = 9;

/// So many random shapes of sides up to nine.
pub fn small(
    random: &mut Random,
    count: usize,
    mut compare: impl FnMut(&mut Random, usize, usize) -> u64,
) -> u64 {
    let mut grids = 0;
    for _ in 0..count {
        let [dx, dy] = [0; 2].map(|_| random.between(1, SMALL_SIDE));
        grids += compare(random, dx, dy);
    }
    grids
}

/// Every shape of sides up to this one.
pub fn every(
    random: &mut Random,
    side: usize,
    mut compare: impl FnMut(&mut Random, usize, usize) -> u64,
) -> u64 {
    let shapes = (1..=side).flat_map(|dx| (1..=side).map(move |dy| (dx, dy)));
    shapes.map(|(dx, dy)| compare(random, dx, dy)).sum()
}

/// Columns about whole words of 64 samples, and rows about tiles of 66.
pub fn words_and_tiles(
    random: &mut Random,
    mut compare: impl FnMut(&mut Random, usize, usize) -> u64,
) -> u64 {
    let mut grids = 0;
    for dx in [62, 63, 64, 65, 66, 127, 128, 129, 191, 192, 193, 256] {
        for dy in [1, 2, 65, 66, 67, 131, 132, 133, 198] {
            grids += compare(random, dx, dy);
        }
    }
    grids
}

/// Sides of one to four by up to the longest side, both ways.
pub fn thin(random: &mut Random, mut compare: impl FnMut(&mut Random, usize, usize) -> u64) -> u64 {
    let mut grids = 0;
    for thin in (1..=4).flat_map(|thin| [thin; 4]) {
        for long in [LONGEST_SIDE, random.between(65, LONGEST_SIDE)] {
            grids += compare(random, thin, long);
            grids += compare(random, long, thin);
        }
    }
    grids
}
