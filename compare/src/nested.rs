//! Terrains whose rings lie deep in one another, begin in one row, are many, or are long. Heights are 0, 1
//! and 2, to be drawn at 1 and 2: rings of both then share edges.

use crate::random::Random;
use crate::rings::Grid;

/// Every shape of up to `samples` samples with every choice of three heights.
pub fn three_valued(samples: usize) -> impl Iterator<Item = Grid> {
    let shapes = (1..=samples).flat_map(move |dx| (1..=samples / dx).map(move |dy| (dx, dy)));
    shapes.flat_map(|(dx, dy)| {
        (0..3usize.pow((dx * dy) as u32)).map(move |mut choice| {
            Grid::new(dx, dy, 1.0, |_, _| {
                let height = choice % 3;
                choice /= 3;
                height as f64
            })
        })
    })
}

/// Frames in one another, each a sample wide, whose heights repeat.
pub fn frames(dx: usize, dy: usize, heights: &[f64]) -> Grid {
    Grid::new(dx, dy, 1.0, |x, y| {
        let from_side = x.min(y).min(dx - 1 - x).min(dy - 1 - y);
        heights[from_side % heights.len()]
    })
}

/// The same with frames that stand on their corners. They meet corner to corner, at saddles.
pub fn diamonds(side: usize, heights: &[f64]) -> Grid {
    let middle = side / 2;
    Grid::new(side, side, 1.0, |x, y| {
        heights[(x.abs_diff(middle) + y.abs_diff(middle)) % heights.len()]
    })
}

/// An arm that winds inwards, a ridge of 2 between slopes of 1, with 0 in some places of the ridge. Its
/// turns are `apart` samples apart; where that is less than 4 there are no slopes.
pub fn spiral(random: &mut Random, side: usize, apart: usize, holes: usize) -> Grid {
    let ridge = winding(side, apart);
    let mut heights = vec![0.0; side * side];
    for &[x, y] in &ridge {
        if apart >= 4 {
            for row in y - 1..=y + 1 {
                heights[row * side + x - 1..=row * side + x + 1].fill(1.0);
            }
        }
    }
    for &[x, y] in &ridge {
        heights[y * side + x] = 2.0;
    }
    for _ in 0..holes {
        let [x, y] = random.pick(&ridge);
        heights[y * side + x] = 0.0;
    }
    Grid::new(side, side, 1.0, |x, y| heights[y * side + x])
}

/// The samples of a walk that goes on as long as the next few ahead are free, and else turns right.
fn winding(side: usize, apart: usize) -> Vec<[usize; 2]> {
    let mut passed = vec![false; side * side];
    let (mut at, mut ahead) = ([1, 1], [1, 0]);
    let mut walk = Vec::new();
    let step = |[x, y]: [usize; 2], [across, down]: [isize; 2], far: usize| {
        let moved = [(x, across), (y, down)].map(|(c, by)| c as isize + by * far as isize);
        let inside = moved.iter().all(|c| (1..side as isize - 1).contains(c));
        inside.then(|| moved.map(|c| c as usize))
    };
    loop {
        walk.push(at);
        passed[at[1] * side + at[0]] = true;
        let free = |way| {
            let mut beyond = (1..=apart).filter_map(|far| step(at, way, far));
            step(at, way, 1).is_some() && beyond.all(|[x, y]| !passed[y * side + x])
        };
        if !free(ahead) {
            ahead = [-ahead[1], ahead[0]];
            if !free(ahead) {
                return walk;
            }
        }
        at = step(at, ahead, 1).expect("a free place");
    }
}

/// Cups in rows: each has up to three frames of random heights in one another, and stands alone.
pub fn cups(random: &mut Random, across: usize, down: usize) -> Grid {
    let heights: Vec<[f64; 4]> = (0..across * down)
        .map(|_| [1, 3, 3, 3].map(|choices| random.below(choices) as f64))
        .collect();
    let (dx, dy) = (6 * across + 1, 6 * down + 1);
    Grid::new(dx, dy, 1.0, |x, y| {
        let (u, v) = (x % 6, y % 6);
        let from_side = u.min(v).min(6 - u).min(6 - v);
        let cup = y / 6 * across + x / 6;
        heights.get(cup).map_or(0.0, |cup| cup[from_side])
    })
}

/// A peak beside a hole of the lower threshold: three vertices of the peak's ring are on the hole's, and the
/// fourth, which is outside, stands in the row of the hole's first vertex. So the hole's answer is 0 here,
/// and -1 where that row is not minded.
const BESIDE: [[u8; 5]; 4] = [
    [1, 2, 2, 2, 2],
    [2, 0, 0, 2, 2],
    [1, 0, 2, 0, 1],
    [1, 2, 1, 1, 2],
];

/// This terrain in rows and columns, each alone, with another height in some places.
pub fn peaks_beside_holes(random: &mut Random, across: usize, down: usize) -> Grid {
    Grid::new(6 * across, 5 * down, 1.0, |x, y| {
        if random.once_in(24) {
            return random.below(3) as f64;
        }
        let row = BESIDE.get(y % 5);
        row.and_then(|row| row.get(x % 6))
            .map_or(0.0, |&height| height.into())
    })
}

/// Single samples on even ground, row after row in a square: `count` of them, with heights that repeat.
pub fn dots(count: usize, ground: f64, heights: &[f64]) -> Grid {
    let across = (1..).find(|across| across * across >= count).unwrap_or(1);
    let side = 2 * across + 1;
    Grid::new(side, side, 1.0, |x, y| {
        let number = y / 2 * across + x / 2;
        match x % 2 == 1 && y % 2 == 1 && number < count {
            true => heights[number % heights.len()],
            false => ground,
        }
    })
}

/// A plate with pinholes and peaks in every row. Width and height have this sum, so that the outline has
/// twice as many segments. In front of it stand some dots, so that its points begin anywhere.
pub fn plate(random: &mut Random, sum: usize) -> Grid {
    let width = random.between(3, sum - 3);
    let (height, dots) = (sum - width, random.below(14));
    let dx = width.max(2 * dots) + 1;
    Grid::new(dx, height + 3, 1.0, |x, y| {
        if y == 0 {
            return f64::from(u8::from(x % 2 == 0 && x < 2 * dots));
        }
        let y = y.wrapping_sub(2);
        if x >= width || y >= height {
            return 0.0;
        }
        let inside = x.min(y).min(width - 1 - x).min(height - 1 - y) > 0;
        match inside && x % 2 == 1 && (x / 2 + y) % 2 == 1 {
            true if x % 8 < 4 => 0.0,
            true => 2.0,
            false => 1.0,
        }
    })
}
