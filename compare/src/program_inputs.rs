//! Inputs of the program, and what document 01 says of one: a line `dx dy t`, then dy lines of dx numbers; numbers
//! are 0 to 65,535, plain decimal without leading zeros, one space between, each line ended by a newline, sides 1 to
//! 32, nothing after.

use crate::nested::{cups, diamonds, dots, frames, peaks_beside_holes, plate, spiral};
use crate::random::Random;
use crate::rings::{random_grid, Grid};
use crate::shapes;
use std::fmt::Write;

const LONGEST_SIDE: usize = 32;
const LARGEST: usize = 65_535;

/// Document 01's example, and what it prints by document 02.
pub const EXAMPLE: &[u8] = b"1 1 5\n5\n";
pub const EXAMPLE_TEXT: &[u8] =
    b"{\"type\":\"MultiPolygon\",\"coordinates\":[[[[1,0.5],[0.5,1],[0,0.5],[0.5,0],[1,0.5]]]]}\n";

/// Inputs that pass, where a neighbour does not.
#[rustfmt::skip]
pub const GOOD_INPUTS: &[&[u8]] = &[
    EXAMPLE, b"1 1 5\n4\n", b"1 1 0\n0\n", b"1 1 65535\n65535\n", b"1 1 65535\n65534\n", b"1 1 10\n10\n",
    b"1 1 65530\n65529\n", b"1 1 59999\n60000\n", b"1 1 1\n0\n", b"2 1 5\n5 6\n", b"1 2 5\n5\n6\n",
    b"3 2 10\n9 10 11\n0 1 65535\n", b"2 2 100\n0 100\n100 0\n",
];

/// Faults, a line a kind: nothing, or no whole text; newlines; carriage returns; spaces; other white space; signs,
/// points and other notations; leading zeros; numbers that are too large, also such as come back in 16, 32 or 64
/// bits; sides; numbers too few or too many; rows too few or too many; letters, other bytes and NUL.
#[rustfmt::skip]
pub const FAULTY_INPUTS: &[&[u8]] = &[
    b"", b"1", b"1 1", b"1 1 5", b"1 1 5\n5", b"\n1 1 5\n5",
    b"\n", b"\n\n", b"1 1 5\n5\n\n", b"1 1 5\n\n5\n", b"\n1 1 5\n5\n", b"1 1\n5\n5\n", b"1\n1\n5\n5\n",
    b"1 1 5\r\n5\r\n", b"1 1 5\n5\r\n", b"1 1 5\r\n5\n", b"1 1 5\r5\r", b"1 1 5\n5\n\r", b"1 1 5\n\r5\n",
    b" 1 1 5\n5\n", b"1 1 5 \n5\n", b"1 1 5\n 5\n", b"1 1 5\n5 \n", b"1 1 5\n5\n ", b"1  1 5\n5\n", b"1 1  5\n5\n",
    b"2 1 5\n5  6\n", b" ", b"1 1 5\n \n",
    b"1\t1\t5\n5\n", b"1 1\t5\n5\n", b"2 1 5\n5\t6\n", b"1 1 5\n5\t\n", b"1 1 5\x0B5\n", b"1 1 5\n5\x0C\n", b"1\xA01 5\n5\n",
    b"+1 1 5\n5\n", b"1 1 +5\n5\n", b"1 1 5\n+5\n", b"1 -1 5\n5\n", b"1 1 -5\n5\n", b"1 1 5\n-5\n", b"1 1 -0\n0\n",
    b"1 1 5.0\n5\n", b"1 1 5\n5.\n", b"1 1 5\n.5\n", b"1.0 1 5\n5\n", b"1 1 5\n5,0\n", b"1,1,5\n5\n", b"1 1 5\n5;\n",
    b"1 1 0x5\n5\n", b"1 1 5\n5e0\n", b"1 1 5\n1_0\n", b"1 1 5\n'5'\n", b"1 1 5\n#5\n", b"1 1 5\n:\n", b"1 1 5\n/\n",
    b"01 1 5\n5\n", b"1 01 5\n5\n", b"1 1 05\n5\n", b"1 1 5\n05\n", b"1 1 00\n0\n", b"1 1 5\n00\n", b"1 1 5\n000005\n",
    b"1 1 65536\n5\n", b"1 1 5\n65536\n", b"1 1 5\n65540\n", b"1 1 5\n65541\n", b"1 1 5\n70000\n", b"1 1 5\n99999\n",
    b"1 1 5\n100000\n", b"1 1 5\n655350\n", b"1 1 5\n4294967301\n", b"1 1 4294967301\n5\n",
    b"1 1 5\n18446744073709551621\n", b"1 1 18446744073709551621\n5\n",
    b"1 1 5\n340282366920938463463374607431768211461\n",
    b"0 1 5\n\n", b"0 1 5\n", b"1 0 5\n", b"1 0 5\n\n", b"0 0 5\n", b"257 1 5\n5\n", b"1 257 5\n5\n", b"65537 1 5\n5\n",
    b"1 65537 5\n5\n", b"4294967297 1 5\n5\n", b"1 4294967297 5\n5\n", b"18446744073709551617 1 5\n5\n",
    b"1 1\n5\n", b"1 1 \n5\n", b"1 1 5 5\n5\n", b"1 1 5\n\n", b"1 1 5\n5 5\n", b"2 1 5\n5\n", b"2 1 5\n5 6 7\n",
    b"2 2 5\n5 6\n7\n", b"2 2 5\n5\n6 7\n", b"2 2 5\n5 6 7\n8\n", b"2 2 5\n5 6 7 8\n", b"1 1 5 5\n", b"2 1 5\n5\n6\n",
    b"1 2 5\n5\n", b"1 1 5\n5\n5\n", b"1 2 5\n5 6\n", b"2 2 5\n5 6\n7 8\n9 10\n", b"1 1 5\n5\n1 1 5\n5\n", b"1 1 5\n",
    b"a", b"a\n", b"1 1 5\na\n", b"1 1 a\n5\n", b"a 1 5\n5\n", b"1 1 5a\n5\n", b"1 1 5\n5a\n", b"1 1 5\nO\n", b"nan", b"1 1 NaN\n5\n",
    b"\x001 1 5\n5\n", b"1 1 5\n5\n\x00", b"1 1 5\n5\x00\n", b"1\x001 5\n5\n", b"1 1 5\x005\n", b"\x00",
    b"1 1 5\n\xB5\n", b"1 1 5\n5\n\xFF", b"\xEF\xBB\xBF1 1 5\n5\n", b"1 1 5\n\xD9\xA5\n", b"\x801 1 5\n5\n", b"1\xC2\xA01 5\n5\n",
    b"1 1 5\n5\n\x1A", b"1 1 5\n5\n5", b"1 1 5\n5\n0", b"1 1 5\n5\n\n\n",
];

/// A beginning, and what comes behind it over and over.
#[rustfmt::skip]
pub const ENDLESS: &[(&[u8], &[u8])] = &[
    (b"", b"1"), (b"", b"0"), (b"", b" "), (b"", b"\n"), (b"", b"\x00"), (b"", b"\xFF"), (b"", EXAMPLE), (b"", b"5 "),
    (EXAMPLE, b"\n"), (b"1 1 5\n", b"5"), (b"1 1 5\n", b"5\n"), (b"1 1 5\n", b"0"), (b"32 32 5\n", b"5 "), (b"32 32 5\n", b"5\n"),
];

/// A terrain as an input, its values and threshold whole numbers.
pub fn written(grid: &Grid) -> Vec<u8> {
    let mut text = format!("{} {} {}\n", grid.dx, grid.dy, grid.threshold);
    for row in grid.values.chunks(grid.dx) {
        for (x, value) in row.iter().enumerate() {
            let space = if x > 0 { " " } else { "" };
            write!(text, "{space}{value}").expect("a string takes every number");
        }
        text.push('\n');
    }
    text.into_bytes()
}

/// The terrain of an input without fault.
pub fn read(input: &[u8]) -> Option<Grid> {
    let text = std::str::from_utf8(input).ok()?.strip_suffix('\n')?;
    let mut lines = text.split('\n').map(numbers);
    let (dx, dy, threshold) = match lines.next()??[..] {
        [dx, dy, threshold] => (dx.into(), dy.into(), threshold.into()),
        _ => return None,
    };
    let rows = lines.collect::<Option<Vec<_>>>()?;
    let sides = 1..=LONGEST_SIDE;
    let fits = sides.contains(&dx)
        && sides.contains(&dy)
        && rows.len() == dy
        && rows.iter().all(|row| row.len() == dx);
    fits.then(|| Grid::new(dx, dy, threshold, |x, y| rows[y][x].into()))
}

fn numbers(line: &str) -> Option<Vec<u16>> {
    line.split(' ').map(number).collect()
}

fn number(word: &str) -> Option<u16> {
    let plain = word.bytes().all(|byte| byte.is_ascii_digit());
    let leading_zero = word.len() > 1 && word.starts_with('0');
    match plain && !leading_zero {
        true => word.parse().ok(),
        false => None,
    }
}

/// Terrains of every shape, rings in rings and in rows, and the limits.
pub fn terrains(random: &mut Random, mut compare: impl FnMut(&mut Random, &[u8])) {
    shapes::every(random, LONGEST_SIDE, |random, dx, dy| {
        let grid = random_grid(random, dx, dy);
        let grid = whole(random, &grid);
        compare(random, &written(&grid));
        1
    });
    for grid in named(random).into_iter().chain(limits()) {
        compare(random, &written(&grid));
        let grid = whole(random, &grid);
        compare(random, &written(&grid));
    }
}

/// The same samples above another threshold, with whole numbers for values: the threshold and its neighbours, the
/// limits, and any others.
fn whole(random: &mut Random, grid: &Grid) -> Grid {
    let any = random.between(1, LARGEST);
    let threshold = random.pick(&[1, 2, 10, 256, 9_999, LARGEST, any, any]);
    let values = grid.values.iter().map(|&height| {
        let value = match (height >= grid.threshold, random.below(4)) {
            (true, 0) => threshold,
            (true, 1) => LARGEST,
            (true, _) => random.between(threshold, LARGEST),
            (false, 0) => threshold - 1,
            (false, 1) => 0,
            (false, _) => random.below(threshold),
        };
        value as f64
    });
    Grid {
        values: values.collect(),
        threshold: threshold as f64,
        ..*grid
    }
}

/// The terrains of contours and bands that are small enough.
fn named(random: &mut Random) -> Vec<Grid> {
    let mut grids = Vec::new();
    for side in 1..=LONGEST_SIDE {
        grids.push(frames(side, LONGEST_SIDE - side / 2, &[1.0, 0.0]));
        grids.push(diamonds(side, &[1.0, 0.0, 2.0]));
        grids.push(dots(7 * side, 1.0, &[0.0]));
    }
    for side in 6..=LONGEST_SIDE {
        let holes = random.below(8);
        grids.push(spiral(random, side, 2 + side % 2 * 2, holes));
        grids.push(plate(random, side));
    }
    for (across, down) in (1..=5).flat_map(|across| (1..=5).map(move |down| (across, down))) {
        grids.push(cups(random, across, down));
        grids.push(peaks_beside_holes(random, across, down));
    }
    grids
}

/// Everything above and nothing, as short and as long as an input may be; the most rings, the most open lines, and
/// long rows and columns.
fn limits() -> Vec<Grid> {
    type Rule = fn(usize, usize) -> usize;
    let rules: [(f64, Rule); 9] = [
        (0.0, |_, _| 0),
        (65_535.0, |_, _| LARGEST),
        (65_535.0, |_, _| LARGEST - 1),
        (1.0, |x, y| (x + y) % 2),
        (1.0, |x, y| (x + y + 1) % 2),
        (1.0, |x, y| usize::from(y == 31 || x % 2 == 0)),
        (1.0, |x, y| usize::from(x == 31 || y % 2 == 0)),
        (500.0, |x, y| 32 * y + x),
        (40_000.0, |x, y| (x * y * 9_973 + 77 * x) % 65_536),
    ];
    let sides = [(32, 32), (32, 1), (1, 32)];
    let drawn = |(dx, dy)| {
        rules.map(|(threshold, rule)| Grid::new(dx, dy, threshold, |x, y| rule(x, y) as f64))
    };
    sides.into_iter().flat_map(drawn).collect()
}

/// Other rows and columns than stated, sides that are too long, rows that have a number of the next one, and a byte
/// behind the longest input.
pub fn wrong_sizes(mut compare: impl FnMut(&[u8])) {
    for [dx, dy] in [[1, 1], [3, 2], [1, 32], [32, 1], [31, 32], [32, 32]] {
        for size in [[dx + 1, dy], [dx, dy + 1], [dx - 1, dy], [dx, dy - 1]] {
            compare(&sized([dx, dy], size));
        }
    }
    for size in [
        [33, 1],
        [1, 33],
        [33, 32],
        [32, 33],
        [33, 33],
        [64, 64],
        [100, 1],
        [1, 1_000],
    ] {
        compare(&sized(size, size));
    }
    let input = sized([3, 9], [3, 9]);
    let ends = (0..input.len() - 1).filter(|&place| input[place] == b'\n');
    for end in ends.skip(1) {
        let mut moved = input.clone();
        moved[end] = b' ';
        moved[end + 2] = b'\n';
        compare(&moved);
    }
    let longest = [LONGEST_SIDE; 2];
    let longest = Grid::new(longest[0], longest[1], 65_535.0, |_, _| 65_535.0);
    for byte in [b'\n', b' ', b'5', 0] {
        compare(&[written(&longest), vec![byte]].concat());
    }
}

/// An input that states these sides and has rows of other ones. All numbers are 5.
fn sized([dx, dy]: [usize; 2], [columns, rows]: [usize; 2]) -> Vec<u8> {
    let row = format!("{}\n", vec!["5"; columns].join(" "));
    format!("{dx} {dy} 5\n{}", row.repeat(rows)).into_bytes()
}

/// Bytes that an input has, and some that it may not have.
const BYTES: &[u8] = b"05 \t\n\r+-.a/:\x00\x80";

/// Each place of two short inputs with one of these bytes more, with one in place of its own, and without its own.
pub fn changed(mut compare: impl FnMut(&[u8])) {
    for input in [EXAMPLE, b"2 2 10\n9 10\n65535 0\n"] {
        for place in 0..=input.len() {
            let (before, behind) = input.split_at(place);
            for byte in BYTES {
                compare(&[before, &[*byte], behind].concat());
            }
            if let Some((_, rest)) = behind.split_first() {
                compare(&[before, rest].concat());
                for byte in BYTES {
                    compare(&[before, &[*byte], rest].concat());
                }
            }
        }
    }
}

/// A terrain's input with one or two changes: bytes more, fewer or others, lines more or fewer, or an early end.
pub fn damaged(random: &mut Random) -> Vec<u8> {
    let longest = random.pick(&[3, 8, LONGEST_SIDE]);
    let [dx, dy] = [0; 2].map(|_| random.between(1, longest));
    let grid = random_grid(random, dx, dy);
    let mut input = written(&whole(random, &grid));
    for _ in 0..random.between(1, 2) {
        damage(random, &mut input);
    }
    input
}

fn damage(random: &mut Random, input: &mut Vec<u8>) {
    if input.is_empty() {
        return;
    }
    let place = random.below(input.len());
    match random.below(8) {
        0 => input.truncate(place),
        1 => input.push(random.pick(BYTES)),
        2 => input.insert(place, random.pick(BYTES)),
        3 => input.insert(place, random.next() as u8),
        4 => input[place] = random.pick(BYTES),
        5 => input[place] = random.pick(b"0123456789"),
        6 => drop(input.remove(place)),
        _ => {
            let lines = input.split_inclusive(|&byte| byte == b'\n');
            let mut lines: Vec<Vec<u8>> = lines.map(<[u8]>::to_vec).collect();
            let line = lines.remove(random.below(lines.len()));
            if random.once_in(2) {
                let place = random.below(lines.len() + 1);
                lines.splice(place..place, [line.clone(), line]);
            }
            *input = lines.concat();
        }
    }
}
