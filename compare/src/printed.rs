//! What the examples in C and those of the Rust binding have to print. `rings`: rows 6 to 8 of document 01's
//! dozen, areas, containment and a refusal. `regions`: a contour and two bands as polygons and holes, and a
//! refusal. `lines`: the lines of row 12, smoothed, and those of a small terrain in three ways, and a refusal.
//! The crate gives what the rows leave out.

use crate::asked::Asked;
use crate::drawing::Drawing;
use crate::ffi::Answer;
use crate::kinds::Kind;
use crate::lines::Pen;
use crate::oracle;
use crate::rings::{Grid, Pair};
use crate::tally::{listed, Tally};
use std::ops::Range;

/// Rows 6 and 7.
const RING_0: &str = "(3,4)(2,3)(3,2)(4,3)(3,4)";
const AREAS: [i64; 2] = [-4, 68];
/// A plate with a hole and a peak, and a small hill beside it.
const PLATE: [[u8; 7]; 3] = [
    [1, 1, 1, 1, 1, 0, 2],
    [1, 0, 1, 2, 1, 0, 1],
    [1, 1, 1, 1, 1, 0, 0],
];

/// Row 12: where its vertex (1, 0.5) moves to.
const MOVED: &str = "(0.75,0.5)";
/// A hill with a pit.
const HILL: [[u8; 4]; 3] = [[4, 4, 2, 0], [4, 0, 4, 2], [2, 4, 2, 0]];

/// The text of an example.
fn expected(example: &str) -> String {
    match example {
        "rings" => rings(),
        "regions" => regions(),
        "lines" => lines(),
        other => panic!("no example {other}"),
    }
}

/// One line a ring.
fn rings() -> String {
    let grid = Grid::new(3, 3, 1.0, |x, y| if (x, y) == (1, 1) { 0.0 } else { 1.0 });
    let rings = grid.rings();
    assert!(rings.len() == AREAS.len(), "the dozen has two rings");
    let mut text = String::new();
    for (number, (ring, area)) in rings.iter().zip(AREAS).enumerate() {
        assert!(oracle::area(&ring.points) == Answer::Value(area), "row 7");
        let points = listed(&ring.words);
        assert!(number > 0 || points == RING_0, "row 6");
        text.push_str(&format!("ring {number}: {points} area {area}\n"));
    }
    let held = oracle::contains(&rings[1].points, &rings[0].points);
    assert!(held == Answer::Value(1), "row 8");
    text.push_str(&format!("ring 1 against ring 0: {held}\n"));
    text.push_str("one value fewer: refusal 2\n");
    text
}

/// A title and one line a ring for each contour or band.
fn regions() -> String {
    let grid = Grid::new(7, 3, 1.0, |x, y| PLATE[y][x].into());
    let mut text = "contour at 1\n".to_string();
    text.push_str(&polygons(&Asked::new(Kind::Contours, &grid)));
    for k in 0..2 {
        let list = vec![1.0, 2.0, 2.0];
        text.push_str(&format!("band from {} to {}\n", list[k], list[k + 1]));
        text.push_str(&polygons(&Asked::band(&grid, &Pair { list, k })));
    }
    text.push_str("band from the last threshold: refusal 4\n");
    text
}

/// Each polygon with its holes, then the dropped holes.
fn polygons(asked: &Asked) -> String {
    let drawing = Drawing::of(asked).expect("a question that passes");
    let listed = |what: &str, ring: &Range<usize>| {
        format!("{what} {}\n", drawing.points.listed(ring.clone()))
    };
    let records: Vec<_> = drawing.records().collect();
    let mut text = String::new();
    for (number, (polygon, _, _)) in records.iter().enumerate().filter(|(_, r)| r.1 == 0) {
        text.push_str(&listed("polygon", polygon));
        let holes = records.iter().filter(|r| (r.1, r.2) == (1, number as u32));
        text.extend(holes.map(|(hole, _, _)| listed("  hole", hole)));
    }
    let dropped = records.iter().filter(|r| r.2 == u32::MAX);
    text.extend(dropped.map(|(hole, _, _)| listed("dropped", hole)));
    text
}

/// A title and one line a line for each terrain and pen.
fn lines() -> String {
    let row_12 = Grid::new(2, 1, 1.0, |x, _| 4.0 * x as f64);
    let hill = Grid::new(4, 3, 1.0, |x, y| HILL[y][x].into());
    let (nowhere, moved) = ([0.0, 0.0, 1.0, 1.0], [10.0, 20.0, 0.5, 0.25]);
    let mut text = String::new();
    for (title, grid, smooth, placement) in [
        ("two samples, smoothed", &row_12, 1, nowhere),
        ("as drawn", &hill, 0, nowhere),
        ("smoothed", &hill, 1, nowhere),
        ("smoothed and placed", &hill, 1, moved),
    ] {
        let asked = Asked::lines(grid, Pen { smooth, placement });
        let drawing = Drawing::of(&asked).expect("a question that passes");
        text.push_str(&format!("{title}\n"));
        for (line, _, _) in drawing.records() {
            text.push_str(&format!("line {}\n", drawing.points.listed(line)));
        }
    }
    let moved = text.lines().nth(1).map(|line| line.contains(MOVED));
    assert!(moved == Some(true), "row 12");
    text.push_str("one value fewer: refusal 2\n");
    text
}

/// Compares what a program printed, line by line.
pub fn compare(tally: &mut Tally, example: &str, name: &str, printed: &str) {
    let expected = expected(example);
    let (mut wanted, mut got) = (expected.lines(), printed.lines());
    let mut lines = (1..).map(|number| (number, wanted.next(), got.next()));
    let first = lines.find(|(_, wanted, got)| wanted != got || wanted.is_none());
    let difference = match first {
        _ if printed == expected => None,
        Some((number, wanted, got)) => {
            let shown = |line: Option<&str>| line.unwrap_or("nothing").to_string();
            let (wanted, got) = (shown(wanted), shown(got));
            Some(format!("line {number}: expected {wanted}, got {got}"))
        }
        None => None,
    };
    tally.holds(difference, || format!("what {name} prints of {example}"));
}
