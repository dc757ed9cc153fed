//! Area, containment and refusal 11 in whole numbers, written down from document 01 and nothing else.

use crate::ffi::Answer;

/// The largest number of points of a ring.
pub const MOST_POINTS: usize = 67_108_864;
/// The largest doubled coordinate.
pub const LARGEST: u16 = 8_192;
/// The refusal of `area` and `contains`.
pub const REFUSAL: u32 = 11;

/// Words have 16 bits, so no product here passes 2^34 and no area 2^60: i64 is exact.
type Point = (i64, i64);

fn points(words: &[u16]) -> impl DoubleEndedIterator<Item = Point> + '_ {
    words.chunks_exact(2).map(|p| (p[0].into(), p[1].into()))
}

/// The pairs (last, first), (first, second), and so on.
fn pairs(words: &[u16]) -> impl Iterator<Item = (Point, Point)> + '_ {
    let last = points(words).next_back();
    points(words).scan(last, |before, at| {
        before.replace(at).map(|before| (before, at))
    })
}

/// What `area` has to answer: the sum over i of y(i-1)·x(i) - x(i-1)·y(i).
pub fn area(ring: &[u16]) -> Answer {
    if ring.is_empty() || is_faulty(ring) {
        return Answer::Refused(REFUSAL);
    }
    Answer::Value(
        pairs(ring)
            .map(|(before, at)| before.1 * at.0 - before.0 * at.1)
            .sum(),
    )
}

/// What `contains` has to answer: the first vertex whose answer is not 0 decides; if there is none, 0.
pub fn contains(outer: &[u16], tested: &[u16]) -> Answer {
    if outer.is_empty() || is_faulty(outer) || is_faulty(tested) {
        return Answer::Refused(REFUSAL);
    }
    let mut answers = points(tested).map(|point| point_against(outer, point));
    Answer::Value(answers.find(|&answer| answer != 0).unwrap_or(0))
}

/// An odd word count, over 67,108,864 points, or a coordinate above 8,192.
fn is_faulty(words: &[u16]) -> bool {
    words.len() % 2 != 0 || words.len() / 2 > MOST_POINTS || words.iter().any(|&w| w > LARGEST)
}

fn point_against(ring: &[u16], point: Point) -> i64 {
    let mut sign = -1;
    for (i, j) in pairs(ring) {
        if is_on(point, i, j) {
            return 0;
        }
        if (i.1 > point.1) != (j.1 > point.1) && is_left_of_crossing(point, i, j) {
            sign = -sign;
        }
    }
    sign
}

/// Collinear with the two ends, and between them, ends included: by y when the ends have equal x, else by x.
fn is_on(point: Point, i: Point, j: Point) -> bool {
    let collinear = (j.0 - i.0) * (point.1 - i.1) == (point.0 - i.0) * (j.1 - i.1);
    let between = |a: i64, b: i64, c: i64| a.min(c) <= b && b <= a.max(c);
    collinear
        && if i.0 == j.0 {
            between(i.1, point.1, j.1)
        } else {
            between(i.0, point.0, j.0)
        }
}

/// Whether the point's x is less than the abscissa at which the line through both ends meets the point's
/// row: xi + (xj - xi)·(y - yi) / (yj - yi), as one fraction. The ends have different y here.
fn is_left_of_crossing(point: Point, i: Point, j: Point) -> bool {
    let denominator = j.1 - i.1;
    let numerator = i.0 * denominator + (j.0 - i.0) * (point.1 - i.1);
    if denominator > 0 {
        point.0 * denominator < numerator
    } else {
        point.0 * denominator > numerator
    }
}
