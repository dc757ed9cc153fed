//! The crate's own `area` and `contains`, compiled unchanged, in our units: doubled whole coordinates.

use crate::ffi::Answer;
use crate::Pt;

#[path = "../../docs/src/src/area.rs"]
mod area;

pub fn area(ring: &[Pt]) -> Answer {
    Answer::Value(signed_area(ring))
}

/// Four times the crate's area, which is a whole number for halves that floats hold exactly.
pub fn signed_area(ring: &[Pt]) -> i64 {
    let value = 4.0 * area::area(ring);
    assert!(
        value == value.trunc() && value.abs() < 9_007_199_254_740_992.0,
        "an area of {value}"
    );
    value as i64
}

pub fn contains(outer: &[Pt], tested: &[Pt]) -> Answer {
    Answer::Value(area::contains(outer, tested).into())
}

/// The crate's points for doubled whole coordinates.
pub fn halved(words: &[u16]) -> Vec<Pt> {
    let half = |word: u16| f64::from(word) / 2.0;
    words
        .chunks_exact(2)
        .map(|p| Pt {
            x: half(p[0]),
            y: half(p[1]),
        })
        .collect()
}

/// The doubled whole coordinates of the crate's points.
pub fn doubled(points: &[Pt]) -> Vec<u16> {
    points
        .iter()
        .flat_map(|p| [twice(p.x), twice(p.y)])
        .collect()
}

fn twice(half: f64) -> u16 {
    let word = (half * 2.0) as u16;
    assert!(f64::from(word) == half * 2.0, "{half} is no half of a word");
    word
}
