//! Calls of area and containment. The words that a call is lent stand between guard words above every limit,
//! and the place for its result stands between two others, which a call may not change either.

use crate::declared::{contour_area, contour_contains};
use crate::guarded::Guarded;
use std::fmt;

/// What a call answered, or what is expected of it.
#[derive(Clone, Copy, PartialEq)]
pub enum Answer {
    /// Returned 0, and this is the result.
    Value(i64),
    /// Returned this refusal and left the result as it was.
    Refused(u32),
    /// Changed what it must leave alone; never expected.
    Changed(&'static str),
}

impl fmt::Display for Answer {
    fn fmt(&self, f: &mut fmt::Formatter) -> fmt::Result {
        match self {
            Answer::Value(value) => write!(f, "{value}"),
            Answer::Refused(number) => write!(f, "refusal {number}"),
            Answer::Changed(what) => write!(f, "a change of {what}"),
        }
    }
}

const GUARD: u16 = 0xFFFF;
/// Stands in the result before a call: no area and no containment answer.
const UNSET: i32 = 0x5A5A_5A5A;

/// `contour_area` on a guarded copy of the words.
pub fn area(ring: &[u16]) -> Answer {
    let mut lent = Guarded::new(ring, GUARD);
    let answer = area_in_place(lent.numbers());
    if lent.is_still(ring) {
        answer
    } else {
        Answer::Changed("the ring's words")
    }
}

/// `contour_contains` on guarded copies of both rings' words.
pub fn contains(outer: &[u16], tested: &[u16]) -> Answer {
    let [mut lent_outer, mut lent_tested] = [outer, tested].map(|ring| Guarded::new(ring, GUARD));
    let answer = contains_in_place(lent_outer.numbers(), lent_tested.numbers());
    if !lent_outer.is_still(outer) {
        Answer::Changed("the outer ring's words")
    } else if !lent_tested.is_still(tested) {
        Answer::Changed("the tested ring's words")
    } else {
        answer
    }
}

/// `contour_area` on these very words; whoever calls this sees to it that they stayed.
pub fn area_in_place(ring: &mut [u16]) -> Answer {
    let mut place = [i64::from(UNSET); 3];
    let ring_at = ring.as_mut_ptr();
    let number = unsafe { contour_area(ring_at, ring.len(), place.as_mut_ptr().add(1)) };
    read(number, place)
}

/// `contour_contains` on these very words; whoever calls this sees to it that they stayed.
pub fn contains_in_place(outer: &mut [u16], tested: &mut [u16]) -> Answer {
    let mut place = [UNSET; 3];
    let (outer_at, tested_at) = (outer.as_mut_ptr(), tested.as_mut_ptr());
    let number = unsafe {
        let answer_at = place.as_mut_ptr().add(1);
        contour_contains(outer_at, outer.len(), tested_at, tested.len(), answer_at)
    };
    read(number, place.map(i64::from))
}

fn read(number: u32, place: [i64; 3]) -> Answer {
    let unset = i64::from(UNSET);
    if place[0] != unset || place[2] != unset {
        Answer::Changed("what stands beside the result")
    } else if number == 0 {
        Answer::Value(place[1])
    } else if place[1] != unset {
        Answer::Changed("the result of a refused call")
    } else {
        Answer::Refused(number)
    }
}
