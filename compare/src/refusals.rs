//! Refusal 11 of `area` and `contains`: each case once by name, then lists damaged at random.

use crate::exact::{self, LARGEST, REFUSAL};
use crate::ffi::{self, Answer};
use crate::lists::random_list;
use crate::random::Random;
use crate::tally::{area_call, contains_call, Tally};

const DAMAGED: usize = 20_000;
const REFUSED: Answer = Answer::Refused(REFUSAL);
/// The ring of one sample, closed.
const RING: [u16; 10] = [2, 1, 1, 0, 0, 1, 1, 2, 2, 1];
/// A point whose row holds the ring's first vertex, and one inside the ring's rows but outside it.
const ON_ROW: [u16; 2] = [8, 1];
const OUTSIDE: [u16; 2] = [8, 2];

/// The cases that document 01 names, and their neighbours that pass.
pub fn listed(tally: &mut Tally) {
    empty_rings(tally);
    odd_word_counts(tally);
    limits_of_coordinates(tally);
    faults_behind_the_decision(tally);
}

fn empty_rings(tally: &mut Tally) {
    area_answers(tally, REFUSED, &[]);
    for tested in [&[][..], &ON_ROW, &RING, &[1], &[9_000, 1]] {
        contains_answers(tally, REFUSED, &[], tested);
    }
    for outer in [&RING[..], &ON_ROW, &[0, 0], &[LARGEST, LARGEST]] {
        contains_answers(tally, Answer::Value(0), outer, &[]);
    }
    for outer in [&RING[..9], &[1], &[LARGEST + 1, 0], &[0, LARGEST + 1]] {
        contains_answers(tally, REFUSED, outer, &[]);
    }
}

fn odd_word_counts(tally: &mut Tally) {
    for words in 1..=RING.len() {
        let (short, odd) = (&RING[..words], words % 2 == 1);
        let expected = |exact: Answer| if odd { REFUSED } else { exact };
        area_answers(tally, expected(exact::area(short)), short);
        for tested in [&ON_ROW[..], &OUTSIDE, &RING] {
            contains_answers(
                tally,
                expected(exact::contains(short, tested)),
                short,
                tested,
            );
            contains_answers(
                tally,
                expected(exact::contains(tested, short)),
                tested,
                short,
            );
        }
        contains_answers(tally, expected(exact::contains(short, short)), short, short);
    }
}

/// 8,192 passes and what is above does not, as x or y, in the first, every middle and the last place.
fn limits_of_coordinates(tally: &mut Tally) {
    for place in 0..RING.len() {
        for coordinate in [
            LARGEST - 1,
            LARGEST,
            LARGEST + 1,
            2 * LARGEST,
            32_768,
            u16::MAX,
        ] {
            let mut ring = RING;
            ring[place] = coordinate;
            let expected = |exact: Answer| if coordinate > LARGEST { REFUSED } else { exact };
            area_answers(tally, expected(exact::area(&ring)), &ring);
            for other in [&ON_ROW[..], &OUTSIDE, &RING] {
                contains_answers(tally, expected(exact::contains(&ring, other)), &ring, other);
                contains_answers(tally, expected(exact::contains(other, &ring)), other, &ring);
            }
        }
    }
}

/// A fault refuses the call even where an earlier vertex or pair has decided already.
fn faults_behind_the_decision(tally: &mut Tally) {
    let decided = [OUTSIDE[0], OUTSIDE[1], 3, 3];
    contains_answers(tally, Answer::Value(-1), &RING, &decided);
    for fault in [[LARGEST + 1, 3], [3, LARGEST + 1]] {
        contains_answers(tally, REFUSED, &RING, &[&decided[..2], &fault[..]].concat());
        contains_answers(
            tally,
            REFUSED,
            &[&RING[..], &fault[..], &RING[..2]].concat(),
            &ON_ROW,
        );
        contains_answers(tally, REFUSED, &fault, &fault);
    }
}

/// Random lists with a word taken off, a word too large, nothing left or no fault at all.
pub fn damaged(tally: &mut Tally, random: &mut Random) {
    for _ in 0..DAMAGED {
        let mut lists = [0; 2].map(|_| random_list(random, 0, 12));
        for list in &mut lists {
            damage(random, list);
        }
        let [outer, tested] = &lists;
        area_answers(tally, exact::area(outer), outer);
        contains_answers(tally, exact::contains(outer, tested), outer, tested);
    }
}

fn damage(random: &mut Random, list: &mut Vec<u16>) {
    let place = random.below(list.len());
    match random.below(8) {
        0 => list.truncate(list.len() - 1),
        1 => list.clear(),
        2 => list[place] = LARGEST + 1,
        3 => list[place] = random.between(usize::from(LARGEST) + 1, usize::from(u16::MAX)) as u16,
        4 => list[place] = LARGEST,
        _ => {}
    }
}

fn area_answers(tally: &mut Tally, expected: Answer, ring: &[u16]) {
    tally.same(expected, ffi::area(ring), || area_call(ring));
}

fn contains_answers(tally: &mut Tally, expected: Answer, outer: &[u16], tested: &[u16]) {
    tally.same(expected, ffi::contains(outer, tested), || {
        contains_call(outer, tested)
    });
}
