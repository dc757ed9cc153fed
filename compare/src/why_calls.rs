//! What the calls that explain have to answer, and one call held to it. Then a ring set in whole: every ring's fate,
//! what rings answer for each other, and numbers that no ring has.

use crate::area_checks::{spread, DEAREST_PAIR};
use crate::directory::{HOLE, NOBODY};
use crate::fates::{Fate, Rings, Verdict};
use crate::lent_sets::{described, LentSet};
use crate::moves::Move;
use crate::random::Random;
use crate::ring_sets::{RingSet, FAULTY};
use crate::tally::Tally;
use crate::why_entries::{call, Outputs, Question};

/// A ring or a vertex that is not there.
pub const NOT_THERE: u32 = 15;
/// What becomes of a coordinate, as words.
const STAYED: u32 = 0;
const MOVED: u32 = 1;
const NOT_A_NUMBER: u32 = 2;
/// Where rings times points are more, some rings are asked for their fates and not all.
const DEAREST_SET: usize = 150_000_000;
const FATES: usize = 200;
/// At most how many pairs of rings of one set are asked.
const PAIRS: usize = 36;

/// What a call has to answer.
#[derive(Clone, Copy)]
pub enum Reply {
    Refused(u32),
    Fate(Fate),
    Verdict(Verdict),
    Moves([Move; 2]),
}

impl Reply {
    /// The number that the call returns.
    fn number(self) -> u32 {
        match self {
            Reply::Refused(number) => number,
            _ => 0,
        }
    }

    /// What the outputs then hold.
    fn outputs(self) -> Outputs {
        let mut outputs = Outputs::unset();
        match self {
            Reply::Refused(_) => {}
            Reply::Fate(fate) => {
                let words = [fate.class, fate.owner, fate.vertex];
                (0..).zip(words).for_each(|(k, w)| outputs.set_word(k, w));
            }
            Reply::Verdict(verdict) => {
                outputs.set_word(0, verdict.answer as i32 as u32);
                outputs.set_word(1, verdict.vertex);
            }
            Reply::Moves(moves) => {
                (0..)
                    .zip(moves)
                    .for_each(|(k, m)| set_move(&mut outputs, k, m));
            }
        }
        outputs
    }
}

/// The kind of a coordinate's move, and the fraction where there is one.
fn set_move(outputs: &mut Outputs, coordinate: usize, moved: Move) {
    match moved {
        Move::Stayed => outputs.set_word(coordinate, STAYED),
        Move::NotANumber => outputs.set_word(coordinate, NOT_A_NUMBER),
        Move::Moved(fraction) => {
            outputs.set_word(coordinate, MOVED);
            outputs.set_float(coordinate, fraction);
        }
    }
}

/// One call, held to what it has to answer and to leave.
pub fn compare_call(tally: &mut Tally, lent: &LentSet, question: Question, reply: Reply) {
    let (number, mut outputs) = (reply.number(), Outputs::unset());
    let got = call(question, lent, &mut outputs);
    let difference = match got == number {
        true => outputs.difference(question, &reply.outputs()),
        false => Some(format!("number returned: expected {number}, got {got}")),
    };
    tally.holds(difference, || {
        format!("{}, {}", question.shown(), described(lent.set))
    });
}

/// A set without fault: fates, answers, and numbers that are not there. Returns the fates that were asked for.
pub fn compare_fates(
    tally: &mut Tally,
    random: &mut Random,
    set: &RingSet,
    rings: &Rings,
) -> Vec<(usize, Fate)> {
    let (lent, count) = (LentSet::new(set), rings.count());
    let is_dear = count * set.points.len() / 2 > DEAREST_SET;
    let asked = spread(random, count, if is_dear { FATES } else { count });
    let fates: Vec<_> = asked.iter().map(|&ring| (ring, rings.fate(ring))).collect();
    for &(ring, fate) in &fates {
        let question = Question::Fate { ring: ring as u32 };
        compare_call(tally, &lent, question, Reply::Fate(fate));
    }
    for (outer, tested) in pairs(random, rings, &fates) {
        let question = Question::Answer {
            polygon: outer as u32,
            ring: tested as u32,
        };
        rings.hold(tally, outer, tested);
        let verdict = rings.verdict(outer, tested);
        compare_call(tally, &lent, question, Reply::Verdict(verdict));
    }
    compare_absent(tally, random, &lent);
    lent.compare_still(tally);
    fates
}

/// Pairs of rings: all if they are few, else some, and of some holes the owner and a ring before it. Those that take
/// too long are left out.
fn pairs(random: &mut Random, rings: &Rings, fates: &[(usize, Fate)]) -> Vec<(usize, usize)> {
    let count = rings.count();
    let chosen = spread(random, count * count, PAIRS);
    let mut pairs: Vec<_> = chosen.iter().map(|k| (k / count, k % count)).collect();
    if count * count > PAIRS {
        for _ in 0..PAIRS / 4 {
            let (hole, Fate { class, owner, .. }) = random.pick(fates);
            if class == HOLE && owner != NOBODY {
                pairs.push((owner as usize, hole));
                pairs.push((random.below(owner as usize + 1), hole));
            }
        }
    }
    pairs.retain(|&(outer, tested)| rings.points(outer) * rings.points(tested) <= DEAREST_PAIR);
    pairs
}

/// Numbers from this one on: the first two, two whose words or bytes come back to the first in 32 bits, and the last.
pub fn absent(first: u32) -> [u32; 5] {
    let next = first.saturating_add(1);
    [first, next, 1 << 30, 1 << 31, u32::MAX].map(|number| number.max(first))
}

/// Numbers that no stated ring has, alone and beside one that is there.
fn compare_absent(tally: &mut Tally, random: &mut Random, lent: &LentSet) {
    let (rings, refused) = (lent.set.rings, Reply::Refused(NOT_THERE));
    let there = random.below(rings.max(1) as usize) as u32;
    for absent in absent(rings) {
        compare_call(tally, lent, Question::Fate { ring: absent }, refused);
        for (polygon, ring) in [(absent, there), (there, absent), (absent, absent)] {
            compare_call(tally, lent, Question::Answer { polygon, ring }, refused);
        }
    }
}

/// A faulty set, which draws 9 whatever ring is asked for, there or not.
pub fn compare_faulty(tally: &mut Tally, random: &mut Random, set: &RingSet) {
    let lent = LentSet::new(set);
    let (rings, refused) = (set.rings, Reply::Refused(FAULTY));
    let there = random.below(rings.max(1) as usize) as u32;
    let absent = absent(rings);
    for ring in [0, there].into_iter().chain(absent) {
        compare_call(tally, &lent, Question::Fate { ring }, refused);
        let polygon = random.pick(&[0, there, absent[0], absent[4]]);
        compare_call(tally, &lent, Question::Answer { polygon, ring }, refused);
    }
    lent.compare_still(tally);
}
