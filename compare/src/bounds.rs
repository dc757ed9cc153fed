//! The bound of 67,108,864 points: a list of exactly that many passes, one of a point more is refused.
//! Long lists are lent themselves and not as guarded copies.

use crate::exact::{self, LARGEST, MOST_POINTS, REFUSAL};
use crate::ffi::{area_in_place, contains_in_place, Answer};
use crate::oracle;
use crate::tally::Tally;

const REFUSED: Answer = Answer::Refused(REFUSAL);
/// The short list of each call.
const SMALL: [u16; 2] = [300, 100];

/// Round the corners of the whole domain, so that the sums grow large. The last point decides what
/// `SMALL` is answered.
pub fn many_points(tally: &mut Tally) {
    let corners = [0, 0, 0, LARGEST, LARGEST, LARGEST, LARGEST, 0];
    let mut long = Long::new(corners, [500, 0]);
    let mut small = SMALL;

    let expected = oracle::area(&oracle::halved(long.most()));
    tally.same(expected, area_in_place(long.most()), || said("area"));
    tally.same(REFUSED, area_in_place(&mut long.words), || {
        said("area, a point more")
    });

    let expected = exact::contains(long.most(), &SMALL);
    let got = contains_in_place(long.most(), &mut small);
    tally.same(expected, got, || said("contains, outer ring"));
    let got = contains_in_place(&mut long.words, &mut small);
    tally.same(REFUSED, got, || said("contains, outer ring, a point more"));
    let got = contains_in_place(&mut small, &mut long.words);
    tally.same(REFUSED, got, || said("contains, tested ring, a point more"));
    long.compare(tally, &small);
}

/// All of the tested ring but its last vertex stands in the row of the outer ring's only one.
pub fn many_tested_points(tally: &mut Tally) {
    let row = SMALL[1];
    let mut long = Long::new([0, row, 9, row, LARGEST, row, 9, row], [9, row + 1]);
    let mut small = SMALL;
    let expected = exact::contains(&SMALL, long.most());
    let got = contains_in_place(&mut small, long.most());
    tally.same(expected, got, || said("contains, tested ring"));
    long.compare(tally, &small);
}

/// As many points as may be, made of rounds of four and a last one, and the point `SMALL` behind them.
struct Long {
    round: [u16; 8],
    last: [u16; 2],
    words: Vec<u16>,
}

impl Long {
    fn new(round: [u16; 8], last: [u16; 2]) -> Self {
        let mut words = round.repeat(MOST_POINTS / 4);
        words.truncate(2 * MOST_POINTS - 2);
        words.extend(last);
        words.extend(SMALL);
        Long { round, last, words }
    }

    /// The list without the point too many.
    fn most(&mut self) -> &mut [u16] {
        &mut self.words[..2 * MOST_POINTS]
    }

    /// Compares the words lent with what was written into them.
    fn compare(&self, tally: &mut Tally, small: &[u16]) {
        let (rounds, rest) = self.words.split_at(2 * MOST_POINTS - 8);
        let end = [&self.round[..6], &self.last, &SMALL].concat();
        let same = rounds.chunks_exact(8).all(|round| round == self.round);
        let answer = if same && rest == end && small == SMALL {
            Answer::Value(0)
        } else {
            Answer::Changed("the words lent")
        };
        tally.same(Answer::Value(0), answer, || said("words after these calls"));
    }
}

fn said(what: &str) -> String {
    format!("{what}, at the bound of {MOST_POINTS} points")
}
