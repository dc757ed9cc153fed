//! A terrain given to the row form call by call: each call's answer, and every word that it could have written. The
//! work tables stand at another place in each call, with other words past those that the last call left.

use crate::asked::Asked;
use crate::calls::{by_rule, described};
use crate::declared::RECORD_WORDS;
use crate::directory::{record, BARE};
use crate::kinds::Kind;
use crate::lent::{Lent, Room, Table, RINGS};
use crate::oracle::halved;
use crate::points::Points;
use crate::random::Random;
use crate::rings::Grid;
use crate::row_drawing::Turn;
use crate::row_entries::{begin, call, Next, State, STATE_WORDS};
use crate::shapes::LONGEST_SIDE;
use crate::tally::Tally;

/// The tables whose words a call finds as the last one left them.
pub const WORK: [Table; 2] = [Table::Lines, Table::Links];
const GUARD: u32 = 0xC0DE_CA5E;

pub struct Feed<'a> {
    grid: &'a Grid,
    turns: &'a [Turn],
    /// How many turns are taken.
    pub taken: usize,
    pub state: State,
    /// The work tables as the last call left them.
    pub left: [Vec<u32>; 2],
    /// How many words of them the calls have needed.
    used: [usize; 2],
    /// The points and records of all rings so far, numbered through.
    pub points: Vec<u16>,
    pub directory: Vec<u32>,
}

/// A state with zeros, ones, small numbers or any numbers in it.
pub fn new_state(random: &mut Random) -> State {
    let content = random.below(4);
    let words = [0; STATE_WORDS].map(|_: u32| match content {
        0 => 0,
        1 => u32::MAX,
        2 => random.below(9) as u32,
        _ => random.next() as u32,
    });
    State::new(&words, GUARD)
}

/// `contour_rows_begin` on a state, which a refused call leaves as it was.
pub fn compare_begin(tally: &mut Tally, grid: &Grid, state: &mut State) -> Option<()> {
    let Grid {
        dx,
        dy,
        threshold,
        rule,
        ..
    } = *grid;
    let fits = |side| (1..=LONGEST_SIDE).contains(&side);
    let number = u32::from(!fits(dx) || !fits(dy));
    let mut stood = state.numbers().to_vec();
    let got = begin(threshold, rule, dx, dy, state);
    if number == 0 {
        stood = state.numbers().to_vec();
    }
    let difference = match got == number {
        true => (!state.is_still(&stood)).then(|| "a change of the state".to_string()),
        false => Some(format!("number returned: expected {number}, got {got}")),
    };
    let holds = difference.is_none();
    tally.holds(difference, || {
        let by = by_rule(rule);
        format!("contour_rows_begin, {dx} by {dy} at {threshold:?}{by}")
    });
    holds.then_some(())
}

impl<'a> Feed<'a> {
    /// A terrain of these turns, begun. There is none where the begin is not as expected.
    pub fn begin(
        tally: &mut Tally,
        random: &mut Random,
        grid: &'a Grid,
        turns: &'a [Turn],
    ) -> Option<Self> {
        let mut state = new_state(random);
        compare_begin(tally, grid, &mut state)?;
        Some(Feed {
            grid,
            turns,
            taken: 0,
            state,
            left: [Vec::new(), Vec::new()],
            used: [0; 2],
            points: Vec::new(),
            directory: Vec::new(),
        })
    }

    /// Whether the end is taken.
    pub fn is_over(&self) -> bool {
        self.taken == self.turns.len()
    }

    /// Whether a row of values is still to come.
    pub fn lacks_rows(&self) -> bool {
        self.taken < self.grid.dy
    }

    /// The words that each table needs in the call that is due.
    pub fn need(&self) -> Room {
        let Turn { peak, held, rings } = &self.turns[self.taken];
        let points = rings.iter().map(Vec::len).sum();
        Room([
            self.grid.dx + 2 + 4 * peak,
            2 * held,
            points,
            RECORD_WORDS * rings.len(),
        ])
    }

    /// The words that no call may be lent fewer of than the last one was.
    pub fn least(&self) -> Room {
        let [lines, links] = &self.left;
        Room([lines.len(), links.len(), 0, 0])
    }

    /// The shortest tables with which the call that is due is taken.
    pub fn enough(&self) -> Room {
        let (need, least) = (self.need(), self.least());
        Room(Table::ALL.map(|table| need.of(table).max(least.of(table))))
    }

    /// The refusal of the call that is due in this room, or 0.
    pub fn answer(&self, room: Room) -> u32 {
        let need = self.need();
        let short = Table::ALL.iter().position(|&t| room.of(t) < need.of(t));
        short.map_or(0, |table| 5 + table as u32)
    }

    /// So many values, beginning with those of row `taken`, or of the first where there is no such row.
    pub fn values(&self, count: usize) -> Next {
        let first = self.taken % self.grid.dy * self.grid.dx;
        let values = self.grid.values[first..].iter().copied();
        Next::row(values.chain(std::iter::repeat(f64::INFINITY)).take(count))
    }

    /// The call that is due.
    pub fn due(&self) -> Next {
        match self.lacks_rows() {
            true => self.values(self.grid.dx),
            false => Next::End,
        }
    }

    /// Tables of this room, the work tables with the words that the last call left, as far as they go.
    pub fn lend(&self, random: &mut Random, room: Room) -> Lent {
        let mut lent = Lent::new(random, Kind::Rings, room);
        for (table, left) in WORK.into_iter().zip(&self.left) {
            let words = left.len().min(room.of(table));
            lent.table(table)[..words].copy_from_slice(&left[..words]);
        }
        lent
    }

    /// A call that has to be refused by this number and to change nothing. There is nothing to go on from where it
    /// is not.
    pub fn refused(
        &mut self,
        tally: &mut Tally,
        random: &mut Random,
        next: &Next,
        room: Room,
        number: u32,
    ) -> Option<()> {
        let mut lent = self.lend(random, room);
        let expected = lent.clone();
        let stood = self.state.numbers().to_vec();
        let got = call(next, &mut self.state, &mut lent);
        let difference = match got == number {
            true => self.difference(next, &stood, &lent, &expected),
            false => Some(format!("number returned: expected {number}, got {got}")),
        };
        self.hold(tally, difference, next, room)
    }

    /// The call that is due, in a room that is enough. There is nothing to go on from where it is refused, or where
    /// it leaves anything else than it has to.
    pub fn take(&mut self, tally: &mut Tally, random: &mut Random, room: Room) -> Option<()> {
        let next = self.due();
        let mut lent = self.lend(random, room);
        let mut expected = lent.clone();
        let got = call(&next, &mut self.state, &mut lent);
        if got != 0 {
            let difference = Some(format!("number returned: expected 0, got {got}"));
            return self.hold(tally, difference, &next, room);
        }
        self.settle(&mut expected, &mut lent);
        let state = self.state.numbers().to_vec();
        let difference = self.difference(&next, &state, &lent, &expected);
        self.hold(tally, difference, &next, room)?;
        self.keep(&mut lent);
        Some(())
    }

    /// Writes into a copy of what is lent what the call that is due leaves there. The needed words of the work
    /// tables are the library's own affair before the end, and 0 after it.
    fn settle(&mut self, expected: &mut Lent, lent: &mut Lent) {
        let need = self.need();
        for (table, used) in WORK.into_iter().zip(&mut self.used) {
            *used = need.of(table).max(*used);
            let words = &mut expected.table(table)[..*used];
            match self.taken < self.grid.dy {
                true => words.copy_from_slice(&lent.table(table)[..*used]),
                false => words.fill(0),
            }
        }
        let rings = &self.turns[self.taken].rings;
        expected.set(RINGS, rings.len() as u32);
        expected.put_points(&Points::Words(rings.concat()));
        let directory = bare_records(0, rings);
        expected.table(Table::Directory)[..directory.len()].copy_from_slice(&directory);
    }

    /// Keeps what a call left and gave out, and goes on to the next.
    fn keep(&mut self, lent: &mut Lent) {
        self.left = WORK.map(|table| lent.table(table).to_vec());
        let rings = &self.turns[self.taken].rings;
        let records = bare_records(self.points.len() / 2, rings);
        self.directory.extend(records);
        self.points.extend(rings.iter().flatten());
        self.taken += 1;
    }

    /// What a call changed beside what it had to.
    fn difference(
        &self,
        next: &Next,
        state: &[u32],
        lent: &Lent,
        expected: &Lent,
    ) -> Option<String> {
        if !self.state.is_still(state) {
            return Some("a change of the state, or beside it".to_string());
        }
        if !next.is_still() {
            return Some("a change of the values lent".to_string());
        }
        lent.difference(expected)
    }

    fn hold(
        &self,
        tally: &mut Tally,
        difference: Option<String>,
        next: &Next,
        room: Room,
    ) -> Option<()> {
        let holds = difference.is_none();
        tally.holds(difference, || {
            let (call, taken, room) = (next.shown(), self.taken, room.0);
            let terrain = described(&Asked::new(Kind::Rings, self.grid));
            format!("{call} after {taken} rows of cells, {terrain}, room {room:?}")
        });
        holds.then_some(())
    }
}

/// The records of bare rings whose points stand one after the other, behind so many other points.
fn bare_records(mut first: usize, rings: &[Vec<u16>]) -> Vec<u32> {
    let mut records = Vec::new();
    for ring in rings {
        records.extend(record(first, &halved(ring), BARE));
        first += ring.len() / 2;
    }
    records
}
