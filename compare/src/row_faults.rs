//! The row form handed what no call left: other states, other words in the work tables, shorter tables. What it then
//! answers is not told, but it has to return, by a number that it has, and to write nothing beside what it was lent.

use crate::lent::Room;
use crate::random::Random;
use crate::rings::{random_grid, Grid};
use crate::row_calls::{new_state, Feed, WORK};
use crate::row_drawing::turns;
use crate::row_entries::{call, Next, State};
use crate::rules::{AT_LEAST, MORE_THAN};
use crate::shapes::LONGEST_SIDE;
use crate::tally::Tally;

/// How many states and tables a round makes, and how many calls each of them gets.
const TRIES: usize = 60_000;
const CALLS: usize = 4;
/// Once in so many tries the rows are long.
const LONG: usize = 200;
/// The words of a state before those of the last row's samples. The rule's is the last of them.
const BEFORE_SAMPLES: usize = 11;
/// The numbers that a row or an end returns.
const NUMBERS: [u32; 7] = [0, 5, 6, 7, 8, 13, 14];

/// Terrains given up to some row, then changed, and some calls more.
pub fn any(tally: &mut Tally, random: &mut Random) {
    for _ in 0..TRIES {
        let [mut dx, dy] = [0; 2].map(|_| random.between(1, 9));
        if random.once_in(LONG) {
            dx = random.pick(&[64, 65, LONGEST_SIDE - 1, LONGEST_SIDE]);
        }
        let rule = random.pick(&[AT_LEAST, MORE_THAN]);
        let grid = random_grid(random, dx, dy).by(rule);
        compare_changed(tally, random, &grid);
    }
}

/// One terrain. The calls before the change are compared too.
fn compare_changed(tally: &mut Tally, random: &mut Random, grid: &Grid) -> Option<()> {
    let turns = turns(grid);
    let mut feed = Feed::begin(tally, random, grid, &turns)?;
    for _ in 0..random.below(turns.len() + 1) {
        let room = feed.enough();
        feed.take(tally, random, room)?;
    }
    match random.below(5) {
        0 => feed.state = new_state(random),
        1 => change_words(random, feed.state.numbers(), BEFORE_SAMPLES),
        2 => change_words(random, feed.state.numbers(), usize::MAX),
        3 => change_tables(random, &mut feed),
        _ => {
            change_words(random, feed.state.numbers(), usize::MAX);
            change_tables(random, &mut feed);
        }
    }
    for _ in 0..CALLS {
        let room = any_room(random, &feed);
        let count = match random.below(4) {
            0 => random.below(9),
            _ => grid.dx,
        };
        let next = match random.below(4) {
            0 => Next::End,
            _ => feed.values(count),
        };
        compare_call(tally, random, &mut feed, &next, room, grid);
    }
    Some(())
}

/// The tables as they were, shorter, or longer.
fn any_room(random: &mut Random, feed: &Feed) -> Room {
    let Room(least) = feed.least();
    Room(least.map(|words| match random.below(5) {
        0 => random.below(words + 1),
        1 => words,
        2 => words + random.below(20),
        3 => words + random.below(200),
        _ => words + random.below(5_000),
    }))
}

/// One to three words changed, among the first so many.
fn change_words(random: &mut Random, words: &mut [u32], among: usize) {
    let among = among.min(words.len());
    if among == 0 {
        return;
    }
    for _ in 0..random.between(1, 3) {
        let word = &mut words[random.below(among)];
        *word = match random.below(6) {
            0 => word.wrapping_add(1),
            1 => word.wrapping_sub(1),
            2 => random.below(9) as u32,
            3 => *word ^ 1 << random.below(32),
            4 => random.pick(&[0, 4_096, 4_097, 1 << 31, u32::MAX - 1, u32::MAX]),
            _ => random.next() as u32,
        };
    }
}

/// Some words of a work table changed, or all of both.
fn change_tables(random: &mut Random, feed: &mut Feed) {
    match random.below(3) {
        0 => {
            let table = random.below(2);
            change_words(random, &mut feed.left[table], usize::MAX);
        }
        1 => {
            for word in feed.left.iter_mut().flatten() {
                *word = random.below(12) as u32;
            }
        }
        _ => {
            for word in feed.left.iter_mut().flatten() {
                *word = random.next() as u32;
            }
        }
    }
}

/// One call, and everything that it may have written kept for the next.
fn compare_call(
    tally: &mut Tally,
    random: &mut Random,
    feed: &mut Feed,
    next: &Next,
    room: Room,
    grid: &Grid,
) {
    let mut lent = feed.lend(random, room);
    let mut expected = lent.clone();
    let before = feed.state.numbers().to_vec();
    let number = call(next, &mut feed.state, &mut lent);
    expected.adopt(&lent);
    let difference = match NUMBERS.contains(&number) {
        false => Some(format!("number returned: {number}")),
        true if !guards_stand(&mut feed.state) => Some("a change beside the state".to_string()),
        true if !next.is_still() => Some("a change of the values lent".to_string()),
        true => lent.difference(&expected),
    };
    tally.holds(difference, || {
        let (call, room, dx, dy) = (next.shown(), room.0, grid.dx, grid.dy);
        let state = &before[..16];
        format!("{call} on a changed state or table, {dx} by {dy}, state {state:?} and so on, room {room:?}")
    });
    feed.left = WORK.map(|table| lent.table(table).to_vec());
}

fn guards_stand(state: &mut State) -> bool {
    let words = state.numbers().to_vec();
    state.is_still(&words)
}
