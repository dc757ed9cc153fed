//! The row form on whole terrains: every call in exact room, in room that is short and in any room, and between the
//! calls such as have to be refused.

use crate::asked::Asked;
use crate::calls::described;
use crate::counts::Counts;
use crate::drawing::Drawing;
use crate::entries::{call, Entry, Step};
use crate::grid_refusals::SIDES;
use crate::kinds::Kind;
use crate::lent::{Lent, Room, Table, RINGS};
use crate::points::Points;
use crate::random::Random;
use crate::records::{records, COUNT};
use crate::rings::{random_grid, small_grids, two_valued, Grid};
use crate::row_calls::{compare_begin, new_state, Feed, WORK};
use crate::row_drawing::{turns, Turn};
use crate::row_entries::Next;
use crate::rules::{Rule, AT_LEAST, MORE_THAN};
use crate::shapes::LONGEST_SIDE;
use crate::tally::Tally;

/// Thresholds that are no plain numbers, and one that is.
const THRESHOLDS: [f64; 5] = [f64::NAN, f64::INFINITY, f64::NEG_INFINITY, -0.0, 1.0];
/// Both rules.
const RULES: [Rule; 2] = [AT_LEAST, MORE_THAN];
/// Grids of more rows have refused calls now and then, smaller ones before each call.
const MANY_ROWS: usize = 70;
/// The most words that a generous table has beyond its need.
const MOST_SPARE: usize = 9;

/// Every two-valued grid of up to twelve samples. Returns how many there were.
pub fn all_small_grids(tally: &mut Tally, random: &mut Random) -> u64 {
    let grids = small_grids(12);
    grids
        .inspect(|grid| compare_grid(tally, random, grid))
        .count() as u64
}

/// Every pair of sides that draws refusal 1 or does not, at several thresholds and by each rule.
pub fn sides(tally: &mut Tally, random: &mut Random) {
    for dx in SIDES {
        for dy in SIDES {
            for (threshold, rule) in THRESHOLDS.iter().flat_map(|t| RULES.map(|rule| (*t, rule))) {
                let grid = Grid {
                    dx,
                    dy,
                    ..two_valued(1, 1, 0).at(threshold).by(rule)
                };
                compare_begin(tally, &grid, &mut new_state(random));
            }
        }
    }
}

/// The longest rows, a longest column, and thresholds that are no plain numbers. Returns how many grids there were.
pub fn limits(tally: &mut Tally, random: &mut Random) -> u64 {
    let mut grids = Vec::new();
    for (dx, dy) in [(1, LONGEST_SIDE), (LONGEST_SIDE, 1), (LONGEST_SIDE, 64)] {
        grids.push(random_grid(random, dx, dy));
        let dots = |x, y| ((x + y) % 2) as f64;
        grids.push(Grid::new(dx, dy, 1.0, dots));
    }
    for (dx, dy) in [(1, 1), (3, 4), (64, 5), (65, 2)] {
        let grid = random_grid(random, dx, dy);
        grids.extend(THRESHOLDS.map(|threshold| grid.at(threshold)));
    }
    for grid in &grids {
        compare_grid(tally, random, grid);
    }
    grids.len() as u64
}

/// A grid by rows, twice: in exact room, and in any room.
pub fn compare_grid(tally: &mut Tally, random: &mut Random, grid: &Grid) {
    let asked = Asked::new(Kind::Rings, grid);
    let drawing = Drawing::of(&asked).expect("a question that passes");
    let turns = turns(grid);
    hold_turns(grid, &drawing, &turns);
    if let Some(feed) = exactly(tally, random, grid, &turns) {
        compare_whole(tally, random, &asked, &drawing, &feed);
    }
    loosely(tally, random, grid, &turns);
}

/// The same terrain by each rule, begun one after the other and then given in turns: each state goes on by the rule that
/// it was begun by.
pub fn compare_in_turns(tally: &mut Tally, random: &mut Random, grid: &Grid) -> Option<()> {
    let grids = RULES.map(|rule| grid.by(rule));
    let [at_least, more_than] = [turns(&grids[0]), turns(&grids[1])];
    let mut feeds = [
        Feed::begin(tally, random, &grids[0], &at_least)?,
        Feed::begin(tally, random, &grids[1], &more_than)?,
    ];
    for _ in 0..=grid.dy {
        for feed in &mut feeds {
            let room = feed.enough();
            feed.take(tally, random, room)?;
        }
    }
    Some(())
}

/// The driver's own drawing by rows has to be the crate's, or the run stops.
fn hold_turns(grid: &Grid, drawing: &Drawing, turns: &[Turn]) {
    let rings = || turns.iter().flat_map(|turn| &turn.rings);
    let same = match &drawing.points {
        Points::Words(words) => words.iter().eq(rings().flatten()),
        Points::Patterns(_) => unreachable!("the points of rings are words"),
    };
    let counts = records(&drawing.directory).map(|record| record[COUNT] as usize);
    let as_long = counts.eq(rings().map(|ring| ring.len() / 2));
    assert!(same && as_long, "two drawings of the rings");
    let Counts { segments, peak } = drawing.counts;
    let most = |of: fn(&Turn) -> usize| turns.iter().map(of).max();
    assert!(most(|turn| turn.peak) == Some(peak), "two counts of H");
    assert!(most(|turn| turn.held) <= Some(segments), "more than S");
    assert!(peak <= (grid.dx + 2) / 2, "more open lines than fit");
}

/// Every call in exact room, before it calls one word short of each table that may be, and calls that are refused
/// whatever the room.
fn exactly<'a>(
    tally: &mut Tally,
    random: &mut Random,
    grid: &'a Grid,
    turns: &'a [Turn],
) -> Option<Feed<'a>> {
    let mut feed = Feed::begin(tally, random, grid, turns)?;
    while !feed.is_over() {
        if grid.dy <= MANY_ROWS || random.once_in(MANY_ROWS) {
            out_of_turn(tally, random, grid, &mut feed)?;
            short(tally, random, &mut feed)?;
        }
        let room = feed.enough();
        feed.take(tally, random, room)?;
    }
    out_of_turn(tally, random, grid, &mut feed)?;
    Some(feed)
}

/// Numbers 13 and 14, with no room at all or with no more than the last call had.
fn out_of_turn(tally: &mut Tally, random: &mut Random, grid: &Grid, feed: &mut Feed) -> Option<()> {
    let room = random.pick(&[Room([0; 4]), feed.least()]);
    for count in [0, grid.dx - 1, grid.dx + 1] {
        let row = feed.values(count);
        feed.refused(tally, random, &row, room, 13)?;
    }
    if !feed.lacks_rows() {
        let row = feed.values(grid.dx);
        feed.refused(tally, random, &row, room, 14)?;
    }
    if feed.lacks_rows() || feed.is_over() {
        feed.refused(tally, random, &Next::End, room, 14)?;
    }
    Some(())
}

/// Numbers 5 to 8, one word short of each table that may be so short.
fn short(tally: &mut Tally, random: &mut Random, feed: &mut Feed) -> Option<()> {
    let (need, least, enough) = (feed.need(), feed.least(), feed.enough());
    for table in Table::ALL {
        if need.of(table) > least.of(table) {
            let mut room = enough;
            room.0[table as usize] = need.of(table) - 1;
            let (due, number) = (feed.due(), feed.answer(room));
            feed.refused(tally, random, &due, room, number)?;
        }
    }
    Some(())
}

/// Every call first in any room that it may have, and where that is short then in more. In every other grid the open
/// table has its bound from the start, and 5 is never drawn.
fn loosely(tally: &mut Tally, random: &mut Random, grid: &Grid, turns: &[Turn]) -> Option<()> {
    let mut feed = Feed::begin(tally, random, grid, turns)?;
    let bound = random.pick(&[0, grid.dx + 2 + 4 * ((grid.dx + 2) / 2)]);
    while !feed.is_over() {
        let mut room = any_room(random, feed.need(), feed.least());
        room.0[Table::Lines as usize] = room.of(Table::Lines).max(bound);
        let (due, number) = (feed.due(), feed.answer(room));
        if number != 0 {
            feed.refused(tally, random, &due, room, number)?;
            let more = random.between(0, MOST_SPARE);
            room = Room(feed.enough().0.map(|words| words + more));
            room.0[Table::Lines as usize] = room.of(Table::Lines).max(bound);
        }
        feed.take(tally, random, room)?;
    }
    Some(())
}

/// Each table empty, short, exact or generous at random, and the work tables no shorter than they were.
fn any_room(random: &mut Random, need: Room, least: Room) -> Room {
    Room(Table::ALL.map(|table| {
        let words = match random.below(8) {
            0 => 0,
            1 => need.of(table).saturating_sub(1),
            2..=4 => need.of(table),
            _ => need.of(table) + random.between(1, MOST_SPARE),
        };
        words.max(least.of(table))
    }))
}

/// The rings of all calls together, held to those of `contour_rings`.
fn compare_whole(
    tally: &mut Tally,
    random: &mut Random,
    asked: &Asked,
    drawing: &Drawing,
    feed: &Feed,
) {
    let mut lent = Lent::new(random, Kind::Rings, drawing.need());
    let mut expected = lent.clone();
    for table in WORK {
        expected.table(table).fill(0);
    }
    expected.put_points(&Points::Words(feed.points.clone()));
    let directory = expected.table(Table::Directory);
    directory.copy_from_slice(&feed.directory);
    expected.set(RINGS, records(&feed.directory).len() as u32);
    let entry = Entry {
        kind: Kind::Rings,
        step: Step::Build,
    };
    let number = call(entry, asked, &mut lent);
    let difference = match number {
        0 => lent.difference(&expected),
        number => Some(format!("number returned: expected 0, got {number}")),
    };
    tally.holds(difference, || {
        format!("contour_rings and all rows, {}", described(asked))
    });
}
