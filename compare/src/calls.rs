//! One question in every kind of room: each call's answer, and every word that it could have written.

use crate::asked::Asked;
use crate::drawing::{answer, Drawing};
use crate::entries::{call, Entry, Step};
use crate::lent::{Lent, Room, Table};
use crate::random::Random;
use crate::rules::Rule;
use crate::tally::Tally;

/// How many values of a terrain a description shows.
const VALUES_SHOWN: usize = 40;
/// The most words that a generous table has beyond its need.
const MOST_SPARE: usize = 9;

/// Every entry in every kind of room. The question passes but for the room.
pub fn compare_asked(tally: &mut Tally, random: &mut Random, asked: &Asked) -> Drawing {
    let drawing = Drawing::of(asked).expect("a question that passes");
    let rooms = |random: &mut Random, entry| rooms(random, entry, drawing.need());
    compare_entries(tally, random, asked, Some(&drawing), rooms);
    drawing
}

/// Every entry in exact room.
pub fn compare_exact(tally: &mut Tally, random: &mut Random, asked: &Asked) {
    let drawing = Drawing::of(asked).expect("a question that passes");
    compare_rooms(tally, random, asked, Some(&drawing), &[drawing.need()]);
}

/// Every entry in each of these rooms.
pub fn compare_rooms(
    tally: &mut Tally,
    random: &mut Random,
    asked: &Asked,
    drawing: Option<&Drawing>,
    rooms: &[Room],
) {
    compare_entries(tally, random, asked, drawing, |_, _| rooms.to_vec());
}

/// Every entry in the rooms that it is to have, and afterwards what was lent to be read.
fn compare_entries(
    tally: &mut Tally,
    random: &mut Random,
    asked: &Asked,
    drawing: Option<&Drawing>,
    rooms: impl Fn(&mut Random, Entry) -> Vec<Room>,
) {
    for entry in Entry::all_of(asked.kind) {
        for room in rooms(random, entry) {
            compare_call(tally, random, entry, asked, room, drawing);
        }
    }
    compare_lent(tally, asked);
}

/// Exact room, one word short of each table in turn, generous room, and each table short, empty, exact or
/// generous at random.
fn rooms(random: &mut Random, entry: Entry, need: Room) -> Vec<Room> {
    let mut rooms = vec![need];
    if entry.step == Step::FirstReport {
        return rooms;
    }
    for &table in entry.tables() {
        let mut short = need;
        if need.of(table) > 0 {
            short.0[table as usize] -= 1;
            rooms.push(short);
        }
    }
    rooms.push(Room(
        need.0.map(|words| words + random.between(1, MOST_SPARE)),
    ));
    rooms.push(Room(need.0.map(|words| match random.below(4) {
        0 => words.saturating_sub(1),
        1 => 0,
        2 => words,
        _ => words + random.between(1, MOST_SPARE),
    })));
    rooms
}

/// One call, held to what it has to answer and to leave. Only the tables that the entry is lent get room.
fn compare_call(
    tally: &mut Tally,
    random: &mut Random,
    entry: Entry,
    asked: &Asked,
    room: Room,
    drawing: Option<&Drawing>,
) {
    let lends = |table| entry.tables().contains(&table);
    let room = Room(Table::ALL.map(|table| if lends(table) { room.of(table) } else { 0 }));
    let mut lent = Lent::new(random, entry.kind, room);
    let mut expected = lent.clone();
    let number = answer(entry, asked, room, drawing);
    if let Some(drawing) = drawing {
        drawing.settle(entry, number, &mut expected);
    }
    let got = call(entry, asked, &mut lent);
    let difference = match got == number {
        true => lent.difference(&expected),
        false => Some(format!("number returned: expected {number}, got {got}")),
    };
    tally.holds(difference, || {
        format!("{}, {}, room {:?}", entry.name(), described(asked), room.0)
    });
}

/// What was lent to be read, which no call may change.
pub fn compare_lent(tally: &mut Tally, asked: &Asked) {
    let difference = (!asked.is_still()).then(|| "a change of the numbers lent".to_string());
    tally.holds(difference, || {
        format!("after all calls, {}", described(asked))
    });
}

/// A question in words.
pub fn described(asked: &Asked) -> String {
    let grid = asked.grid;
    let (dx, dy, count) = (grid.dx, grid.dy, grid.values.len());
    let shown = grid.values.iter().take(VALUES_SHOWN);
    let mut values: String = shown.map(|value| format!(" {value:?}")).collect();
    if count > VALUES_SHOWN {
        values.push_str(" and so on");
    }
    let at = match (asked.pair, asked.pen) {
        (Some(pair), _) => format!("pair {} of {:?}", pair.k, pair.list),
        (None, Some(pen)) => format!(
            "{:?}, smooth {}, placement {:?}",
            grid.threshold, pen.smooth, pen.placement
        ),
        (None, None) => format!("{:?}", grid.threshold),
    };
    let by = by_rule(grid.rule);
    format!("{dx} by {dy} at {at}{by}, {count} values{values}")
}

/// The number of a rule in words, if it is not that of "at least".
pub fn by_rule(rule: Rule) -> String {
    match rule {
        Rule(0) => String::new(),
        Rule(number) => format!(" by rule {number}"),
    }
}
