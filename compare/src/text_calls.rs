//! The writer's three entries with one ring set, in every kind of room: each call's answer, and every byte that it
//! could have written.

#[cfg(feature = "geojson")]
use crate::declared::{contour_check, contour_geojson, contour_geojson_length};
use crate::lent_sets::{described, LentSet};
use crate::random::Random;
use crate::ring_sets::{RingSet, FAULTY, SHORT};
use crate::tally::Tally;

/// So many guard bytes stand before and behind the text.
const BYTE_GUARD: u8 = 0xC5;
const GUARDS: usize = 64;
/// Stands in the length and on either side of it before a call: no text is as long.
const UNSET: u64 = 0x5A5A_5A5A_5A5A_5A5A;
/// The most bytes that a generous room has beyond its need, and that a text without room is lent.
const MOST_SPARE: usize = 99;

/// What the entries have to answer.
#[derive(Clone, Copy)]
pub enum Expected<'a> {
    Faulty,
    Text(&'a [u8]),
    /// A text of so many bytes, for which there is no room.
    Long(u64),
}

impl<'a> Expected<'a> {
    pub fn of(text: &'a Option<Vec<u8>>) -> Self {
        text.as_deref().map_or(Expected::Faulty, Expected::Text)
    }

    fn length(self) -> Option<u64> {
        match self {
            Expected::Faulty => None,
            Expected::Text(text) => Some(text.len() as u64),
            Expected::Long(length) => Some(length),
        }
    }

    /// The number of a call with this room; only the text needs any.
    fn number(self, entry: Entry, room: usize) -> u32 {
        match self.length() {
            None => FAULTY,
            Some(length) if entry == Entry::Text && (room as u64) < length => SHORT,
            Some(_) => 0,
        }
    }
}

#[derive(Clone, Copy, PartialEq)]
enum Entry {
    Check,
    Length,
    Text,
}

impl Entry {
    fn name(self) -> &'static str {
        match self {
            Entry::Check => "contour_check",
            Entry::Length => "contour_geojson_length",
            Entry::Text => "contour_geojson",
        }
    }
}

/// Calls an entry with a ring set and returns its number.
#[cfg(feature = "geojson")]
fn call(entry: Entry, lent: &LentSet, sheet: &mut Sheet) -> u32 {
    let (points, directory) = (lent.points(), lent.directory());
    let (text, room) = (sheet.text[GUARDS..].as_mut_ptr(), sheet.room());
    let length = &mut sheet.length[1];
    macro_rules! call {
        ($function:ident $(, $rest:expr)*) => {
            unsafe { $function(points.0, points.1, directory.0, directory.1, lent.set.rings $(, $rest)*) }
        };
    }
    match entry {
        Entry::Check => call!(contour_check),
        Entry::Length => call!(contour_geojson_length, length),
        Entry::Text => call!(contour_geojson, text, room, length),
    }
}

#[cfg(not(feature = "geojson"))]
fn call(_: Entry, _: &LentSet, _: &mut Sheet) -> u32 {
    unreachable!("no writer in the library")
}

/// What a call may write: a text between guards, and the length between two numbers.
#[derive(Clone)]
struct Sheet {
    text: Vec<u8>,
    length: [u64; 3],
}

impl Sheet {
    /// Room for so many bytes, with zeros, ones, brackets or any bytes in it.
    fn new(random: &mut Random, room: usize) -> Self {
        let mut text = vec![BYTE_GUARD; room + 2 * GUARDS];
        let content = random.below(4);
        text[GUARDS..GUARDS + room].fill_with(|| match content {
            0 => 0,
            1 => 0xFF,
            2 => b']',
            _ => random.next() as u8,
        });
        let length = [UNSET; 3];
        Sheet { text, length }
    }

    fn room(&self) -> usize {
        self.text.len() - 2 * GUARDS
    }

    /// Writes what a call that answers 0 leaves here.
    fn settle(&mut self, entry: Entry, expected: Expected) {
        if entry != Entry::Check {
            self.length[1] = expected.length().unwrap_or(UNSET);
        }
        if let (Entry::Text, Expected::Text(text)) = (entry, expected) {
            self.text[GUARDS..GUARDS + text.len()].copy_from_slice(text);
        }
    }

    /// The first thing that is not as expected, in words.
    fn difference(&self, expected: &Sheet) -> Option<String> {
        for (k, name) in ["before *length", "*length", "behind *length"]
            .iter()
            .enumerate()
        {
            let (wanted, got) = (expected.length[k], self.length[k]);
            if wanted != got {
                return Some(format!("{name}: expected {wanted}, got {got}"));
            }
        }
        if self.text == expected.text {
            return None;
        }
        let mut bytes = self.text.iter().zip(&expected.text);
        let k = bytes.position(|(got, wanted)| got != wanted)?;
        let [wanted, got] =
            [expected, self].map(|sheet| [sheet.text[k]].escape_ascii().to_string());
        let place = match k.checked_sub(GUARDS) {
            Some(byte) if byte < self.room() => format!("byte {byte} of the text"),
            _ => "a guard byte beside the text".to_string(),
        };
        Some(format!("{place}: expected '{wanted}', got '{got}'"))
    }
}

/// Every entry in every kind of room. A text gets exact room, a byte less, none, less at random, and more.
pub fn compare_set(tally: &mut Tally, random: &mut Random, set: &RingSet, expected: Expected) {
    let rooms = match expected {
        Expected::Text(text) => {
            tally.in_text(set.in_text());
            let need = text.len();
            let (less, more) = (random.below(need), need + random.between(1, MOST_SPARE));
            vec![need, need - 1, 0, less, more]
        }
        Expected::Faulty => vec![0, random.between(1, 2_000)],
        Expected::Long(_) => vec![random.below(MOST_SPARE)],
    };
    let lent = LentSet::new(set);
    for entry in [Entry::Check, Entry::Length] {
        compare_call(tally, random, &lent, entry, 0, expected);
    }
    for room in rooms {
        compare_call(tally, random, &lent, Entry::Text, room, expected);
    }
    lent.compare_still(tally);
}

/// One call, held to what it has to answer and to leave.
fn compare_call(
    tally: &mut Tally,
    random: &mut Random,
    lent: &LentSet,
    entry: Entry,
    room: usize,
    expected: Expected,
) {
    let mut sheet = Sheet::new(random, room);
    let mut settled = sheet.clone();
    let number = expected.number(entry, room);
    if number == 0 {
        settled.settle(entry, expected);
    }
    let got = call(entry, lent, &mut sheet);
    let difference = match got == number {
        true => sheet.difference(&settled),
        false => Some(format!("number returned: expected {number}, got {got}")),
    };
    tally.holds(difference, || {
        let room = match entry {
            Entry::Text => format!(", room {room}"),
            _ => String::new(),
        };
        format!("{}, {}{room}", entry.name(), described(lent.set))
    });
}
