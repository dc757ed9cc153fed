//! What a call is lent to write into. All of it stands in one sheet of words, table beside table, with guard
//! words before, between and behind them, and is compared whole; the points stand in another. What a call is asked,
//! and which tables it takes, is not known here.

use crate::guarded::GUARDS;
use crate::kinds::Kind;
use crate::points::Points;
use crate::random::Random;
use std::ops::Range;

#[derive(Clone, Copy, PartialEq)]
pub enum Table {
    Lines,
    Links,
    Points,
    Directory,
}

impl Table {
    pub const ALL: [Table; 4] = [Table::Lines, Table::Links, Table::Points, Table::Directory];
}

/// How many words of each table are lent, or needed.
#[derive(Clone, Copy)]
pub struct Room(pub [usize; 4]);

impl Room {
    pub fn of(self, table: Table) -> usize {
        self.0[table as usize]
    }
}

const GUARD: u32 = 0xC0DE_CA5E;
/// Stands in each output before a call: no count comes near it.
const UNSET: u32 = 0x5A5A_5A5A;
/// The places of the sheet: three tables and four outputs.
const NAMES: [&str; 7] = [
    "open table",
    "link table",
    "directory",
    "*segments",
    "*rings",
    "*peak",
    "*points",
];
pub const LINES: usize = 0;
pub const LINKS: usize = 1;
pub const DIRECTORY: usize = 2;
pub const SEGMENTS: usize = 3;
pub const RINGS: usize = 4;
pub const PEAK: usize = 5;
pub const POINTS: usize = 6;

/// All that a call may write.
#[derive(Clone)]
pub struct Lent {
    words: Vec<u32>,
    points: Points,
    pub room: Room,
}

impl Lent {
    /// Tables of this room for a kind, with zeros, ones, small numbers or any numbers in them.
    pub fn new(random: &mut Random, kind: Kind, room: Room) -> Self {
        let end = places(room)[POINTS].end + GUARDS;
        let mut lent = Lent {
            words: vec![GUARD; end],
            points: Points::guards(kind, room.of(Table::Points) + 2 * GUARDS),
            room,
        };
        let content = random.below(4);
        let mut filler = || match content {
            0 => 0,
            1 => u64::MAX,
            2 => random.next() % 9,
            _ => random.next(),
        };
        for table in [Table::Lines, Table::Links, Table::Directory] {
            lent.table(table).fill_with(|| filler() as u32);
        }
        let points = GUARDS..GUARDS + room.of(Table::Points);
        lent.points.fill(points, filler);
        for output in [SEGMENTS, RINGS, PEAK, POINTS] {
            lent.set(output, UNSET);
        }
        lent
    }

    /// A table of 32-bit words.
    pub fn table(&mut self, table: Table) -> &mut [u32] {
        let place = match table {
            Table::Lines => LINES,
            Table::Links => LINKS,
            Table::Directory => DIRECTORY,
            Table::Points => unreachable!("the points have a sheet of their own"),
        };
        &mut self.words[places(self.room)[place].clone()]
    }

    /// Puts points into the table.
    pub fn put_points(&mut self, points: &Points) {
        self.points.put(GUARDS, points);
    }

    /// Where the points stand.
    pub fn words(&mut self) -> *mut u16 {
        self.points.words_at(GUARDS)
    }

    /// Where the points of lines stand.
    #[cfg(feature = "lines")]
    pub fn floats(&mut self) -> *mut f64 {
        self.points.floats_at(GUARDS)
    }

    /// All tables and outputs as they stand in another of the same room; the guards stay.
    #[cfg(feature = "rows")]
    pub fn adopt(&mut self, other: &Lent) {
        for place in places(self.room) {
            self.words[place.clone()].copy_from_slice(&other.words[place]);
        }
        let points = GUARDS..GUARDS + self.room.of(Table::Points);
        self.points.adopt(points, &other.points);
    }

    /// Sets one of the four outputs.
    pub fn set(&mut self, output: usize, number: u32) {
        let place = places(self.room)[output].start;
        self.words[place] = number;
    }

    /// Where a place of the sheet begins.
    pub fn at(&mut self, place: usize) -> *mut u32 {
        let start = places(self.room)[place].start;
        unsafe { self.words.as_mut_ptr().add(start) }
    }

    /// The first word that is not as expected, in words.
    pub fn difference(&self, expected: &Lent) -> Option<String> {
        let word = |k: &usize| self.words[*k] != expected.words[*k];
        if let Some(k) = (0..self.words.len()).find(word) {
            let (wanted, got) = (expected.words[k], self.words[k]);
            let place = named(k, &places(self.room));
            return Some(format!("{place}: expected {wanted}, got {got}"));
        }
        let (k, difference) = self.points.difference(&expected.points)?;
        let place = match k.checked_sub(GUARDS) {
            Some(word) if word < self.room.of(Table::Points) => {
                format!("word {word} of the points")
            }
            _ => "a guard word beside the points".to_string(),
        };
        Some(format!("{place}: {difference}"))
    }
}

fn places(room: Room) -> [Range<usize>; 7] {
    let mut end = 0;
    let [lines, links, _, directory] = room.0;
    [lines, links, directory, 1, 1, 1, 1].map(|words| {
        let start = end + GUARDS;
        end = start + words;
        start..end
    })
}

/// The name of word k of the sheet.
fn named(k: usize, places: &[Range<usize>; 7]) -> String {
    match places.iter().position(|place| k < place.end) {
        Some(at) if k >= places[at].start => match at {
            0..=2 => format!("word {} of the {}", k - places[at].start, NAMES[at]),
            _ => NAMES[at].to_string(),
        },
        Some(at) => format!("a guard word before the {}", NAMES[at]),
        None => "a guard word behind all".to_string(),
    }
}
