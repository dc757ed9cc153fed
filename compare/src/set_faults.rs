//! Number 9: each part of document 01's sentence by name, and the area of document 02, with the neighbour that passes.
//! Which entries a set is handed to is for the caller to say; a faulty one is refused whatever else is asked.

use crate::area_faults::{faulty_areas, Tried};
use crate::declared::RECORD_WORDS;
use crate::directory::{HOLE, NOBODY, POLYGON};
use crate::exact::{LARGEST, MOST_POINTS};
use crate::random::Random;
use crate::records::{area, set_area, CLASS, COUNT, FIRST, OWNER};
use crate::ring_sets::RingSet;
use crate::tally::Tally;

/// The ring of one sample, closed.
const RING: [u16; 10] = [2, 1, 1, 0, 0, 1, 1, 2, 2, 1];
/// The classes and owners of the sample set: a hole before its polygon, a dropped hole, a polygon before its hole.
const FATES: [[u32; 2]; 5] = [
    [HOLE, 1],
    [POLYGON, 1],
    [HOLE, NOBODY],
    [POLYGON, 3],
    [HOLE, 3],
];
const RINGS: u32 = FATES.len() as u32;
/// A ring without area: there and back.
pub const FLAT: [u16; 8] = [3, 3, 9, 3, 5, 3, 3, 3];

/// Compares one ring set, faulty or not.
pub type Compare = fn(&mut Tally, &mut Random, &RingSet);

/// Where the cases are compared, and by what.
struct Cases<'a> {
    tally: &'a mut Tally,
    random: &'a mut Random,
    compare: Compare,
}

impl Cases<'_> {
    /// The sample set after a change, which is to pass or to be refused. The areas follow it, so that they hide no
    /// other fault.
    fn case(&mut self, passes: bool, change: impl FnOnce(&mut RingSet)) {
        let mut set = sample();
        change(&mut set);
        set.right_areas();
        self.compare(passes, &set);
    }

    fn compare(&mut self, passes: bool, set: &RingSet) {
        assert!(set.is_faulty() != passes, "number 9 in two ways");
        (self.compare)(self.tally, self.random, set);
    }

    fn passes(&mut self, change: impl FnOnce(&mut RingSet)) {
        self.case(true, change);
    }

    fn faulty(&mut self, change: impl FnOnce(&mut RingSet)) {
        self.case(false, change);
    }
}

/// Five rings of five points, in the points as in the directory.
fn sample() -> RingSet {
    sample_with(RINGS, &[])
}

/// The same with another ring for this record, if there is such a record.
fn sample_with(record: u32, ring: &[u16]) -> RingSet {
    let mut set = RingSet::default();
    for (number, [class, owner]) in (0..).zip(FATES) {
        let own = RING.map(|coordinate| coordinate + 10 * number);
        let ring = if u32::from(number) == record {
            ring
        } else {
            &own
        };
        set.push(ring, class, owner);
    }
    set
}

/// The words of a record.
fn words(set: &mut RingSet, record: u32) -> &mut [u32] {
    let first = RECORD_WORDS * record as usize;
    &mut set.directory[first..first + RECORD_WORDS]
}

/// A word of a record.
fn word(set: &mut RingSet, record: u32, word: usize) -> &mut u32 {
    &mut words(set, record)[word]
}

/// The words of a record's points in the sample set.
fn points(set: &mut RingSet, record: u32) -> &mut [u16] {
    let first = RING.len() * record as usize;
    &mut set.points[first..first + RING.len()]
}

/// The cases that documents 01 and 02 name, in their order, and their neighbours that pass.
pub fn listed(tally: &mut Tally, random: &mut Random, compare: Compare) {
    let cases = &mut Cases {
        tally,
        random,
        compare,
    };
    cases.passes(|_| {});
    directories(cases);
    ranges(cases);
    counts(cases);
    coordinates(cases);
    closings(cases);
    classes(cases);
    owners_of_polygons(cases);
    owners_of_holes(cases);
    areas(cases);
}

/// The words that are missing stand behind those lent, and so do words that nobody asks for. Of some numbers of rings
/// the words come back to those that are there in 32 bits.
fn directories(cases: &mut Cases) {
    for words in 1..=RECORD_WORDS {
        cases.faulty(|set| set.withheld[1] = words);
        cases.passes(|set| set.directory.extend(vec![u32::MAX; words]));
    }
    cases.faulty(|set| {
        set.directory.extend_from_within(..RECORD_WORDS);
        set.withheld[1] = 1;
        set.rings += 1;
    });
    for rings in [6, 7, 1 << 30, 1 << 31, u32::MAX] {
        cases.faulty(|set| set.rings = rings);
    }
    let wrapped = u32::MAX / RECORD_WORDS as u32 + 1;
    for rings in [(1 << 30) + 5, (1 << 31) + 5, wrapped, wrapped + 4] {
        cases.faulty(|set| set.rings = rings);
    }
    for (rings, passes) in [(0, true), (1, false), (2, true), (3, true), (4, true)] {
        cases.case(passes, |set| set.rings = rings);
    }
    for number in 0..RECORD_WORDS {
        cases.passes(|set| {
            *word(set, 4, number) = 9_999;
            set.rings = 4;
        });
    }
}

/// The last point is missing, or half of it, though it stands behind those lent; and first points and counts whose
/// sum or double comes back to the points in 32 bits.
fn ranges(cases: &mut Cases) {
    for words in 1..=2 {
        cases.faulty(|set| set.withheld[0] = words);
        cases.passes(|set| {
            set.points.extend([9_000, 9_000]);
            set.withheld[0] = words;
        });
    }
    for record in 0..RINGS {
        let first = 5 * record;
        for other in [
            21,
            24,
            25,
            26,
            1 << 30,
            1 << 31,
            (1 << 31) + first,
            u32::MAX - 4,
            u32::MAX,
        ] {
            cases.faulty(|set| *word(set, record, FIRST) = other);
        }
        for other in 0..RINGS {
            cases.passes(|set| *word(set, record, FIRST) = 5 * other);
        }
        for count in [
            (1 << 31) + 5,
            u32::MAX,
            u32::MAX - first,
            3_u32.wrapping_sub(first),
        ] {
            cases.faulty(|set| *word(set, record, COUNT) = count);
        }
        for count in [MOST_POINTS, MOST_POINTS + 1] {
            cases.faulty(|set| *word(set, record, COUNT) = count as u32);
        }
    }
}

/// Rings of none to four points, each closed.
fn counts(cases: &mut Cases) {
    for record in 0..RINGS {
        for count in 0..=4 {
            cases.case(count >= 4, |set| {
                *word(set, record, COUNT) = count as u32;
                let ring = points(set, record);
                let last = 2 * usize::max(count, 1) - 2;
                ring.copy_within(..2, last);
            });
        }
    }
}

/// Coordinates about 8,192 in every place. The last point goes with the first.
fn coordinates(cases: &mut Cases) {
    for (record, place) in (0..RINGS).flat_map(|record| (0..8).map(move |place| (record, place))) {
        for coordinate in [
            LARGEST - 1,
            LARGEST,
            LARGEST + 1,
            2 * LARGEST,
            1 << 15,
            u16::MAX,
        ] {
            cases.case(coordinate <= LARGEST, |set| {
                let ring = points(set, record);
                ring[place] = coordinate;
                ring.copy_within(..2, 8);
            });
        }
    }
    for coordinate in [LARGEST + 1, u16::MAX] {
        cases.passes(|set| set.points.extend([coordinate; 3]));
    }
}

/// The last point differs from the first in x, in y or in both.
fn closings(cases: &mut Cases) {
    for record in 0..RINGS {
        for [across, down] in [[1, 0], [0, 1], [1, 1], [256, 0], [0, 256]] {
            cases.faulty(|set| {
                let ring = points(set, record);
                ring[8] += across;
                ring[9] += down;
            });
            cases.passes(|set| {
                let ring = points(set, record);
                ring[6] += across;
                ring[7] += down;
            });
        }
    }
}

/// Classes that there are not, whatever the owner; and the other class with an owner that suits it.
fn classes(cases: &mut Cases) {
    for record in 0..RINGS {
        for class in [
            2,
            3,
            255,
            256,
            257,
            1 << 16,
            1 << 31,
            (1 << 31) + 1,
            u32::MAX,
        ] {
            for owner in [record, FATES[record as usize][1], 1, NOBODY] {
                cases.faulty(|set| {
                    *word(set, record, CLASS) = class;
                    *word(set, record, OWNER) = owner;
                });
            }
        }
        cases.passes(|set| {
            *word(set, record, CLASS) = POLYGON;
            *word(set, record, OWNER) = record;
        });
        let owns_no_hole = FATES.iter().all(|fate| *fate != [HOLE, record]);
        cases.case(owns_no_hole, |set| {
            *word(set, record, CLASS) = HOLE;
            *word(set, record, OWNER) = NOBODY;
        });
    }
}

/// Numbers that are other ones, or come back to those of records in fewer bits.
fn others() -> impl Iterator<Item = u32> {
    let far = [8, 16, 30, 31].into_iter();
    let wrapped = far.flat_map(|bits| (0..RINGS).map(move |number| (1 << bits) + number));
    (0..RINGS + 3).chain(wrapped).chain([NOBODY - 1, NOBODY])
}

fn owners_of_polygons(cases: &mut Cases) {
    for record in numbers_of(POLYGON) {
        for owner in others() {
            cases.case(owner == record, |set| *word(set, record, OWNER) = owner);
        }
    }
}

/// A polygon's number or nobody; a polygon that stands behind the stated rings is none.
fn owners_of_holes(cases: &mut Cases) {
    for record in numbers_of(HOLE) {
        for owner in others() {
            let passes = owner == NOBODY || numbers_of(POLYGON).any(|number| number == owner);
            cases.case(passes, |set| *word(set, record, OWNER) = owner);
        }
        for stated in [RINGS, RINGS + 1] {
            cases.case(stated > RINGS, |set| {
                *word(set, record, OWNER) = RINGS;
                set.push(&RING, POLYGON, RINGS);
                set.rings = stated;
            });
        }
    }
}

/// Areas of one ring that are not its own, in every way: of a ring that runs either way, of one without area, and of
/// two that run round so often that their areas need both words.
fn areas(cases: &mut Cases) {
    let mut tried = Tried::default();
    let wound = wound(40);
    for ring in [&RING[..], &turned(&RING), &FLAT, &wound, &turned(&wound)] {
        for record in 0..RINGS {
            let mut set = sample_with(record, ring);
            cases.compare(true, &set);
            for (fault, other) in faulty_areas(area(words(&mut set, record))) {
                set_area(words(&mut set, record), other);
                cases.compare(false, &set);
                tried.count(fault);
            }
        }
    }
    cases.tally.area_faults(tried);
}

/// A ring that runs round the largest square so many times. Its area is 2^27 times as many.
pub fn wound(rounds: usize) -> Vec<u16> {
    let round = [0, 0, LARGEST, 0, LARGEST, LARGEST, 0, LARGEST];
    [&round.repeat(rounds)[..], &round[..2]].concat()
}

/// A ring run the other way.
pub fn turned(ring: &[u16]) -> Vec<u16> {
    ring.chunks_exact(2).rev().flatten().copied().collect()
}

/// The records of the sample set that have this class.
fn numbers_of(class: u32) -> impl Iterator<Item = u32> {
    (0..RINGS).filter(move |&number| FATES[number as usize][0] == class)
}
