//! The writer on ring sets without fault: those of contours and bands, those that nobody draws, and the largest.

use crate::asked::Asked;
use crate::declared::RECORD_WORDS;
use crate::directory::{record, HOLE, NOBODY, POLYGON};
use crate::drawing::Drawing;
use crate::exact::{LARGEST, MOST_POINTS};
use crate::made_sets::{made, turn};
use crate::oracle::halved;
use crate::random::Random;
use crate::records::{area, set_area, COUNT, FIRST, OWNER};
use crate::ring_sets::{drawn_text, RingSet};
use crate::set_faults::{turned, wound, FLAT};
use crate::tally::Tally;
use crate::text_calls::{compare_set, Expected};

/// How many random sets a round has.
const SETS: usize = 20_000;

/// A contour or band.
pub fn compare_drawn(tally: &mut Tally, random: &mut Random, asked: &Asked) -> Drawing {
    let drawing = Drawing::of(asked).expect("a question that passes");
    let (set, text) = (RingSet::of(&drawing), drawn_text(&drawing));
    compare_set(tally, random, &set, Expected::Text(&text));
    drawing
}

/// No ring at all, and one ring with every coordinate there is.
pub fn every_coordinate(tally: &mut Tally, random: &mut Random) {
    let mut set = RingSet::default();
    compare_good(tally, random, &set);
    let points = (0..=LARGEST).flat_map(|c| [c, LARGEST - c]);
    let ring: Vec<u16> = points.chain([0, LARGEST]).collect();
    set.push(&ring, POLYGON, 0);
    compare_good(tally, random, &set);
}

/// Rings as polygon and as hole, run either way: round once; round so often that the low word of the area has the other
/// sign, or is 0; and without area, there and back or on one point.
pub fn either_way(tally: &mut Tally, random: &mut Random) {
    for ring in [
        &wound(1)[..],
        &wound(24),
        &wound(32),
        &FLAT,
        &FLAT[..2].repeat(4),
    ] {
        for ring in [ring, &turned(ring)] {
            let mut set = RingSet::default();
            set.push(ring, POLYGON, 0);
            set.push(ring, HOLE, 0);
            compare_good(tally, random, &set);
        }
    }
}

/// A contour or band with each ring run the other way or not: the text is that of the crate's polygons all the same.
pub fn compare_turned(tally: &mut Tally, random: &mut Random, asked: &Asked) -> Drawing {
    let drawing = Drawing::of(asked).expect("a question that passes");
    let (mut set, text) = (RingSet::of(&drawing), drawn_text(&drawing));
    turn(random, &mut set);
    assert!(
        set.text().as_ref() == Some(&text),
        "another text of rings run the other way"
    );
    compare_set(tally, random, &set, Expected::Text(&text));
    drawing
}

/// Sets made by hand, in slopes that cells draw.
pub fn made_sets(tally: &mut Tally, random: &mut Random) {
    for _ in 0..SETS {
        let set = made(random);
        compare_good(tally, random, &set);
    }
}

/// Sets that no terrain need have: records in any order, and points that belong to several records or to none.
pub fn any_sets(tally: &mut Tally, random: &mut Random) {
    for _ in 0..SETS {
        let set = random_set(random);
        compare_good(tally, random, &set);
    }
}

fn compare_good(tally: &mut Tally, random: &mut Random, set: &RingSet) {
    assert!(!set.is_faulty(), "a set with a fault");
    compare_any(tally, random, set);
}

/// Any set: its text, or number 9.
pub fn compare_any(tally: &mut Tally, random: &mut Random, set: &RingSet) {
    let text = set.text();
    compare_set(tally, random, set, Expected::of(&text));
}

/// Up to a dozen closed rings of any points. Holes belong to any polygon or to nobody, before it or behind it. Some
/// records have the points of others, and between the points of two rings and behind the stated records any words
/// may stand.
pub fn random_set(random: &mut Random) -> RingSet {
    let (rings, share) = (random.below(13), random.below(9));
    let reach = random.pick(&[3, 25, 250, usize::from(LARGEST)]);
    let classes = random_classes(random, rings, share);
    let mut set = RingSet::default();
    for (number, &class) in (0..).zip(&classes) {
        let owner = random_owner(random, &classes, number);
        let words = 2 * random.between(3, 12);
        let mut ring: Vec<u16> = (0..words)
            .map(|_| random.between(0, reach) as u16)
            .collect();
        ring.extend_from_within(..2);
        set.push(&ring, class, owner);
        if random.once_in(4) {
            let points = random.between(1, 3);
            extend(random, &mut set.points, 2 * points);
        }
    }
    for _ in 0..random.below(rings + 1) {
        let [from, to] = [0; 2].map(|_| RECORD_WORDS * random.below(rings));
        set.directory.copy_within(from + FIRST..=from + COUNT, to);
    }
    set.right_areas();
    if random.once_in(3) {
        let [words, more_words] = [0; 2].map(|_| random.below(9));
        extend(random, &mut set.points, words);
        extend(random, &mut set.directory, more_words);
    }
    set
}

/// So many classes, of which this share of eight are polygons.
pub fn random_classes(random: &mut Random, rings: usize, share: usize) -> Vec<u32> {
    let classes = (0..rings).map(|_| match random.below(8) < share {
        true => POLYGON,
        false => HOLE,
    });
    classes.collect()
}

/// An owner for a ring among those of these classes: itself for a polygon, any polygon or nobody for a hole.
pub fn random_owner(random: &mut Random, classes: &[u32], number: u32) -> u32 {
    let numbered = (0..).zip(classes);
    let polygons: Vec<u32> = numbered
        .filter_map(|(number, &class)| (class == POLYGON).then(|| number))
        .collect();
    match classes[number as usize] {
        POLYGON => number,
        _ if polygons.is_empty() || random.once_in(4) => NOBODY,
        _ => random.pick(&polygons),
    }
}

/// So many words more, of 16 bits.
fn extend<W: From<u16>>(random: &mut Random, words: &mut Vec<W>, count: usize) {
    words.extend((0..count).map(|_| W::from(random.next() as u16)));
}

/// The bound of points, where the count alone decides: one ring of 67,108,864 points, one of a point more, and four
/// rings of as many points as may be, whose text has more than 2^32 bytes. Then one of these with an area one off.
pub fn most_points(tally: &mut Tally, random: &mut Random) {
    let mut points = EQUALLY_LONG.repeat(MOST_POINTS / 4);
    let end = points.len();
    points[end - 2..].copy_from_slice(&EQUALLY_LONG[..2]);
    points.extend(&EQUALLY_LONG[..2]);
    let mut set = RingSet {
        points,
        ..RingSet::default()
    };
    let points = halved(&set.points);
    for (rings, more, off) in [(1, 0, 0), (1, 1, 0), (4, 0, 0), (1, 0, 1)] {
        let ring = &points[..MOST_POINTS + more];
        let mut long = record(0, ring, [POLYGON, 0]);
        let area = area(&long) + off;
        set_area(&mut long, area);
        let records = (0..rings).map(|number| {
            long[OWNER] = number;
            long
        });
        set.directory = records.flatten().collect();
        set.rings = rings;
        let expected = match (more, off) {
            (0, 0) => Expected::Long(most_bytes(rings)),
            _ => Expected::Faulty,
        };
        compare_set(tally, random, &set, expected);
    }
}

/// A round of four points, each of which has 16 bytes in a text, the comma between two among them.
const EQUALLY_LONG: [u16; 8] = [8_191, 8_189, 8_187, 8_185, 8_183, 8_181, 8_179, 8_177];

/// The bytes of so many polygons of as many such points as may be: those of rings of five points, and 16 for each
/// point more.
fn most_bytes(rings: u32) -> u64 {
    let mut set = RingSet::default();
    for number in 0..rings {
        let ring = [&EQUALLY_LONG[..], &EQUALLY_LONG[..2]].concat();
        set.push(&ring, POLYGON, number);
    }
    let bytes = set.text().map_or(0, |text| text.len());
    bytes as u64 + u64::from(rings) * 16 * (MOST_POINTS as u64 - 5)
}
