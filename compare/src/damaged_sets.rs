//! Ring sets damaged at random, most of which draw number 9. Which entries a set is handed to is for the caller to say.

use crate::area_faults::{spoil_area, Tried};
use crate::asked::Asked;
use crate::declared::RECORD_WORDS;
use crate::directory::NOBODY;
use crate::drawing::Drawing;
use crate::exact::LARGEST;
use crate::kinds::Kind;
use crate::random::Random;
use crate::records::{records, CLASS, COUNT, FIRST, OWNER};
use crate::ring_sets::RingSet;
use crate::rings::{random_grid, random_pair};
use crate::set_faults::Compare;
use crate::tally::Tally;
use crate::text_checks::random_set;

/// How many sets a round damages.
const DAMAGED: usize = 30_000;

/// Contours, bands and other sets with an area that is not its ring's; or with a few words changed, a few not lent, or
/// another number of rings stated, and the areas left as they were or righted.
pub fn damaged(tally: &mut Tally, random: &mut Random, compare: Compare) {
    let mut tried = Tried::default();
    for _ in 0..DAMAGED {
        let mut set = match random.below(3) {
            0 => random_set(random),
            _ => drawn_set(random),
        };
        if random.once_in(8) {
            if let Some(fault) = spoil_area(random, &mut set) {
                assert!(set.is_faulty(), "an area that is its ring's after all");
                tried.count(fault);
            }
        } else {
            for _ in 0..random.between(1, 2) {
                damage(random, &mut set);
            }
            if random.once_in(2) {
                set.right_areas();
            }
        }
        compare(tally, random, &set);
    }
    tally.area_faults(tried);
}

/// A contour or band of a small terrain.
fn drawn_set(random: &mut Random) -> RingSet {
    let [dx, dy] = [0; 2].map(|_| random.between(1, 6));
    let grid = random_grid(random, dx, dy);
    let pair = random_pair(random, &grid.values);
    let asked = match random.below(2) {
        0 => Asked::new(Kind::Contours, &grid),
        _ => Asked::band(&grid, &pair),
    };
    let drawing = Drawing::of(&asked).expect("a question that passes");
    RingSet::of(&drawing)
}

/// One change. No more words are withheld than stand there, which may be one.
fn damage(random: &mut Random, set: &mut RingSet) {
    let rings = set.rings as usize;
    let records = rings.min(records(&set.directory).len());
    if records == 0 || set.points.is_empty() {
        set.rings = random.below(3) as u32;
        return;
    }
    let record = RECORD_WORDS * random.below(records);
    let place = random.below(set.points.len());
    let owner = random.below(rings + 1) as u32;
    let words = &mut set.directory[record..record + RECORD_WORDS];
    match random.below(10) {
        0 => set.withheld = [random.below(3).min(set.points.len()), 0],
        1 => set.withheld = [0, random.below(RECORD_WORDS + 1)],
        2 => set.rings = random.between(rings - 1, rings + 1) as u32,
        3 => {
            set.points[place] =
                random.between(usize::from(LARGEST) - 1, usize::from(LARGEST) + 2) as u16
        }
        4 => set.points[place] = random.below(usize::from(LARGEST)) as u16,
        5 => words[FIRST] = random.below(set.points.len() / 2 + 1) as u32,
        6 => words[COUNT] = random.below(words[COUNT] as usize + 2) as u32,
        7 => words[CLASS] = random.below(3) as u32,
        8 => words[OWNER] = random.pick(&[owner, NOBODY]),
        _ => words[random.below(RECORD_WORDS)] = random.next() as u32,
    }
}
