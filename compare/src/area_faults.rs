//! Areas that are not their ring's, by the ways in which one may come about. Each way is counted, so that a run that
//! never tried one of them stops.

use crate::random::Random;
use crate::records::{area, records_mut, set_area, AREA_HIGH, AREA_LOW};
use crate::ring_sets::RingSet;

/// A way in which an area is not its ring's.
#[derive(Clone, Copy, PartialEq)]
pub enum AreaFault {
    /// One more or one less.
    OneOff,
    /// 2^32 more or less, which the low word does not show.
    WordOff,
    /// That of the ring run the other way.
    Opposite,
    /// The high word first.
    Exchanged,
    /// One bit is another.
    BitOff,
}

use AreaFault::{BitOff, Exchanged, OneOff, Opposite, WordOff};

/// All ways, and what is said of such areas.
const NAMED: [(AreaFault, &str); 5] = [
    (OneOff, "off by one"),
    (WordOff, "off by 2^32"),
    (Opposite, "of opposite sign"),
    (Exchanged, "with their words exchanged"),
    (BitOff, "with another bit"),
];

/// How often each way was tried on a set that has no other fault.
#[derive(Clone, Copy, Default)]
pub struct Tried([u64; NAMED.len()]);

impl Tried {
    pub fn count(&mut self, fault: AreaFault) {
        let place = NAMED.iter().position(|&(named, _)| named == fault);
        self.0[place.expect("every way has a name")] += 1;
    }

    /// Stops the run if a way was never tried.
    pub fn hold(&self) {
        assert!(!self.0.contains(&0), "never tried: {}", self.shown());
    }

    pub fn add(&mut self, more: Tried) {
        for (sum, tried) in self.0.iter_mut().zip(more.0) {
            *sum += tried;
        }
    }

    /// The counts in words.
    pub fn shown(&self) -> String {
        let counts = NAMED.iter().zip(self.0);
        let counts: Vec<_> = counts.map(|((_, name), n)| format!("{n} {name}")).collect();
        counts.join(", ")
    }
}

/// Every area that is made of a ring's own in one of the ways, and the way.
pub fn faulty_areas(own: i64) -> Vec<(AreaFault, i64)> {
    let mut words = [0; AREA_HIGH + 1];
    set_area(&mut words, own);
    words.swap(AREA_LOW, AREA_HIGH);
    let mut areas = vec![
        (OneOff, own + 1),
        (OneOff, own - 1),
        (WordOff, own + (1 << 32)),
        (WordOff, own - (1 << 32)),
        (Opposite, -own),
        (Exchanged, area(&words)),
    ];
    areas.extend((0..64).map(|bit| (BitOff, own ^ 1 << bit)));
    areas.retain(|&(_, area)| area != own);
    areas
}

/// Gives a record of a set without fault, if there is one, an area that is not its ring's. Returns the way.
pub fn spoil_area(random: &mut Random, set: &mut RingSet) -> Option<AreaFault> {
    let rings = set.rings as usize;
    let record = records_mut(&mut set.directory).nth(random.below(rings.max(1)));
    let record = record.filter(|_| rings > 0)?;
    let (way, _) = random.pick(&NAMED);
    let mut areas = faulty_areas(area(record));
    areas.retain(|&(fault, _)| fault == way);
    let (fault, area) = *areas.get(random.below(areas.len().max(1)))?;
    set_area(record, area);
    Some(fault)
}
