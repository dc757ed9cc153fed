//! A ring set as it is lent to be read, with guards about what stands in memory, and a ring set in words. The writer
//! and the calls that explain take their sets from here.

use crate::declared::RECORD_WORDS;
use crate::guarded::Guarded;
use crate::ring_sets::RingSet;
use crate::tally::{listed, Tally};

/// Guards of the points, above every limit, and of the directory.
const POINT_GUARD: u16 = 0xCA5E;
const WORD_GUARD: u32 = 0xC0DE_CA5E;
/// How many words of a directory a description shows.
const WORDS_SHOWN: usize = 20 * RECORD_WORDS;

pub struct LentSet<'a> {
    pub set: &'a RingSet,
    points: Guarded<u16>,
    directory: Guarded<u32>,
}

impl<'a> LentSet<'a> {
    pub fn new(set: &'a RingSet) -> Self {
        LentSet {
            set,
            points: Guarded::new(&set.points, POINT_GUARD),
            directory: Guarded::new(&set.directory, WORD_GUARD),
        }
    }

    /// Where the points stand, and how many words of them are lent.
    #[cfg(any(feature = "geojson", feature = "why"))]
    pub fn points(&self) -> (*const u16, usize) {
        (self.points.place(), self.set.lent_points().len())
    }

    /// The same of the directory.
    #[cfg(any(feature = "geojson", feature = "why"))]
    pub fn directory(&self) -> (*const u32, usize) {
        (self.directory.place(), self.set.lent_directory().len())
    }

    /// Compares what stands in memory with what was lent.
    pub fn compare_still(&self, tally: &mut Tally) {
        let still =
            self.points.is_still(&self.set.points) && self.directory.is_still(&self.set.directory);
        let difference = (!still).then(|| "a change of the words lent".to_string());
        tally.holds(difference, || {
            format!("after all calls, {}", described(self.set))
        });
    }
}

/// A ring set in words.
pub fn described(set: &RingSet) -> String {
    let (points, directory) = (listed(set.lent_points()), set.lent_directory());
    let shown = &directory[..directory.len().min(WORDS_SHOWN)];
    let more = if shown.len() < directory.len() {
        " and so on"
    } else {
        ""
    };
    format!(
        "{} rings, directory {shown:?}{more}, points {points}",
        set.rings
    )
}
