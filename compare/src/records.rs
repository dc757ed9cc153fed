//! The words of a directory record, for all who make or read one.

use crate::declared::RECORD_WORDS;
use std::ops::Range;
use std::slice::{ChunksExact, ChunksExactMut};

/// Which word of a record is which.
pub const FIRST: usize = 0;
pub const COUNT: usize = 1;
pub const CLASS: usize = 2;
pub const OWNER: usize = 3;
pub const AREA_LOW: usize = 4;
pub const AREA_HIGH: usize = 5;

pub type Record = [u32; RECORD_WORDS];

/// A class and an owner.
pub type Fate = [u32; 2];

/// Puts a signed area into a record, in two's complement, its low word first.
pub fn set_area(record: &mut [u32], area: i64) {
    record[AREA_LOW] = area as u32;
    record[AREA_HIGH] = (area >> 32) as u32;
}

/// The signed area that a record holds.
pub fn area(record: &[u32]) -> i64 {
    i64::from(record[AREA_HIGH] as i32) << 32 | i64::from(record[AREA_LOW])
}

/// The class and owner that a record holds.
pub fn fate(record: &[u32]) -> Fate {
    [record[CLASS], record[OWNER]]
}

/// The records of a directory.
pub fn records(directory: &[u32]) -> ChunksExact<u32> {
    directory.chunks_exact(RECORD_WORDS)
}

/// The same, to be changed.
pub fn records_mut(directory: &mut [u32]) -> ChunksExactMut<u32> {
    directory.chunks_exact_mut(RECORD_WORDS)
}

/// The place of a record's ring among the points' words.
pub fn place(record: &[u32]) -> Range<usize> {
    let [first, count] = [FIRST, COUNT].map(|word| 2 * record[word] as usize);
    first..first + count
}
