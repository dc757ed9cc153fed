//! The words of a directory record, as include/contour.h names them.

use crate::ffi::RECORD_WORDS;

/// A record of the directory.
pub(crate) type Words = [u32; RECORD_WORDS];

/// Which word is which.
pub(crate) const FIRST: usize = 0;
pub(crate) const COUNT: usize = 1;
pub(crate) const CLASS: usize = 2;
pub(crate) const OWNER: usize = 3;
const AREA_LOW: usize = 4;
const AREA_HIGH: usize = 5;

/// The record of a ring of this first point, number of points, class, owner and area.
pub(crate) fn record(first: u32, count: u32, class: u32, owner: u32, area: i64) -> Words {
    let mut record = [0; RECORD_WORDS];
    record[FIRST] = first;
    record[COUNT] = count;
    record[CLASS] = class;
    record[OWNER] = owner;
    record[AREA_LOW] = area as u32;
    record[AREA_HIGH] = (area >> 32) as u32;
    record
}

/// The signed area in a record. It is there in two's complement.
pub(crate) fn area_in(record: &Words) -> i64 {
    (u64::from(record[AREA_HIGH]) << 32 | u64::from(record[AREA_LOW])) as i64
}

#[cfg(test)]
mod tests {
    use super::*;

    #[test]
    fn areas_are_in_twos_complement_the_low_word_first() {
        for (area, low, high) in [
            (0, 0, 0),
            (68, 68, 0),
            (-4, 0xffff_fffc, 0xffff_ffff),
            (1 << 32, 0, 1),
            (-1 << 32, 0, 0xffff_ffff),
            (0x8000_0000, 0x8000_0000, 0),
            (-0x8000_0001, 0x7fff_ffff, 0xffff_ffff),
        ] {
            let words = record(7, 5, 1, 3, area);
            assert_eq!(words, [7, 5, 1, 3, low, high]);
            assert_eq!(area_in(&words), area);
        }
    }
}
