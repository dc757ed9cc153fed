//! The numbers that the library refuses with.

/// Why a call was refused: the lowest number that applies.
#[derive(Clone, Copy, Debug, PartialEq, Eq, Hash)]
#[non_exhaustive]
pub enum Refusal {
    /// 1: a side is 0 or above 4,096.
    Side,
    /// 2: the number of values is not dx·dy.
    ValueCount,
    /// 3: a band's list has fewer than two thresholds.
    Thresholds,
    /// 4: a band's list has no pair of thresholds k and k + 1.
    Pair,
    /// 9: a ring of the set has under 4 points or more than 67,108,864, is not closed, or has a coordinate
    /// above 8,192.
    RingSet,
    /// 11: an empty ring, more than 67,108,864 points, or a coordinate above 8,192.
    Ring,
    /// 13: a row has not a value for each column.
    Row,
    /// 14: a row after the last, an end before the last row, or a second end.
    Turn,
    /// 15: there is no ring or vertex of this number, or the vertex does not stand midway between two
    /// neighbouring samples of which at least one is in the terrain.
    NotThere,
    /// A number that these calls do not draw, since every table has the room that is needed.
    Other(u32),
}

impl Refusal {
    /// The number that the library returned.
    pub fn number(self) -> u32 {
        match self {
            Refusal::Side => 1,
            Refusal::ValueCount => 2,
            Refusal::Thresholds => 3,
            Refusal::Pair => 4,
            Refusal::RingSet => 9,
            Refusal::Ring => 11,
            Refusal::Row => 13,
            Refusal::Turn => 14,
            Refusal::NotThere => 15,
            Refusal::Other(number) => number,
        }
    }

    /// What the number says, in words.
    pub fn words(self) -> &'static str {
        match self.number() {
            1 => "a side of the terrain is 0 or above 4,096",
            2 => "the number of values is not columns times rows",
            3 => "the list has fewer than two thresholds",
            4 => "the list has no pair of thresholds k and k + 1",
            5 => "the open table is short",
            6 => "the link table is short",
            7 => "the points are short",
            8 => "the directory is short",
            9 => "a ring has under 4 points or over 67,108,864, is not closed or has a coordinate above 8,192",
            10 => "the room for the text is short",
            11 => "a ring is empty, has over 67,108,864 points or a coordinate above 8,192",
            13 => "the row has not a value for each column",
            14 => "all rows are there already, or not yet, or the end was taken",
            15 => "there is no ring or vertex of this number, or the vertex stands between no samples",
            _ => "no refusal of these calls",
        }
    }

    /// 0 is success.
    pub(crate) fn of(number: u32) -> Result<(), Refusal> {
        match number {
            0 => Ok(()),
            1 => Err(Refusal::Side),
            2 => Err(Refusal::ValueCount),
            3 => Err(Refusal::Thresholds),
            4 => Err(Refusal::Pair),
            9 => Err(Refusal::RingSet),
            11 => Err(Refusal::Ring),
            13 => Err(Refusal::Row),
            14 => Err(Refusal::Turn),
            15 => Err(Refusal::NotThere),
            other => Err(Refusal::Other(other)),
        }
    }
}

/// The number and its words.
impl std::fmt::Display for Refusal {
    fn fmt(&self, f: &mut std::fmt::Formatter) -> std::fmt::Result {
        write!(f, "refusal {}: {}", self.number(), self.words())
    }
}

impl std::error::Error for Refusal {}
