//! The entries of the row form, and their calls with a state, a row of values and the tables that they are lent. This
//! stands above `lent` and `guarded`, as `entries` does; what a call has to answer is not known here.

use crate::declared::*;
use crate::guarded::Guarded;
use crate::lent::{Lent, DIRECTORY, LINES, LINKS, RINGS};
use crate::rules::Rule;

pub use crate::declared::STATE_WORDS;

/// A state between guards. What its words mean is the library's own affair.
pub type State = Guarded<u32>;

/// A call behind the first one: a row of values, or the end.
pub enum Next {
    Row(Row),
    End,
}

/// The patterns of a row's values, and the same as they are lent.
pub struct Row {
    patterns: Vec<u64>,
    lent: Guarded<u64>,
}

impl Next {
    /// A row of these values. The guards are above every threshold that has any above it.
    pub fn row(values: impl Iterator<Item = f64>) -> Self {
        let patterns: Vec<u64> = values.map(f64::to_bits).collect();
        let lent = Guarded::new(&patterns, f64::INFINITY.to_bits());
        Next::Row(Row { patterns, lent })
    }

    /// Whether the values are still what they were.
    pub fn is_still(&self) -> bool {
        match self {
            Next::Row(row) => row.lent.is_still(&row.patterns),
            Next::End => true,
        }
    }

    /// The call in words.
    pub fn shown(&self) -> String {
        match self {
            Next::Row(row) => format!("contour_rows_row with {} values", row.patterns.len()),
            Next::End => "contour_rows_end".to_string(),
        }
    }
}

/// `contour_rows_begin`.
pub fn begin(threshold: f64, rule: Rule, dx: usize, dy: usize, state: &mut State) -> u32 {
    unsafe { contour_rows_begin(threshold, rule.0, dx, dy, state.numbers().as_mut_ptr()) }
}

/// A call behind the first one, with what is lent; returns its number.
pub fn call(next: &Next, state: &mut State, lent: &mut Lent) -> u32 {
    let [lines_words, links_words, points_words, directory_words] = lent.room.0;
    let state = state.numbers().as_mut_ptr();
    macro_rules! call {
        ($function:ident, $($first:expr),*) => {
            unsafe {
                $function(
                    $($first,)*
                    lent.at(LINES),
                    lines_words,
                    lent.at(LINKS),
                    links_words,
                    lent.words(),
                    points_words,
                    lent.at(DIRECTORY),
                    directory_words,
                    lent.at(RINGS),
                )
            }
        };
    }
    match next {
        Next::Row(row) => {
            let (values, count) = (row.lent.at().cast(), row.lent.count());
            call!(contour_rows_row, state, values, count)
        }
        Next::End => call!(contour_rows_end, state),
    }
}
