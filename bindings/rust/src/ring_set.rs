//! Calls of the library's functions that read a ring set.

use crate::Refusal;

/// Calls a function with a ring set: with what it takes ahead of the set, in brackets, and what it takes behind it.
macro_rules! read {
    ($function:ident $([$($ahead:expr),* $(,)?])?, $set:expr $(, $behind:expr)* $(,)?) => {{
        let $crate::Rings {
            points, directory, ..
        } = *$set;
        let rings = $crate::ring_set::word(directory.len())?;
        // Safety: the library reads what is lent and writes the outputs lent, within the lengths passed beside
        // them.
        $crate::Refusal::of(unsafe {
            $crate::ffi::$function(
                $($($ahead,)*)?
                points.as_ptr().cast(),
                2 * points.len(),
                directory.as_ptr().cast(),
                $crate::ffi::RECORD_WORDS * directory.len(),
                rings,
                $($behind),*
            )
        })
    }};
}

pub(crate) use read;

/// A number as a word of the directory. A set that is too large for one is no set that the library takes.
pub(crate) fn word(number: usize) -> Result<u32, Refusal> {
    u32::try_from(number).map_err(|_| Refusal::RingSet)
}
