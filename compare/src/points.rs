//! Points as table words: 16 bits each, or for lines the bit patterns of floats. Which of the two, the kind says;
//! tables and calls are not known here.

use crate::kinds::Kind;
use std::ops::Range;

#[derive(Clone, PartialEq)]
pub enum Points {
    Words(Vec<u16>),
    Patterns(Vec<u64>),
}

/// The words of guards. That of floats is a NaN, whose bits no call may change either.
const WORD_GUARD: u16 = 0xCA5E;
const PATTERN_GUARD: u64 = 0x7FF4_C0DE_CA5E_C0DE;
/// Makes a NaN of any odd pattern.
const NAN: u64 = 0x7FF0_0000_0000_0000;
/// Stands for every NaN in what is expected of a call. No table holds it before one.
const ANY_NAN: u64 = 0x7FF8_416E_794E_614E;

impl Points {
    /// So many guards, of the words that this kind has for points.
    pub fn guards(kind: Kind, count: usize) -> Self {
        match kind {
            Kind::Lines => Points::Patterns(vec![PATTERN_GUARD; count]),
            _ => Points::Words(vec![WORD_GUARD; count]),
        }
    }

    /// The patterns that a call has to write for these floats. Any NaN is as good as another.
    pub fn expected(floats: impl Iterator<Item = f64>) -> Self {
        let pattern = |float: f64| match float.is_nan() {
            true => ANY_NAN,
            false => float.to_bits(),
        };
        Points::Patterns(floats.map(pattern).collect())
    }

    pub fn len(&self) -> usize {
        match self {
            Points::Words(words) => words.len(),
            Points::Patterns(patterns) => patterns.len(),
        }
    }

    /// Numbers for some of the words. A float gets the number for its pattern, a NaN's where that is odd.
    pub fn fill(&mut self, range: Range<usize>, mut number: impl FnMut() -> u64) {
        match self {
            Points::Words(words) => words[range].fill_with(|| number() as u16),
            Points::Patterns(patterns) => patterns[range].fill_with(|| match number() {
                odd if odd % 2 == 1 => odd | NAN,
                even => even,
            }),
        }
    }

    /// Other points in place of the words from this one on.
    pub fn put(&mut self, at: usize, points: &Points) {
        let range = at..at + points.len();
        match (self, points) {
            (Points::Words(to), Points::Words(from)) => to[range].copy_from_slice(from),
            (Points::Patterns(to), Points::Patterns(from)) => to[range].copy_from_slice(from),
            _ => unreachable!("points of two kinds"),
        }
    }

    /// Some of the words as they stand in others.
    #[cfg(feature = "rows")]
    pub fn adopt(&mut self, range: Range<usize>, other: &Points) {
        match (self, other) {
            (Points::Words(to), Points::Words(from)) => {
                to[range.clone()].copy_from_slice(&from[range])
            }
            _ => unreachable!("only rings come row by row"),
        }
    }

    /// Where the words from this one on stand.
    pub fn words_at(&mut self, at: usize) -> *mut u16 {
        match self {
            Points::Words(words) => words[at..].as_mut_ptr(),
            Points::Patterns(_) => unreachable!("the points of lines are floats"),
        }
    }

    /// Where the floats from this one on stand.
    #[cfg(feature = "lines")]
    pub fn floats_at(&mut self, at: usize) -> *mut f64 {
        match self {
            Points::Words(_) => unreachable!("only the points of lines are floats"),
            Points::Patterns(patterns) => patterns[at..].as_mut_ptr().cast(),
        }
    }

    /// The first word that is not as expected, and what was expected and what came.
    pub fn difference(&self, expected: &Points) -> Option<(usize, String)> {
        let k = (0..self.len()).find(|&k| !self.matches(expected, k))?;
        let (wanted, got) = (expected.shown(k), self.shown(k));
        Some((k, format!("expected {wanted}, got {got}")))
    }

    /// Whether a word is as expected: bit for bit, unless any NaN is.
    fn matches(&self, expected: &Points, k: usize) -> bool {
        match (self, expected) {
            (Points::Words(got), Points::Words(wanted)) => got[k] == wanted[k],
            (Points::Patterns(got), Points::Patterns(wanted)) => match wanted[k] {
                ANY_NAN => f64::from_bits(got[k]).is_nan(),
                wanted => got[k] == wanted,
            },
            _ => unreachable!("points of two kinds"),
        }
    }

    /// A word to be read: a float with its pattern.
    fn shown(&self, k: usize) -> String {
        match self {
            Points::Words(words) => words[k].to_string(),
            Points::Patterns(patterns) if patterns[k] == ANY_NAN => "any NaN".to_string(),
            Points::Patterns(patterns) => {
                format!("{:?} ({:#018x})", f64::from_bits(patterns[k]), patterns[k])
            }
        }
    }

    /// The points of some of the words: (x,y)(x,y) and so on.
    pub fn listed(&self, range: Range<usize>) -> String {
        let coordinate = |k: usize| match self {
            Points::Words(words) => words[k].to_string(),
            Points::Patterns(patterns) => f64::from_bits(patterns[k]).to_string(),
        };
        let points = range.step_by(2);
        points
            .map(|k| format!("({},{})", coordinate(k), coordinate(k + 1)))
            .collect()
    }
}
