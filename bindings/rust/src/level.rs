//! Which samples are above: a threshold, and the rule by which they are held to it.

/// How a sample is held to a threshold. A NaN on either side is not above under either rule.
#[derive(Clone, Copy, Debug, Default, PartialEq, Eq, Hash)]
pub enum Rule {
    /// A sample is above when its value >= threshold.
    #[default]
    AtLeast,
    /// A sample is above when its value > threshold.
    MoreThan,
}

impl Rule {
    /// The rule in a word of the library.
    pub(crate) fn number(self) -> u32 {
        match self {
            Rule::AtLeast => 0,
            Rule::MoreThan => 1,
        }
    }
}

/// A threshold with its rule. A number alone stands for the samples that are at least so high.
///
/// ```
/// use nigrulent::{Level, Rule, Terrain};
/// # fn main() -> Result<(), nigrulent::Refusal> {
/// let terrain = Terrain::new(&[5.0], 1, 1)?;
/// // The sample is at least 5, and it is not more.
/// assert_eq!(terrain.rings(5.0)?.len(), 1);
/// assert_eq!(terrain.rings(Level::more_than(5.0))?.len(), 0);
/// assert_eq!(Level::from(5.0), Level { threshold: 5.0, rule: Rule::AtLeast });
/// # Ok(())
/// # }
/// ```
#[derive(Clone, Copy, Debug, PartialEq)]
pub struct Level {
    /// What samples are held to.
    pub threshold: f64,
    /// Whether one that equals it is above.
    pub rule: Rule,
}

impl Level {
    /// The level of the samples that are at least the threshold.
    pub fn at_least(threshold: f64) -> Self {
        Level {
            threshold,
            rule: Rule::AtLeast,
        }
    }

    /// The level of the samples that are more than the threshold.
    pub fn more_than(threshold: f64) -> Self {
        Level {
            threshold,
            rule: Rule::MoreThan,
        }
    }
}

impl From<f64> for Level {
    fn from(threshold: f64) -> Self {
        Level::at_least(threshold)
    }
}
