//! Which slices of the heights are drawn: what is above a level, or what lies between two.

use nigrulent::{Level, Rule};
use std::fmt;

/// A slice of the heights.
#[derive(Clone, Copy, Debug, PartialEq)]
pub enum Slice {
    /// Samples that are above this level.
    Above(Level),
    /// Samples that are above the first level and not above the second, which has the same rule.
    Between(Level, Level),
}

impl Slice {
    /// The rule by which samples are above its levels.
    pub fn rule(&self) -> Rule {
        match self {
            Slice::Above(level) | Slice::Between(level, _) => level.rule,
        }
    }
}

/// Its heights in words.
impl fmt::Display for Slice {
    fn fmt(&self, f: &mut fmt::Formatter) -> fmt::Result {
        match (*self, self.rule()) {
            (Slice::Above(level), Rule::AtLeast) => write!(f, "{} and above", level.threshold),
            (Slice::Above(level), Rule::MoreThan) => write!(f, "above {}", level.threshold),
            (Slice::Between(low, high), Rule::AtLeast) => {
                write!(f, "{} to {}", low.threshold, high.threshold)
            }
            (Slice::Between(low, high), Rule::MoreThan) => {
                write!(f, "above {} to {}", low.threshold, high.threshold)
            }
        }
    }
}

/// Whether a sample is above a level, as the library has it.
pub fn is_above(value: f64, level: Level) -> bool {
    match level.rule {
        Rule::AtLeast => value >= level.threshold,
        Rule::MoreThan => value > level.threshold,
    }
}

/// What the command line asks for.
#[derive(Clone, Debug, PartialEq)]
pub struct Wanted {
    pub heights: Heights,
    /// How samples are held to them.
    pub rule: Rule,
    /// The bands between heights that follow each other, and not what is above each.
    pub bands: bool,
    /// A collection with a feature for each slice, and not one figure.
    pub collected: bool,
}

/// The heights themselves, or the step of which they are the multiples.
#[derive(Clone, Debug, PartialEq)]
pub enum Heights {
    Listed(Vec<f64>),
    Every(f64),
}

/// As many levels as one run draws.
const MOST: f64 = 10_000.0;

impl Wanted {
    /// The slices to be drawn of a terrain with these values, from the lowest to the highest.
    pub fn slices(&self, values: &[f64]) -> Result<Vec<Slice>, String> {
        let rule = self.rule;
        let levels = match &self.heights {
            Heights::Listed(heights) => levels_at(heights, rule),
            Heights::Every(step) => multiples(*step, rule, values, self.bands)?,
        };
        Ok(match self.bands {
            true => levels
                .windows(2)
                .map(|pair| Slice::Between(pair[0], pair[1]))
                .collect(),
            false => levels.into_iter().map(Slice::Above).collect(),
        })
    }
}

fn levels_at(heights: &[f64], rule: Rule) -> Vec<Level> {
    let levels = heights.iter().map(|&threshold| Level { threshold, rule });
    levels.collect()
}

/// The multiples of a step that part the samples: the highest of them is above each, and the lowest is not. For bands
/// also the next on both sides, so that every sample lies in one.
fn multiples(step: f64, rule: Rule, values: &[f64], bands: bool) -> Result<Vec<Level>, String> {
    let numbers = || values.iter().copied().filter(|value| value.is_finite());
    let lowest = numbers().fold(f64::INFINITY, f64::min);
    let highest = numbers().fold(f64::NEG_INFINITY, f64::max);
    if lowest > highest {
        return Ok(Vec::new());
    }
    // Quotients are rounded, so there are two more than needed, and the heights themselves decide.
    let first = (lowest / step).floor() - 1.0;
    let count = (highest / step).floor() + 3.0 - first;
    if count.is_nan() || count > MOST {
        return Err(format!(
            "an interval of {step} gives more than {MOST} levels from {lowest} to {highest}"
        ));
    }
    let mut heights: Vec<f64> = (0..count as u32)
        .map(|k| without_dust((first + f64::from(k)) * step))
        .collect();
    heights.dedup();
    let levels = levels_at(&heights, rule);
    let [below, within] = [lowest, highest].map(|value| {
        levels
            .iter()
            .filter(|level| is_above(value, **level))
            .count()
    });
    Ok(match bands {
        true => levels[below.saturating_sub(1)..levels.len().min(within + 1)].to_vec(),
        false => levels[below..within].to_vec(),
    })
}

/// A product to 15 digits: three times 0.1 is 0.3 and not 0.30000000000000004.
fn without_dust(product: f64) -> f64 {
    format!("{product:.14e}")
        .parse()
        .expect("a number's own text is a number")
}

#[cfg(test)]
mod tests {
    use super::*;

    #[test]
    fn multiples_part_the_samples() {
        let of = |step, rule, values: &[f64], bands| -> Vec<f64> {
            let levels = multiples(step, rule, values, bands).unwrap();
            levels.iter().map(|level| level.threshold).collect()
        };
        let at_least = |step, values: &[f64], bands| of(step, Rule::AtLeast, values, bands);
        assert_eq!(at_least(0.1, &[0.1, 0.3, f64::NAN], false), [0.2, 0.3]);
        assert_eq!(at_least(0.1, &[0.1, 0.3], true), [0.1, 0.2, 0.3, 0.4]);
        assert_eq!(at_least(5.0, &[5.0], false), [0.0; 0]);
        assert_eq!(at_least(5.0, &[5.0], true), [5.0, 10.0]);
        let more_than = |step, values: &[f64], bands| of(step, Rule::MoreThan, values, bands);
        assert_eq!(more_than(0.1, &[0.1, 0.3, f64::NAN], false), [0.1, 0.2]);
        assert_eq!(more_than(0.1, &[0.1, 0.3], true), [0.0, 0.1, 0.2, 0.3]);
        assert_eq!(more_than(5.0, &[5.0], false), [0.0; 0]);
        assert_eq!(more_than(5.0, &[5.0], true), [0.0, 5.0]);
        for rule in [Rule::AtLeast, Rule::MoreThan] {
            assert_eq!(of(50.0, rule, &[-30.0, 70.0], false), [0.0, 50.0]);
            let bands = of(50.0, rule, &[-30.0, 70.0], true);
            assert_eq!(bands, [-50.0, 0.0, 50.0, 100.0]);
            assert_eq!(of(5.0, rule, &[7.0], false), [0.0; 0]);
            assert_eq!(of(5.0, rule, &[f64::INFINITY], true), [0.0; 0]);
            assert!(multiples(1e-300, rule, &[0.0, 1e300], false).is_err());
        }
    }
}
