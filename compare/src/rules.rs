//! The rules by which a sample is held to a threshold. The crate has one of them alone, "at least"; here stand the two
//! ways to ask it for what "more than" draws. Also for `bench`.

/// A rule by its number: 0 is "at least", and every other number "more than".
#[derive(Clone, Copy, PartialEq, Eq)]
pub struct Rule(pub u32);

pub const AT_LEAST: Rule = Rule(0);
pub const MORE_THAN: Rule = Rule(1);

impl Rule {
    /// Whether a sample is above. A NaN on either side is not, by either rule.
    pub fn is_above(self, value: f64, threshold: f64) -> bool {
        match self.0 {
            0 => value >= threshold,
            _ => value > threshold,
        }
    }

    /// Thresholds by which "at least" has the same samples above: by "more than" the next larger floats, since no value
    /// lies between. There are none if one of them is not finite.
    pub fn as_at_least(self, thresholds: &[f64]) -> Option<Vec<f64>> {
        match self.0 {
            0 => Some(thresholds.to_vec()),
            _ if !thresholds.iter().all(|t| t.is_finite()) => None,
            _ => Some(thresholds.iter().map(|&t| next_larger(t)).collect()),
        }
    }

    /// Other values and thresholds by which "at least" has the same samples above, by the definition of the rule. A
    /// sample's value is the number of thresholds that it is above, and a threshold is one more than the largest value
    /// of a sample that is not above it: at a single threshold ones and zeros, to be drawn at 1.
    pub fn as_numbers(self, values: &[f64], thresholds: &[f64]) -> (Vec<f64>, Vec<f64>) {
        let number = |&value: &f64| {
            let below = thresholds.iter().filter(|&&t| self.is_above(value, t));
            below.count() as f64
        };
        let numbers: Vec<f64> = values.iter().map(number).collect();
        let one_more = |&threshold: &f64| {
            let samples = values.iter().zip(&numbers);
            let others = samples.filter(|(&value, _)| !self.is_above(value, threshold));
            1.0 + others.fold(0.0, |most: f64, (_, &number)| most.max(number))
        };
        let thresholds = thresholds.iter().map(one_more).collect();
        (numbers, thresholds)
    }
}

/// The next larger float: of either zero the least number above it, of the largest number infinity.
pub fn next_larger(float: f64) -> f64 {
    let bits = float.to_bits();
    f64::from_bits(match float {
        float if float == 0.0 => 1,
        float if float > 0.0 => bits + 1,
        _ => bits - 1,
    })
}
