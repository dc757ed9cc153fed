//! The numbers along a side of a picture, and round lengths for its scale.

/// What a quotient may be off by, as a share of a step.
const NEAR: f64 = 1e-6;

/// A side of the map: the coordinate at which it begins, left or on top, and the one at which it ends.
#[derive(Clone, Copy, Debug)]
pub struct Axis {
    pub from: f64,
    pub to: f64,
}

/// A coordinate that is marked: where it lies between the side's ends, from 0 to 1, and its text.
#[derive(Debug, PartialEq)]
pub struct Tick {
    pub share: f64,
    pub text: String,
}

impl Axis {
    /// How far the side reaches.
    pub fn extent(&self) -> f64 {
        (self.to - self.from).abs()
    }

    /// The multiples of a round step on the side, at least so many pixels apart where it has so many in all.
    pub fn ticks(&self, pixels: f64, apart: f64) -> Vec<Tick> {
        let extent = self.extent();
        let step = round_up(extent * apart / pixels);
        // An end that is a multiple has a mark, though its quotient is rounded.
        let lowest = (self.from.min(self.to) / step - NEAR).ceil();
        let count = (self.from.max(self.to) / step + NEAR).floor() - lowest;
        if !(extent > 0.0 && step.is_finite() && (0.0..1000.0).contains(&count)) {
            return Vec::new();
        }
        let marked = (0..=count as u32).map(|k| {
            let at = (lowest + f64::from(k)) * step;
            Tick {
                share: (at - self.from) / (self.to - self.from),
                text: text(at, step),
            }
        });
        marked.collect()
    }
}

/// The least of 1, 2 or 5 times a power of ten that is not below a length.
fn round_up(length: f64) -> f64 {
    let power = 10f64.powf(length.log10().floor());
    let multiples = [1.0, 2.0, 5.0, 10.0].map(|digit| digit * power);
    multiples
        .into_iter()
        .find(|multiple| *multiple >= length)
        .unwrap_or(length)
}

/// The largest of 1, 2 or 5 times a power of ten that is not above a length.
pub fn round_down(length: f64) -> f64 {
    let power = 10f64.powf(length.log10().floor());
    let multiples = [5.0, 2.0, 1.0].map(|digit| digit * power);
    multiples
        .into_iter()
        .find(|multiple| *multiple <= length)
        .unwrap_or(length)
}

/// A multiple of a round step, with as many decimals as the step has.
pub fn text(number: f64, step: f64) -> String {
    let decimals = -(step * 1.0001).log10().floor();
    if number.abs() >= 1e12 || decimals > 9.0 {
        return format!("{number:e}");
    }
    // Adding 0 takes the sign off a zero.
    format!("{:.*}", decimals.max(0.0) as usize, number + 0.0)
}

#[cfg(test)]
mod tests {
    use super::*;

    fn texts(from: f64, to: f64, pixels: f64) -> Vec<String> {
        let ticks = Axis { from, to }.ticks(pixels, 50.0);
        ticks.into_iter().map(|tick| tick.text).collect()
    }

    #[test]
    fn ticks_are_round() {
        assert_eq!(texts(0.0, 4.0, 200.0), ["0", "1", "2", "3", "4"]);
        assert_eq!(texts(0.0, 1.0, 100.0), ["0.0", "0.5", "1.0"]);
        assert_eq!(texts(230.0, 200.0, 150.0), ["200", "210", "220", "230"]);
        assert_eq!(
            texts(-0.3, 0.3, 300.0),
            ["-0.3", "-0.2", "-0.1", "0.0", "0.1", "0.2", "0.3"]
        );
        assert_eq!(texts(5.0, 5.0, 100.0), [""; 0]);
    }

    #[test]
    fn lengths_are_round() {
        assert_eq!(
            [0.3, 1.0, 1.9, 4999.0].map(round_down),
            [0.2, 1.0, 1.0, 2000.0]
        );
    }
}
