//! The colours of a picture. Heights go by viridis, turned about so that the lowest is the lightest: its steps
//! look equally far apart, also to the colour-blind and without colour.

/// Viridis at tenths, from its light end on.
const RAMP: [[f64; 3]; 11] = [
    [253.0, 231.0, 37.0],
    [189.0, 223.0, 38.0],
    [122.0, 209.0, 81.0],
    [68.0, 191.0, 112.0],
    [34.0, 168.0, 132.0],
    [33.0, 145.0, 140.0],
    [42.0, 120.0, 142.0],
    [53.0, 95.0, 141.0],
    [65.0, 68.0, 135.0],
    [72.0, 36.0, 117.0],
    [68.0, 1.0, 84.0],
];

/// What lies in no slice.
pub const GROUND: &str = "#f5f5f2";
/// Text, axes and the outlines of regions.
pub const INK: &str = "#222";
/// The page, and the ground between lines.
pub const PAPER: &str = "#fff";

/// Lines stand on paper, where the lightest colours are not seen.
const LIGHTEST_LINE: f64 = 0.25;

/// The colour of a region, by its number out of so many from the lowest on.
pub fn of_region(number: usize, count: usize) -> String {
    on_ramp(share(number, count))
}

/// The colour of a line, likewise.
pub fn of_line(number: usize, count: usize) -> String {
    on_ramp(LIGHTEST_LINE + (1.0 - LIGHTEST_LINE) * share(number, count))
}

/// How far along the ramp; one alone stands in the middle.
fn share(number: usize, count: usize) -> f64 {
    match count {
        0 | 1 => 0.5,
        _ => number as f64 / (count - 1) as f64,
    }
}

fn on_ramp(share: f64) -> String {
    let at = share * (RAMP.len() - 1) as f64;
    let lower = (at as usize).min(RAMP.len() - 2);
    let part = at - lower as f64;
    let mixed =
        |k: usize| (RAMP[lower][k] * (1.0 - part) + RAMP[lower + 1][k] * part).round() as u8;
    format!("#{:02x}{:02x}{:02x}", mixed(0), mixed(1), mixed(2))
}
