//! Times the fate of one ring of a contour, and beside it turn by turn the check of the ring set, which reads every point once.

use crate::ours;
use crate::records::{fate, CLASS, OWNER};
use crate::terrains::{Figure, Text};
use crate::{median, shown, timed};

/// Prints the times of a line and returns the line to close with. The ring is the hole whose owner has the highest number, so that
/// nearly every polygon is asked; its fate is what its record says, or there is nothing to time.
pub fn bench((name, make, threshold): Text, runs: usize) -> String {
    let terrain = make();
    let drawn = ours::draw(&terrain, Figure::Contours(threshold));
    let holes = (0u32..).zip(drawn.records()).filter(|(_, record)| record[CLASS] == 1);
    let (ring, record) = holes
        .max_by_key(|(_, record)| record[OWNER])
        .expect("a terrain with a hole");
    let told = ours::fate(&drawn, ring);
    assert!(told == fate(record), "{name}: another fate");
    let [mut other, mut ours] = [0; 2].map(|_| Vec::with_capacity(runs));
    for _ in 0..runs {
        other.push(timed(|| ours::check(&drawn)).0);
        ours.push(timed(|| ours::fate(&drawn, ring)).0);
    }
    let [other, ours] = [other, ours].map(median);
    println!(
        "{name}: {} by {}, R {}, {} points: check {}, fate of ring {ring}, a hole of polygon {}, {}",
        terrain.dx,
        terrain.dy,
        drawn.records().count(),
        drawn.words().count() / 2,
        shown(other),
        record[OWNER],
        shown(ours)
    );
    format!("times {name} {:.2}", ours.as_secs_f64() / other.as_secs_f64())
}
