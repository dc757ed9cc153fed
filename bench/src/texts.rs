//! Times our library's text of a contour, and beside it turn by turn that of the plain writer, over the same tables.

use crate::ours::{self, Drawn};
use crate::records::{CLASS, OWNER};
use crate::terrains::{Figure, Text};
use crate::{geojson, median, shown, timed};
use std::iter::once;
use std::time::Duration;

/// Prints the times of a line and returns the line to close with. Both sides write the same bytes, or there is
/// nothing to time.
pub fn bench((name, make, threshold): Text, runs: usize) -> String {
    let terrain = make();
    let drawn = ours::draw(&terrain, Figure::Contours(threshold));
    let text = ours::text(&drawn);
    let same = text == plain(&drawn);
    assert!(same, "{name}: the two sides write different things");
    let bytes = text.len();
    let [mut other, mut ours] = [0; 2].map(|_| Vec::with_capacity(runs));
    for _ in 0..runs {
        other.push(timed(|| plain(&drawn)).0);
        ours.push(timed(|| ours::text(&drawn)).0);
    }
    let [other, ours] = [other, ours].map(median);
    let rate = |time: Duration| format!("{:.0} MB/s", bytes as f64 / 1e6 / time.as_secs_f64());
    println!(
        "{name}: {} by {}, {} above, R {}, {bytes} bytes: plain writer {}, {}, ours {}, {}",
        terrain.dx,
        terrain.dy,
        terrain.count_above(threshold),
        drawn.records().count(),
        shown(other),
        rate(other),
        shown(ours),
        rate(ours)
    );
    format!(
        "ratio {name} {:.2}",
        other.as_secs_f64() / ours.as_secs_f64()
    )
}

/// The plain writer's text. The holes of each polygon are gathered first. All rings of a contour run the other way than
/// RFC 7946 wants, and are written backwards.
fn plain(drawn: &Drawn) -> Vec<u8> {
    let records: Vec<&[u32]> = drawn.records().collect();
    let mut holes = vec![Vec::new(); records.len()];
    for hole in records.iter().filter(|record| record[CLASS] == 1) {
        if let Some(holes) = holes.get_mut(hole[OWNER] as usize) {
            holes.push(*hole);
        }
    }
    let with_holes = records.iter().zip(&holes);
    let polygons = with_holes.filter(|(record, _)| record[CLASS] == 0);
    geojson::text(polygons.map(|(polygon, holes)| {
        let rings = once(polygon).chain(holes);
        rings.map(|record| drawn.halves(record).rev())
    }))
}
