//! Times our rings and our first report alone, and beside them turn by turn those of an earlier library with the same
//! header: ours as it was before a change. Both draw into the same tables, which stand ready.

use crate::declared::{contour_first_report, contour_rings};
use crate::rules::AT_LEAST;
use crate::tables::{whole_need, DrawRings, Tables};
use crate::terrains::{Terrain, Text};
use crate::{quotient, shortest, shown, TURNS};

/// `contour_first_report`, of either library.
#[rustfmt::skip]
type FirstReport = unsafe extern "C" fn(
    *const f64, usize, f64, u32, usize, usize, *mut u32, *mut u32,
) -> u32;

#[rustfmt::skip]
extern "C" {
    /// `contour_first_report` of the earlier library, as bench/run names it.
    fn before_contour_first_report(
        values: *const f64, count: usize, threshold: f64, rule: u32, dx: usize, dy: usize, segments: *mut u32,
        peak: *mut u32,
    ) -> u32;
    /// `contour_rings` of the earlier library, as bench/run names it.
    fn before_contour_rings(
        values: *const f64, count: usize, threshold: f64, rule: u32, dx: usize, dy: usize, lines: *mut u32,
        lines_words: usize, links: *mut u32, links_words: usize, points: *mut u16, points_words: usize,
        directory: *mut u32, directory_words: usize, rings: *mut u32,
    ) -> u32;
}

/// The functions of both libraries, ours last.
const REPORTS: [FirstReport; 2] = [before_contour_first_report, contour_first_report];
const DRAWINGS: [DrawRings; 2] = [before_contour_rings, contour_rings];

/// The samples of 2,048 by 2,048. A terrain that has fewer takes as many times more turns.
const SAMPLES: usize = 2_048 * 2_048;

/// Prints the times of a terrain and returns the lines to close with.
pub fn bench((name, make, threshold): Text, runs: usize) -> [String; 2] {
    let terrain = make();
    let (mut tables, rings) = check(name, &terrain, threshold);
    let turns = TURNS * runs * (SAMPLES / terrain.values.len()).max(1);
    let drawings = shortest(turns, DRAWINGS, |draw| {
        tables.draw(draw, &terrain, threshold)
    });
    let reports = shortest(turns, REPORTS, |report| {
        first_report(report, &terrain, threshold)
    });
    let [[before, now], [scan_before, scan_now]] =
        [drawings, reports].map(|times| times.map(shown));
    println!(
        "{name}: {} by {}, S {}, R {rings}: rings before {before}, now {now}, first reports before {scan_before}, \
         now {scan_now}",
        terrain.dx,
        terrain.dy,
        tables.links.len() / 2,
    );
    let scan = name.replace("before-", "before-scan-");
    [
        format!("times {name} {:.2}", quotient(drawings)),
        format!("times {scan} {:.2}", quotient(reports)),
    ]
}

/// Both libraries report and draw the same, or there is nothing to time. Returns our tables and how many rings there
/// are.
fn check(name: &str, terrain: &Terrain, threshold: f64) -> (Tables, u32) {
    let [before, now] = REPORTS.map(|report| first_report(report, terrain, threshold));
    let same = before == now;
    assert!(same, "{name}: the two libraries report different things");
    let need = whole_need(terrain, threshold);
    let [(before, rings_before), (now, rings)] = DRAWINGS.map(|draw| {
        let mut tables = Tables::new(need);
        let rings = tables.draw(draw, terrain, threshold);
        (tables, rings)
    });
    let same =
        rings == rings_before && now.points == before.points && now.directory == before.directory;
    assert!(same, "{name}: the two libraries draw different things");
    (now, rings)
}

/// The first report of a library: S and H.
fn first_report(report: FirstReport, terrain: &Terrain, threshold: f64) -> [u32; 2] {
    let Terrain { dx, dy, ref values } = *terrain;
    let (mut segments, mut peak) = (0, 0);
    let number = unsafe {
        report(
            values.as_ptr(),
            values.len(),
            threshold,
            AT_LEAST.0,
            dx,
            dy,
            &mut segments,
            &mut peak,
        )
    };
    assert!(number == 0, "refusal {number}");
    [segments, peak]
}
