//! Our row form beside our own rings of the whole terrain: the times of both in tables that stand ready, and the words
//! of the work tables that each needs.

use crate::declared::*;
use crate::records::{records, COUNT};
use crate::rules::AT_LEAST;
use crate::tables::{whole_need, Need, Tables};
use crate::terrains::{Rows, Terrain};
use crate::{shown, timed};
use std::time::Duration;

/// Prints the times and the words of a terrain, and returns the line to close with.
pub fn bench((name, make, threshold): Rows, runs: usize) -> String {
    let terrain = make();
    let whole_need = whole_need(&terrain, threshold);
    let mut whole = Tables::new(whole_need);
    let rings = whole.draw(contour_rings, &terrain, threshold);
    let need = check(name, &terrain, threshold, &whole, rings);
    let mut rows = Tables::new(need);
    let [mut by_rows, mut at_once] = [Duration::MAX; 2];
    for _ in 0..runs {
        at_once = at_once.min(timed(|| whole.draw(contour_rings, &terrain, threshold)).0);
        by_rows = by_rows.min(timed(|| rows.draw_rows(&terrain, threshold, |_, _| ())).0);
    }
    let ([lines, links, ..], [whole_lines, whole_links, ..]) = (need, whole_need);
    println!(
        "{name}: {} by {}, S {}, R {rings}: our rings {}, by rows {}, open table {lines} of \
         {whole_lines} words, link table {links} of {whole_links}",
        terrain.dx,
        terrain.dy,
        whole_links / 2,
        shown(at_once),
        shown(by_rows),
    );
    let [by_rows, at_once] = [by_rows, at_once].map(|time| time.as_secs_f64());
    format!("times {name} {:.2}", by_rows / at_once)
}

/// All calls together give the rings of the whole form, or there is nothing to time. Returns the words that they need:
/// of the work tables those that the end leaves 0, where every word was another before.
fn check(name: &str, terrain: &Terrain, threshold: f64, whole: &Tables, rings: u32) -> Need {
    let mut tables = Tables::new(whole_need(terrain, threshold));
    tables.lines.fill(u32::MAX);
    tables.links.fill(u32::MAX);
    let (mut given, mut counts) = (Vec::new(), Vec::new());
    let [mut most_points, mut most_records] = [0; 2];
    tables.draw_rows(terrain, threshold, |points, directory| {
        most_points = most_points.max(points.len());
        most_records = most_records.max(directory.len());
        given.extend_from_slice(points);
        counts.extend(records(directory).map(|record| record[COUNT]));
    });
    let whole_counts = records(&whole.directory).map(|record| record[COUNT]);
    let same_counts = whole_counts.take(rings as usize).eq(counts);
    let same = whole.points.starts_with(&given) && same_counts;
    assert!(same, "{name}: the two sides draw different things");
    let zeros = |table: &[u32]| table.iter().take_while(|&&word| word == 0).count();
    let lines = zeros(&tables.lines);
    let bound = terrain.dx + 2 + 4 * ((terrain.dx + 2) / 2);
    assert!(lines <= bound, "{name}: an open table of {lines} words");
    [lines, zeros(&tables.links), most_points, most_records]
}

impl Tables {
    /// Every call of the row form. What each gives out, points and records, is handed on.
    fn draw_rows(
        &mut self,
        terrain: &Terrain,
        threshold: f64,
        mut given: impl FnMut(&[u16], &[u32]),
    ) {
        let Terrain { dx, dy, ref values } = *terrain;
        let mut state = [0; STATE_WORDS];
        let rule = AT_LEAST.0;
        let number = unsafe { contour_rows_begin(threshold, rule, dx, dy, state.as_mut_ptr()) };
        assert!(number == 0, "refusal {number}");
        let rows = values.chunks_exact(dx).map(Some);
        for row in rows.chain([None]) {
            let rings = self.next(&mut state, row);
            let directory = &self.directory[..RECORD_WORDS * rings as usize];
            let points: u32 = records(directory).map(|record| record[COUNT]).sum();
            given(&self.points[..2 * points as usize], directory);
        }
    }

    /// The next row, or the end; returns how many rings it gives out.
    fn next(&mut self, state: &mut [u32; STATE_WORDS], row: Option<&[f64]>) -> u32 {
        let mut rings = 0;
        macro_rules! call {
            ($function:ident, $($first:expr),*) => {
                unsafe {
                    $function(
                        $($first,)*
                        self.lines.as_mut_ptr(),
                        self.lines.len(),
                        self.links.as_mut_ptr(),
                        self.links.len(),
                        self.points.as_mut_ptr(),
                        self.points.len(),
                        self.directory.as_mut_ptr(),
                        self.directory.len(),
                        &mut rings,
                    )
                }
            };
        }
        let state = state.as_mut_ptr();
        let number = match row {
            Some(row) => call!(contour_rows_row, state, row.as_ptr(), row.len()),
            None => call!(contour_rows_end, state),
        };
        assert!(number == 0, "refusal {number}");
        rings
    }
}
