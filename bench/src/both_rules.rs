//! Times our rings by "more than": turn by turn with the crate's at the next larger float, which are the same; then turn
//! by turn with our own by "at least", and the first reports alone.

use crate::ours;
use crate::rules::{next_larger, Rule, AT_LEAST, MORE_THAN};
use crate::terrains::{Figure, Text};
use crate::{median, quotient, shortest, shown, theirs, timed, TURNS};

/// Both rules, "more than" last.
const RULES: [Rule; 2] = [AT_LEAST, MORE_THAN];

/// Prints the times of a terrain and returns the lines to close with. Both sides draw the same, or there is nothing to
/// time.
pub fn bench((name, make, threshold): Text, runs: usize) -> [String; 3] {
    let terrain = make();
    let figure = Figure::Rings(threshold);
    let next = Figure::Rings(next_larger(threshold));
    let draw = |rule| ours::draw_by(&terrain, figure, rule);
    let report = |rule| ours::report(&terrain, figure, rule);
    let drawn = draw(MORE_THAN);
    let same = theirs::draw(&terrain, next).groups() == theirs::groups_of(&drawn);
    assert!(same, "{name}: the two sides draw different things");
    let [mut other, mut ours] = [0; 2].map(|_| Vec::with_capacity(runs));
    for _ in 0..runs {
        other.push(timed(|| theirs::draw(&terrain, next)).0);
        ours.push(timed(|| draw(MORE_THAN)).0);
    }
    let sides = [other, ours].map(median);
    let drawings = shortest(TURNS * runs, RULES, draw);
    let reports = shortest(TURNS * runs, RULES, report);
    let [other, ours] = sides.map(shown);
    let [[at_least, more_than], [scan_at_least, scan_more_than]] =
        [drawings, reports].map(|times| times.map(shown));
    println!(
        "{name}: {} by {}, S {}, R {}: crate {other}, ours {ours}; in turns with \"at least\" {more_than} and {at_least}, \
         the first reports {scan_more_than} and {scan_at_least}",
        terrain.dx,
        terrain.dy,
        report(MORE_THAN)[0],
        drawn.records().count(),
    );
    let scan = name.replace("more-", "more-scan-");
    [
        format!("ratio {name} {:.2}", 1.0 / quotient(sides)),
        format!("times {name} {:.2}", quotient(drawings)),
        format!("times {scan} {:.2}", quotient(reports)),
    ]
}
