//! Times our library, and beside it in one run and turn by turn the crate or our own rings, and the time to
//! read the values once.

#[cfg(feature = "before")]
mod before;
mod both_rules;
/// The functions of our library, declared once for all who call it from Rust.
#[allow(dead_code)]
#[path = "../../bindings/rust/src/ffi.rs"]
mod declared;
/// The plain writer, which compare holds our library to.
#[path = "../../compare/src/geojson.rs"]
mod geojson;
mod ours;
/// The words of a record, as compare has them.
#[allow(dead_code)]
#[path = "../../compare/src/records.rs"]
mod records;
#[cfg(feature = "rows")]
mod rows;
/// The rules, as compare has them.
#[allow(dead_code)]
#[path = "../../compare/src/rules.rs"]
mod rules;
#[cfg(any(feature = "before", feature = "rows"))]
mod tables;
mod terrains;
mod texts;
mod theirs;
#[cfg(feature = "why")]
mod why;

use ours::Drawn;
use std::time::{Duration, Instant};
use terrains::{Against, Figure, Line, Terrain};

const RUNS: usize = 5;

/// How many turns the rules take, and the libraries, for each run.
const TURNS: usize = 5;

/// The median times of one line, and what the plain pass counted.
struct Times {
    other: Duration,
    ours: Duration,
    pass: Duration,
    above: usize,
}

fn main() {
    let runs = match std::env::args().nth(1).map(|word| word.parse()) {
        None => RUNS,
        Some(Ok(runs)) if runs > 0 => runs,
        Some(_) => {
            eprintln!("the number of runs is a whole number above 0");
            std::process::exit(2);
        }
    };
    let beginning = std::env::args().nth(2).unwrap_or_default();
    let asked = |name: &str| name.starts_with(&beginning);
    let lines = terrains::LINES.into_iter();
    let mut closing: Vec<String> = lines
        .filter(|(name, _, figure, _)| asked(name) && figure.is_in_library())
        .map(|line| bench(line, runs))
        .collect();
    for line in terrains::BOTH_RULES
        .into_iter()
        .filter(|line| asked(line.0))
    {
        closing.extend(both_rules::bench(line, runs));
    }
    if cfg!(feature = "geojson") {
        for line in terrains::TEXTS.into_iter().filter(|line| asked(line.0)) {
            closing.push(texts::bench(line, runs));
        }
    } else {
        println!("the GeoJSON writer is not in the library: not timed");
    }
    #[cfg(feature = "rows")]
    for line in terrains::ROWS.into_iter().filter(|line| asked(line.0)) {
        closing.push(rows::bench(line, runs));
    }
    #[cfg(not(feature = "rows"))]
    println!("the row form is not in the library: not timed");
    #[cfg(feature = "why")]
    for line in terrains::WHY.into_iter().filter(|line| asked(line.0)) {
        closing.push(why::bench(line, runs));
    }
    #[cfg(not(feature = "why"))]
    println!("the fate of a ring is not in the library: not timed");
    #[cfg(feature = "before")]
    for line in terrains::BEFORE.into_iter().filter(|line| asked(line.0)) {
        closing.extend(before::bench(line, runs));
    }
    #[cfg(not(feature = "before"))]
    println!("CONTOUR_C_BEFORE names no earlier library: the lines times before-.. are left out");
    if !cfg!(feature = "regions") {
        println!("contours and bands are not in the library: not timed");
    }
    if !cfg!(feature = "lines") {
        println!("lines are not in the library: not timed");
    }
    for line in closing {
        println!("{line}");
    }
}

/// Prints the times of a line and returns the line to close with.
fn bench((name, make, figure, against): Line, runs: usize) -> String {
    let terrain = make();
    let (points, rings) = check(name, &terrain, figure, against);
    let times = measure(&terrain, figure, against, runs);
    let (other, quotient, over) = match against {
        Against::Crate => ("crate", "ratio", [times.other, times.ours]),
        Against::OurRings => ("our rings", "times", [times.ours, times.other]),
    };
    println!(
        "{name}: {} by {}, {} above, S {}, R {rings}: {other} {}, ours {}, one pass {}",
        terrain.dx,
        terrain.dy,
        times.above,
        points - rings,
        shown(times.other),
        shown(times.ours),
        shown(times.pass)
    );
    let [over, under] = over.map(|time| time.as_secs_f64());
    format!("{quotient} {name} {:.2}", over / under)
}

/// Both sides draw the same, or there is nothing to time: the same rings, polygons or lines where the crate is
/// asked, else the same points. Returns how many points and rings there are.
fn check(name: &str, terrain: &Terrain, figure: Figure, against: Against) -> (usize, usize) {
    let drawn = ours::draw(terrain, figure);
    let same = match against {
        Against::Crate => theirs::draw(terrain, figure).groups() == theirs::groups_of(&drawn),
        Against::OurRings => {
            let sets = our_rings(terrain, figure);
            let words = sets.iter().flat_map(Drawn::words);
            words.eq(drawn.words())
        }
    };
    assert!(same, "{name}: the two sides draw different things");
    (drawn.words().count() / 2, drawn.records().count())
}

/// Our rings at each threshold.
fn our_rings(terrain: &Terrain, figure: Figure) -> Vec<Drawn> {
    let thresholds = figure.thresholds().iter();
    thresholds
        .map(|&threshold| ours::draw(terrain, Figure::Rings(threshold)))
        .collect()
}

/// Each side in turn, so that a disturbance meets both. What a call gave is given up after its time is
/// taken.
fn measure(terrain: &Terrain, figure: Figure, against: Against, runs: usize) -> Times {
    let (mut other, mut ours, mut pass) = (Vec::new(), Vec::new(), Vec::new());
    let mut above = 0;
    for _ in 0..runs {
        other.push(match against {
            Against::Crate => timed(|| theirs::draw(terrain, figure)).0,
            Against::OurRings => timed(|| our_rings(terrain, figure)).0,
        });
        ours.push(timed(|| ours::draw(terrain, figure)).0);
        let (time, counted) = timed(|| terrain.count_above(figure.thresholds()[0]));
        pass.push(time);
        above = counted;
    }
    Times {
        other: median(other),
        ours: median(ours),
        pass: median(pass),
        above,
    }
}

fn timed<T>(call: impl FnOnce() -> T) -> (Duration, T) {
    let start = Instant::now();
    let result = call();
    (start.elapsed(), result)
}

/// The shortest time of a call in each of two ways, taken in turns.
fn shortest<W: Copy, T>(turns: usize, ways: [W; 2], mut call: impl FnMut(W) -> T) -> [Duration; 2] {
    let mut times = [Duration::MAX; 2];
    for _ in 0..turns {
        for (shortest, way) in times.iter_mut().zip(ways) {
            *shortest = timed(|| call(way)).0.min(*shortest);
        }
    }
    times
}

/// The last of two times over the first.
fn quotient([under, over]: [Duration; 2]) -> f64 {
    over.as_secs_f64() / under.as_secs_f64()
}

fn median(mut times: Vec<Duration>) -> Duration {
    times.sort();
    times[times.len() / 2]
}

fn shown(time: Duration) -> String {
    format!("{:.2} ms", 1000.0 * time.as_secs_f64())
}
