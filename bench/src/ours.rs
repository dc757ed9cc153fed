//! Our library's builds: the first report sizes the tables, then everything is drawn. And its text of what is
//! drawn.

use crate::declared::*;
use crate::records::{place, records, COUNT};
use crate::rules::{Rule, AT_LEAST};
use crate::terrains::{Figure, Terrain};
use std::ops::Range;

/// Calls one of three functions, for rings, contours or a band, with a terrain, a rule and what else it takes. The
/// last two are called only where the library has them.
macro_rules! call {
    ($terrain:expr, $figure:expr, $rule:expr, [$rings:ident, $contours:ident, $band:ident], $($rest:expr),*) => {{
        let Terrain { dx, dy, ref values, .. } = *$terrain;
        let (at, count, rule) = (values.as_ptr(), values.len(), $rule.0);
        let number = match $figure {
            Figure::Rings(t) => unsafe { $rings(at, count, t, rule, dx, dy, $($rest),*) },
            #[cfg(feature = "regions")]
            Figure::Contours(t) => unsafe { $contours(at, count, t, rule, dx, dy, $($rest),*) },
            #[cfg(feature = "regions")]
            Figure::Band(list) => unsafe {
                $band(at, count, list.as_ptr(), list.len(), rule, 0, dx, dy, $($rest),*)
            },
            _ => unreachable!("no such entry in the library"),
        };
        assert!(number == 0, "refusal {number}");
    }};
}

/// What is drawn, in tables that may be longer.
pub struct Drawn {
    points: Points,
    directory: Vec<u32>,
    rings: u32,
}

enum Points {
    Words(Vec<u16>),
    Floats(Vec<f64>),
}

impl Points {
    /// So many words for a figure.
    fn zeroed(figure: Figure, words: usize) -> Self {
        match figure {
            Figure::Lines(_) => Points::Floats(vec![0.0; words]),
            _ => Points::Words(vec![0; words]),
        }
    }

    /// Some of the words, of floats the bit patterns.
    fn part(&self, range: Range<usize>) -> Box<dyn Iterator<Item = u64> + '_> {
        match self {
            Points::Words(words) => Box::new(words[range].iter().map(|&word| word.into())),
            Points::Floats(floats) => Box::new(floats[range].iter().map(|float| float.to_bits())),
        }
    }
}

impl Drawn {
    pub fn records(&self) -> impl Iterator<Item = &[u32]> + '_ {
        records(&self.directory).take(self.rings as usize)
    }

    /// The words of all points.
    pub fn words(&self) -> impl Iterator<Item = u64> + '_ {
        let points: u32 = self.records().map(|record| record[COUNT]).sum();
        self.points.part(0..2 * points as usize)
    }

    /// A record's points, halved.
    pub fn halves(&self, record: &[u32]) -> impl DoubleEndedIterator<Item = [f64; 2]> + '_ {
        let words = match &self.points {
            Points::Words(words) => words,
            Points::Floats(_) => unreachable!("the points of lines are not doubled"),
        };
        let points = words[place(record)].chunks_exact(2);
        points.map(|p| [p[0], p[1]].map(|word| f64::from(word) / 2.0))
    }

    /// The words of a record's points.
    pub fn ring(&self, record: &[u32]) -> Vec<u64> {
        self.points.part(place(record)).collect()
    }
}

/// The first report: S and H. That of lines is that of rings.
pub fn report(terrain: &Terrain, figure: Figure, rule: Rule) -> [usize; 2] {
    let (mut segments, mut peak) = (0, 0);
    let reported = match figure {
        Figure::Lines(threshold) => Figure::Rings(threshold),
        other => other,
    };
    call!(
        terrain,
        reported,
        rule,
        [
            contour_first_report,
            contour_first_report,
            contour_band_first_report
        ],
        &mut segments,
        &mut peak
    );
    [segments, peak].map(|count| count as usize)
}

/// Draws by "at least".
pub fn draw(terrain: &Terrain, figure: Figure) -> Drawn {
    draw_by(terrain, figure, AT_LEAST)
}

/// Draws into tables allocated here. A ring has four segments or more, which bounds the rings before they
/// are drawn.
pub fn draw_by(terrain: &Terrain, figure: Figure, rule: Rule) -> Drawn {
    let [segments, peak] = report(terrain, figure, rule);
    let sets = figure.thresholds().len();
    let mut lines = vec![0; 4 * peak + terrain.dx + 2];
    let mut links = vec![0; 2 * segments];
    let mut drawn = Drawn {
        points: Points::zeroed(figure, sets * 2 * (segments + segments / 4)),
        directory: vec![0; sets * RECORD_WORDS * (segments / 4)],
        rings: 0,
    };
    let Drawn {
        points,
        directory,
        rings,
    } = &mut drawn;
    match points {
        #[cfg(feature = "lines")]
        Points::Floats(floats) => {
            let tables = [&mut lines, &mut links, directory];
            draw_lines(terrain, figure, rule, tables, floats, rings);
        }
        #[cfg(not(feature = "lines"))]
        Points::Floats(_) => unreachable!("no lines in the library"),
        Points::Words(words) => call!(
            terrain,
            figure,
            rule,
            [contour_rings, contour_contours, contour_isobands],
            lines.as_mut_ptr(),
            lines.len(),
            links.as_mut_ptr(),
            links.len(),
            words.as_mut_ptr(),
            words.len(),
            directory.as_mut_ptr(),
            directory.len(),
            rings
        ),
    }
    drawn
}

/// Smoothed and placed lines, into open table, link table, directory and points.
#[cfg(feature = "lines")]
fn draw_lines(
    terrain: &Terrain,
    figure: Figure,
    rule: Rule,
    [lines, links, directory]: [&mut Vec<u32>; 3],
    points: &mut [f64],
    rings: &mut u32,
) {
    use crate::terrains::{ORIGIN, STEP};
    let number = unsafe {
        contour_lines(
            terrain.values.as_ptr(),
            terrain.values.len(),
            figure.thresholds()[0],
            rule.0,
            terrain.dx,
            terrain.dy,
            1,
            ORIGIN[0],
            ORIGIN[1],
            STEP[0],
            STEP[1],
            lines.as_mut_ptr(),
            lines.len(),
            links.as_mut_ptr(),
            links.len(),
            points.as_mut_ptr(),
            points.len(),
            directory.as_mut_ptr(),
            directory.len(),
            rings,
        )
    };
    assert!(number == 0, "refusal {number}");
}

/// Calls a function that reads the ring set of a contour or band, with what else it takes.
#[cfg(feature = "geojson")]
macro_rules! call_on_set {
    ($drawn:expr, $function:ident $(, $rest:expr)*) => {{
        let words = match &$drawn.points {
            Points::Words(words) => words,
            Points::Floats(_) => unreachable!("lines are no ring set"),
        };
        let directory = &$drawn.directory;
        let number = unsafe {
            $function(words.as_ptr(), words.len(), directory.as_ptr(), directory.len(), $drawn.rings $(, $rest)*)
        };
        assert!(number == 0, "refusal {number}");
    }};
}

/// The text of a contour or band: its length sizes the room, then it is written.
#[cfg(feature = "geojson")]
pub fn text(drawn: &Drawn) -> Vec<u8> {
    let mut length = 0;
    call_on_set!(drawn, contour_geojson_length, &mut length);
    let mut text = vec![0; length as usize];
    call_on_set!(
        drawn,
        contour_geojson,
        text.as_mut_ptr(),
        text.len(),
        &mut length
    );
    text
}

#[cfg(not(feature = "geojson"))]
pub fn text(_: &Drawn) -> Vec<u8> {
    unreachable!("no writer in the library")
}

/// The check of a contour or band, which reads every point.
#[cfg(feature = "why")]
pub fn check(drawn: &Drawn) {
    call_on_set!(drawn, contour_check);
}

/// The class and the owner of a ring, worked out anew.
#[cfg(feature = "why")]
pub fn fate(drawn: &Drawn, ring: u32) -> [u32; 2] {
    let (mut class, mut owner, mut vertex) = (0, 0, 0);
    call_on_set!(
        drawn,
        contour_ring_fate,
        ring,
        &mut class,
        &mut owner,
        &mut vertex
    );
    [class, owner]
}
