//! The entries that draw, and their calls with what they are asked and the tables that they are lent. This stands
//! above `kinds`, `points`, `lent` and `asked`, none of which knows an entry.

use crate::asked::Asked;
use crate::declared::*;
use crate::kinds::Kind;
use crate::lent::{Lent, Table, DIRECTORY, LINES, LINKS, PEAK, POINTS, RINGS, SEGMENTS};
use crate::rings::Grid;

#[derive(Clone, Copy, PartialEq)]
pub enum Step {
    FirstReport,
    SecondReport,
    Build,
}

#[derive(Clone, Copy, PartialEq)]
pub struct Entry {
    pub kind: Kind,
    pub step: Step,
}

impl Entry {
    /// The entries of a kind. The reports of contours and lines are those of rings.
    pub fn all_of(kind: Kind) -> impl Iterator<Item = Entry> {
        let steps: &[Step] = match kind {
            Kind::Contours | Kind::Lines => &[Step::Build],
            _ => &[Step::FirstReport, Step::SecondReport, Step::Build],
        };
        steps.iter().map(move |&step| Entry { kind, step })
    }

    /// The tables that it is lent, in the order of their refusals.
    pub fn tables(self) -> &'static [Table] {
        match self.step {
            Step::FirstReport => &[],
            Step::SecondReport => &Table::ALL[..2],
            Step::Build => &Table::ALL,
        }
    }

    pub fn name(self) -> &'static str {
        match (self.kind, self.step) {
            (Kind::Bands, Step::FirstReport) => "contour_band_first_report",
            (Kind::Bands, Step::SecondReport) => "contour_band_second_report",
            (_, Step::FirstReport) => "contour_first_report",
            (_, Step::SecondReport) => "contour_second_report",
            (Kind::Rings, Step::Build) => "contour_rings",
            (Kind::Contours, Step::Build) => "contour_contours",
            (Kind::Bands, Step::Build) => "contour_isobands",
            (Kind::Lines, Step::Build) => "contour_lines",
        }
    }
}

/// Calls one of three functions, for rings, contours or a band, with what is asked and what else it takes.
/// The last two are called only where the library has them.
macro_rules! call {
    ($asked:expr, [$rings:ident, $contours:ident, $band:ident], $($rest:expr),*) => {{
        let Grid { threshold, rule, dx, dy, .. } = *$asked.grid;
        let (values, count) = ($asked.values.at().cast(), $asked.values.count());
        match $asked.kind {
            Kind::Rings => unsafe { $rings(values, count, threshold, rule.0, dx, dy, $($rest),*) },
            #[cfg(feature = "regions")]
            Kind::Contours => unsafe { $contours(values, count, threshold, rule.0, dx, dy, $($rest),*) },
            #[cfg(feature = "regions")]
            Kind::Bands => {
                let (list, k) = (&$asked.list, $asked.pair.map_or(0, |pair| pair.k));
                let (list, places) = (list.at().cast(), list.count());
                unsafe { $band(values, count, list, places, rule.0, k, dx, dy, $($rest),*) }
            }
            _ => unreachable!("no such entry in the library"),
        }
    }};
}

/// Calls an entry with what is lent and returns its number.
pub fn call(entry: Entry, asked: &Asked, lent: &mut Lent) -> u32 {
    let [lines_words, links_words, points_words, directory_words] = lent.room.0;
    match entry.step {
        Step::FirstReport => call!(
            asked,
            [
                contour_first_report,
                contour_first_report,
                contour_band_first_report
            ],
            lent.at(SEGMENTS),
            lent.at(PEAK)
        ),
        Step::SecondReport => call!(
            asked,
            [
                contour_second_report,
                contour_second_report,
                contour_band_second_report
            ],
            lent.at(LINES),
            lines_words,
            lent.at(LINKS),
            links_words,
            lent.at(SEGMENTS),
            lent.at(RINGS),
            lent.at(PEAK),
            lent.at(POINTS)
        ),
        Step::Build if asked.kind == Kind::Lines => draw_lines(asked, lent),
        Step::Build => call!(
            asked,
            [contour_rings, contour_contours, contour_isobands],
            lent.at(LINES),
            lines_words,
            lent.at(LINKS),
            links_words,
            lent.words(),
            points_words,
            lent.at(DIRECTORY),
            directory_words,
            lent.at(RINGS)
        ),
    }
}

/// `contour_lines`, which is called only where the library has it.
#[cfg(feature = "lines")]
fn draw_lines(asked: &Asked, lent: &mut Lent) -> u32 {
    let Grid {
        threshold,
        rule,
        dx,
        dy,
        ..
    } = *asked.grid;
    let [lines_words, links_words, points_words, directory_words] = lent.room.0;
    let pen = asked.pen.expect("lines have a pen");
    let [x_origin, y_origin, x_step, y_step] = pen.placement;
    unsafe {
        contour_lines(
            asked.values.at().cast(),
            asked.values.count(),
            threshold,
            rule.0,
            dx,
            dy,
            pen.smooth,
            x_origin,
            y_origin,
            x_step,
            y_step,
            lent.at(LINES),
            lines_words,
            lent.at(LINKS),
            links_words,
            lent.floats(),
            points_words,
            lent.at(DIRECTORY),
            directory_words,
            lent.at(RINGS),
        )
    }
}

#[cfg(not(feature = "lines"))]
fn draw_lines(_: &Asked, _: &mut Lent) -> u32 {
    unreachable!("no lines in the library")
}
