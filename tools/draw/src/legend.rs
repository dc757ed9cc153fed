//! The legend of a picture: a colour for each slice and what it stands for, and what lies in none.

use crate::colours;
use crate::layout::{Layout, GAP, LETTER, LETTER_WIDTH};
use crate::levels::Slice;
use crate::options::Figure;
use nigrulent::{Level, Rule};
use std::io::{self, Write};

/// The width of a patch of colour, and what a text is away from it.
const PATCH: f64 = 18.0;
const AWAY: f64 = 8.0;
/// The height of a row, and the least that a text takes.
const ROW: f64 = 20.0;
const LEAST: f64 = 14.0;
/// The height of a patch that stands for a line.
const LINE: f64 = 2.0;

/// A row of the legend.
struct Row {
    fill: String,
    text: String,
}

/// The rows, from above: those of the slices, and those of the rest.
pub struct Legend {
    slices: Vec<Row>,
    rest: Vec<Row>,
    /// Slices are lines, and not regions.
    lines: bool,
}

impl Legend {
    /// The legend of these slices, with or without a row for samples that are no numbers.
    pub fn new(slices: &[Slice], figure: Figure, no_data: bool) -> Self {
        let lines = matches!(figure, Figure::Lines { .. });
        let (rows, mut rest) = match lines {
            true => (line_rows(&levels(slices)), Vec::new()),
            false => (region_rows(slices), vec![ground_row(slices)]),
        };
        if no_data {
            rest.push(Row {
                fill: "url(#no-data)".to_owned(),
                text: "no data".to_owned(),
            });
        }
        Legend {
            slices: rows,
            rest,
            lines,
        }
    }

    /// How wide its rows are.
    pub fn width(&self) -> f64 {
        let rows = self.slices.iter().chain(&self.rest);
        let letters = rows.map(|row| row.text.chars().count()).max();
        PATCH + AWAY + letters.unwrap_or(0) as f64 * LETTER_WIDTH
    }

    /// Writes the rows beside the map.
    pub fn write(&self, out: &mut dyn Write, layout: &Layout) -> io::Result<()> {
        let room = layout.map_height - self.rest.len() as f64 * ROW;
        let row = (room / self.slices.len().max(1) as f64).clamp(0.01, ROW);
        self.write_slices(out, layout, row)?;
        let (x, below) = (
            layout.right() + GAP,
            layout.top + self.slices.len() as f64 * row,
        );
        for (k, rest) in self.rest.iter().enumerate() {
            let y = below + k as f64 * ROW;
            write_patch(out, x, (y + 2.0, ROW - 4.0), &rest.fill, true)?;
            write_text(out, x, y + ROW / 2.0, &rest.text)?;
        }
        Ok(())
    }

    /// Rows of this height for the slices. Where there is no room for all texts, every second or third has one.
    fn write_slices(&self, out: &mut dyn Write, layout: &Layout, row: f64) -> io::Result<()> {
        let every = (LEAST / row).ceil() as usize;
        let x = layout.right() + GAP;
        for (k, slice) in self.slices.iter().enumerate() {
            let y = layout.top + k as f64 * row;
            let patch = match (self.lines, row < LEAST) {
                (true, _) => (y + (row - LINE.min(row)) / 2.0, LINE.min(row)),
                (false, true) => (y, row),
                (false, false) => (y + 2.0, row - 4.0),
            };
            let outlined = !self.lines && row >= LEAST;
            write_patch(out, x, patch, &slice.fill, outlined)?;
            if k % every == 0 {
                write_text(out, x, y + row / 2.0, &slice.text)?;
            }
        }
        Ok(())
    }
}

fn write_patch(
    out: &mut dyn Write,
    x: f64,
    (y, height): (f64, f64),
    fill: &str,
    outlined: bool,
) -> io::Result<()> {
    let outline = match outlined {
        true => format!(" stroke=\"{}\" stroke-width=\"0.5\"", colours::INK),
        false => String::new(),
    };
    writeln!(
        out,
        "<rect x=\"{x:.1}\" y=\"{y:.2}\" width=\"{PATCH}\" height=\"{height:.2}\" fill=\"{fill}\"{outline}/>"
    )
}

fn write_text(out: &mut dyn Write, x: f64, middle: f64, text: &str) -> io::Result<()> {
    let (x, y) = (x + PATCH + AWAY, middle + LETTER * 0.35);
    writeln!(out, "<text x=\"{x:.1}\" y=\"{y:.1}\">{text}</text>")
}

/// All levels of some slices, each once.
pub fn levels(slices: &[Slice]) -> Vec<Level> {
    let mut levels = Vec::new();
    for slice in slices {
        match *slice {
            Slice::Above(level) => levels.push(level),
            Slice::Between(low, high) => levels.extend([low, high]),
        }
    }
    levels.dedup();
    levels
}

fn line_rows(levels: &[Level]) -> Vec<Row> {
    let rows = levels.iter().enumerate().map(|(k, level)| Row {
        fill: colours::of_line(k, levels.len()),
        text: level.threshold.to_string(),
    });
    rows.rev().collect()
}

/// A slice that is above a level is seen up to the next one.
fn region_rows(slices: &[Slice]) -> Vec<Row> {
    let seen = |k: usize| match (slices[k], slices.get(k + 1)) {
        (Slice::Above(level), Some(Slice::Above(next))) => Slice::Between(level, *next),
        (slice, _) => slice,
    };
    let rows = (0..slices.len()).map(|k| Row {
        fill: colours::of_region(k, slices.len()),
        text: seen(k).to_string(),
    });
    rows.rev().collect()
}

/// What is not above the lowest level, or in no band.
fn ground_row(slices: &[Slice]) -> Row {
    let text = match slices.first() {
        Some(Slice::Above(level)) => match level.rule {
            Rule::AtLeast => format!("below {}", level.threshold),
            Rule::MoreThan => format!("{} and below", level.threshold),
        },
        Some(Slice::Between(..)) => "elsewhere".to_owned(),
        None => "all heights".to_owned(),
    };
    Row {
        fill: colours::GROUND.to_owned(),
        text,
    }
}
