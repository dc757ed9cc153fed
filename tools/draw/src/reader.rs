//! The text of a terrain, an ESRI ASCII grid or rows of numbers, read line by line and handed on row by row. Comments
//! may stand ahead of the numbers.

use crate::fields::{Fault, Field, Line};
use crate::header::{Header, Word, Words};
use nigrulent::Placement;
use std::fmt;

/// Why a text is no terrain.
#[derive(Debug, PartialEq)]
pub enum Unread {
    /// It does not begin as one, or is no text, so it may be something that GDAL reads.
    Foreign(Fault),
    Fault(Fault),
    /// The library takes no such columns and rows.
    Sides(usize, usize),
}

impl From<Fault> for Unread {
    fn from(fault: Fault) -> Self {
        Unread::Fault(fault)
    }
}

impl fmt::Display for Unread {
    fn fmt(&self, f: &mut fmt::Formatter) -> fmt::Result {
        match self {
            Unread::Foreign(fault) | Unread::Fault(fault) => fault.fmt(f),
            Unread::Sides(dx, dy) => write!(
                f,
                "the terrain has {dx} columns and {dy} rows, and a side is 1 to 4,096"
            ),
        }
    }
}

/// What is known of a terrain before its first row.
#[derive(Clone, Copy)]
pub struct Shape {
    pub dx: usize,
    /// How many rows there are, where a header says so.
    pub dy: Option<usize>,
    /// Where it stands on the map, where a header says so.
    pub placement: Option<Placement>,
}

/// Who is handed the rows.
pub trait Taker {
    type Error: From<Unread>;

    /// Before the first row, or where a header is not followed by any.
    fn begin(&mut self, shape: Shape) -> Result<(), Self::Error>;

    /// A row, of as many values as the shape says.
    fn row(&mut self, values: &[f64]) -> Result<(), Self::Error>;
}

/// How far a text has been read.
pub struct Reader {
    stage: Stage,
    /// The numbers of the row that is being read.
    row: Vec<f64>,
}

enum Stage {
    /// Ahead of the numbers: the words of a header, if there are any, and the one that wants a value.
    Head(Option<Words>, Option<Word>),
    /// So many numbers of a grid have been read.
    Grid(Header, usize),
    /// Rows of so many numbers.
    Rows(Option<usize>),
}

impl Reader {
    pub fn new() -> Self {
        Reader {
            stage: Stage::Head(None, None),
            row: Vec::new(),
        }
    }

    /// Reads a line, and hands on the rows that it completes.
    pub fn line<T: Taker>(&mut self, line: Line, taker: &mut T) -> Result<(), T::Error> {
        match &mut self.stage {
            Stage::Head(words, open) => match read_head(line, words, open)? {
                Some(rest) => {
                    self.begin(line.number, taker)?;
                    self.line(rest, taker)
                }
                None => Ok(()),
            },
            Stage::Grid(header, count) => read_grid(line, header, count, &mut self.row, taker),
            Stage::Rows(_) if line.text.trim().is_empty() => Ok(()),
            Stage::Rows(length) => read_row(line, length, &mut self.row, taker),
        }
    }

    /// Looks whether the text was complete. It ends with this line.
    pub fn finish<T: Taker>(mut self, end: Line, taker: &mut T) -> Result<(), T::Error> {
        if let Stage::Head(_, open) = &self.stage {
            if let Some(word) = open {
                return Err(at_end(end, word.without_value()));
            }
            self.begin(end.number, taker)?;
        }
        match self.stage {
            Stage::Grid(Header { ncols, nrows, .. }, count) if count < ncols * nrows => {
                let what = format!("the file ends after {count} of {} numbers", ncols * nrows);
                Err(at_end(end, what))
            }
            Stage::Rows(None) => Err(at_end(end, "the file has no numbers".to_owned())),
            _ => Ok(()),
        }
    }

    /// Goes on to the numbers, which begin in a line: those of a grid, if there is a header.
    fn begin<T: Taker>(&mut self, line: usize, taker: &mut T) -> Result<(), T::Error> {
        self.stage = match &self.stage {
            Stage::Head(Some(words), _) => {
                let header = words.finish(line).map_err(Unread::from)?;
                taker.begin(Shape {
                    dx: header.ncols,
                    dy: Some(header.nrows),
                    placement: Some(header.placement),
                })?;
                Stage::Grid(header, 0)
            }
            _ => Stage::Rows(None),
        };
        Ok(())
    }
}

fn at_end<E: From<Unread>>(end: Line, what: String) -> E {
    Unread::from(end.fault_at_end(what)).into()
}

/// Reads the words of a header with their values. Gives the line from the first number on, where there is one.
fn read_head<'a>(
    line: Line<'a>,
    words: &mut Option<Words>,
    open: &mut Option<Word>,
) -> Result<Option<Line<'a>>, Unread> {
    for field in line.before_comment().words() {
        if let Some(word) = open.take() {
            words
                .get_or_insert_with(Words::default)
                .take(&word, field)?;
        } else if begins_numbers(&field) {
            return Ok(Some(line.from(&field)));
        } else {
            *open = Some(Word::of(&field).ok_or_else(|| unknown(&field, words.is_none()))?);
        }
    }
    Ok(None)
}

/// Whether the numbers begin with this word: it is one, up to a comma, or a comma before which one is missing.
fn begins_numbers(word: &Field) -> bool {
    let first = word.text.split(',').next().unwrap_or("");
    first.is_empty() || first.parse::<f64>().is_ok()
}

/// A word that is neither a number nor of a header. Where it is the first, the text may be of another kind.
fn unknown(word: &Field, is_first: bool) -> Unread {
    let what = "is neither a number nor a header word of an ESRI ASCII grid";
    let fault = word.fault(format!("{} {what}", word.shown()));
    match is_first {
        true => Unread::Foreign(fault),
        false => Unread::Fault(fault),
    }
}

/// As many numbers as the header says, however they are spread over lines.
fn read_grid<T: Taker>(
    line: Line,
    header: &Header,
    count: &mut usize,
    row: &mut Vec<f64>,
    taker: &mut T,
) -> Result<(), T::Error> {
    let Header { ncols, nrows, .. } = *header;
    for field in line.fields() {
        let value = field.number().map_err(Unread::from)?;
        if *count == ncols * nrows {
            let what = format!("there are more numbers than {ncols} columns by {nrows} rows");
            return Err(Unread::from(field.fault(what)).into());
        }
        row.push(match header.nodata {
            Some(nodata) if is_nodata(value, nodata) => f64::NAN,
            _ => value,
        });
        *count += 1;
        if row.len() == ncols {
            taker.row(row)?;
            row.clear();
        }
    }
    Ok(())
}

/// As GDAL compares: a value is the one that stands for no data to about single precision, so it is so too when
/// it was rounded and printed by another program.
fn is_nodata(value: f64, nodata: f64) -> bool {
    let near = 2.0 * f64::from(f32::EPSILON) * (value + nodata).abs();
    value == nodata || (value - nodata).abs() < near
}

/// A row as long as the first.
fn read_row<T: Taker>(
    line: Line,
    length: &mut Option<usize>,
    row: &mut Vec<f64>,
    taker: &mut T,
) -> Result<(), T::Error> {
    row.clear();
    for field in line.fields() {
        let value = field.number().map_err(Unread::from)?;
        if *length == Some(row.len()) {
            let what = format!("the row has more numbers than {}", row.len());
            return Err(Unread::from(field.fault(what)).into());
        }
        row.push(value);
    }
    match *length {
        Some(length) if row.len() < length => {
            let what = format!("the row ends after {} of {length} numbers", row.len());
            return Err(at_end(line, what));
        }
        Some(_) => (),
        None => {
            *length = Some(row.len());
            taker.begin(Shape {
                dx: row.len(),
                dy: None,
                placement: None,
            })?;
        }
    }
    taker.row(row)
}
