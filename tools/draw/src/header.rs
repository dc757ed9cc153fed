//! The header of an ESRI ASCII grid: words in any order, each with a value, as GDAL takes them.

use crate::fields::{Fault, Field};
use nigrulent::Placement;
use std::num::IntErrorKind;

/// What the header says.
pub struct Header {
    pub ncols: usize,
    pub nrows: usize,
    pub nodata: Option<f64>,
    /// Where lines and polygons of the grid stand on the map.
    pub placement: Placement,
}

/// Where the grid begins in the west or in the south: the side itself, or the centre of the cells there.
#[derive(Clone, Copy)]
enum Side {
    Corner(f64),
    Center(f64),
}

impl Side {
    fn corner(self, cell: f64) -> f64 {
        match self {
            Side::Corner(at) => at,
            Side::Center(at) => at - cell / 2.0,
        }
    }
}

/// A word of the header: its name in small letters, and where it stands.
pub struct Word {
    name: String,
    text: String,
    line: usize,
    column: usize,
}

impl Word {
    /// The word in a field, if it is one of a header.
    pub fn of(field: &Field) -> Option<Self> {
        const KNOWN: [&str; 10] = [
            "ncols",
            "nrows",
            "xllcorner",
            "xllcenter",
            "yllcorner",
            "yllcenter",
            "cellsize",
            "dx",
            "dy",
            "nodata_value",
        ];
        let name = field.text.to_lowercase();
        let Fault { line, column, .. } = field.fault(String::new());
        KNOWN.contains(&name.as_str()).then(|| Word {
            name,
            text: field.text.to_owned(),
            line,
            column,
        })
    }

    /// What is said where the text ends behind the word.
    pub fn without_value(&self) -> String {
        format!("{} has no value", self.text)
    }
}

/// The header words read so far.
#[derive(Default)]
pub struct Words {
    ncols: Option<usize>,
    nrows: Option<usize>,
    x: Option<Side>,
    y: Option<Side>,
    cellsize: Option<f64>,
    dx: Option<f64>,
    dy: Option<f64>,
    nodata: Option<f64>,
}

impl Words {
    /// Takes a word of the header and its value.
    pub fn take(&mut self, word: &Word, value: Field) -> Result<(), Fault> {
        match word.name.as_str() {
            "ncols" => put(&mut self.ncols, word, whole(value)?),
            "nrows" => put(&mut self.nrows, word, whole(value)?),
            "xllcorner" => put(&mut self.x, word, Side::Corner(finite(value)?)),
            "xllcenter" => put(&mut self.x, word, Side::Center(finite(value)?)),
            "yllcorner" => put(&mut self.y, word, Side::Corner(finite(value)?)),
            "yllcenter" => put(&mut self.y, word, Side::Center(finite(value)?)),
            "cellsize" => put(&mut self.cellsize, word, size(value)?),
            "dx" => put(&mut self.dx, word, size(value)?),
            "dy" => put(&mut self.dy, word, size(value)?),
            _ => put(&mut self.nodata, word, value.number()?),
        }
    }

    /// The header, complete, before a line of numbers.
    pub fn finish(&self, line: usize) -> Result<Header, Fault> {
        let missing = |word: &str| Fault {
            line,
            column: 1,
            what: format!("the header before this line has no {word}"),
        };
        let nrows = self.nrows.ok_or_else(|| missing("nrows"))?;
        Ok(Header {
            ncols: self.ncols.ok_or_else(|| missing("ncols"))?,
            nrows,
            nodata: self.nodata,
            placement: self.placement(nrows).map_err(missing)?,
        })
    }

    /// Rows run from the north to the south, so a step down is one to the south, from the north side on. A
    /// grid without corners has its north-west corner at 0, 0.
    fn placement(&self, nrows: usize) -> Result<Placement, &'static str> {
        let (x_step, height) = match (self.cellsize, self.dx, self.dy) {
            (Some(size), _, _) => (size, size),
            (None, Some(dx), Some(dy)) => (dx, dy),
            (None, Some(_), None) => return Err("dy"),
            (None, None, Some(_)) => return Err("dx"),
            (None, None, None) => return Err("cellsize"),
        };
        let (x_origin, y_origin) = match (self.x, self.y) {
            (None, None) => (0.0, 0.0),
            (None, _) => return Err("xllcorner or xllcenter"),
            (_, None) => return Err("yllcorner or yllcenter"),
            (Some(x), Some(y)) => (x.corner(x_step), y.corner(height) + nrows as f64 * height),
        };
        Ok(Placement {
            x_origin,
            y_origin,
            x_step,
            y_step: -height,
        })
    }
}

/// Notes the value of a header word that must not be there already.
fn put<T>(place: &mut Option<T>, word: &Word, value: T) -> Result<(), Fault> {
    match place.replace(value) {
        Some(_) => Err(Fault {
            line: word.line,
            column: word.column,
            what: format!("{} is given a second time", word.text),
        }),
        None => Ok(()),
    }
}

/// A whole number; one that no word can hold is as good as the largest.
fn whole(field: Field) -> Result<usize, Fault> {
    field
        .text
        .parse()
        .or_else(|error: std::num::ParseIntError| match error.kind() {
            IntErrorKind::PosOverflow => Ok(usize::MAX),
            _ => Err(field.fault(format!("{} is not a whole number", field.shown()))),
        })
}

fn finite(field: Field) -> Result<f64, Fault> {
    match field.number()? {
        number if number.is_finite() => Ok(number),
        _ => Err(field.fault(format!("{} is not a finite number", field.shown()))),
    }
}

fn size(field: Field) -> Result<f64, Fault> {
    match finite(field)? {
        size if size > 0.0 => Ok(size),
        _ => Err(field.fault(format!("{} is not above 0", field.shown()))),
    }
}
