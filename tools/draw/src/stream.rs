//! Rings as they close, a feature a line, drawn while the terrain is read: what is held is one line of the file, one
//! row, and the rings that are unfinished, and never the terrain.

use crate::failure::Failure;
use crate::fields::{Fault, Line};
use crate::geojson;
use crate::levels::Slice;
use crate::options::Options;
use crate::reader::{Reader, Shape, Taker, Unread};
use crate::{shapes, source, terrain};
use nigrulent::{Placement, Refusal, Rings, Rows, SIDE_LIMIT};
use std::io::{BufRead, ErrorKind, Write};

/// A line has no more bytes than this, which is far more than the longest row takes.
const LONGEST: usize = 1 << 20;

/// Reads the file line by line, and writes each ring of each slice when it closes.
pub fn write(out: &mut dyn Write, slices: &[Slice], options: &Options) -> Result<(), Failure> {
    let mut lines = Lines {
        file: source::open(&options.file)?,
        bytes: Vec::new(),
        number: 0,
        ended: false,
    };
    let mut drawing = Drawing {
        out,
        options,
        slices,
        shape: None,
        placement: None,
        rows: Vec::new(),
        taken: 0,
    };
    let mut reader = Reader::new();
    while lines.read()? {
        reader.line(lines.line()?, &mut drawing)?;
    }
    reader.finish(lines.line()?, &mut drawing)?;
    drawing.finish()
}

/// The lines of a file, of which one is held. They are those that `fields::lines` gives of a text.
struct Lines {
    file: Box<dyn BufRead>,
    bytes: Vec<u8>,
    number: usize,
    ended: bool,
}

impl Lines {
    /// Reads the next line. Whether there is one: the first there always is.
    fn read(&mut self) -> Result<bool, String> {
        if self.ended {
            return Ok(false);
        }
        self.bytes.clear();
        self.number += 1;
        loop {
            let end = self.read_part()?;
            if self.bytes.len() > LONGEST {
                let number = self.number;
                return Err(format!(
                    "line {number} has more than {LONGEST} bytes, and --stream holds a line at a time"
                ));
            }
            match end {
                Some(b'\r') => {
                    // A line feed belongs to it, and behind the last one there is no line.
                    match self.peek()? {
                        Some(b'\n') => self.file.consume(1),
                        next => self.ended = next.is_none(),
                    }
                    return Ok(true);
                }
                Some(_) => return Ok(true),
                None => self.ended = self.peek()?.is_none(),
            }
            if self.ended {
                return Ok(true);
            }
        }
    }

    /// Adds what is at hand of the line. Gives the byte that ends it, if it is there.
    fn read_part(&mut self) -> Result<Option<u8>, String> {
        self.peek()?;
        let part = self.file.fill_buf().map_err(|error| error.to_string())?;
        let end = part.iter().position(|byte| matches!(byte, b'\n' | b'\r'));
        let length = end.unwrap_or(part.len());
        self.bytes.extend_from_slice(&part[..length]);
        let ends_by = end.map(|at| part[at]);
        self.file.consume(length + usize::from(end.is_some()));
        Ok(ends_by)
    }

    /// The next byte, if there is one, which stays.
    fn peek(&mut self) -> Result<Option<u8>, String> {
        loop {
            match self.file.fill_buf() {
                Ok(part) => return Ok(part.first().copied()),
                Err(error) if error.kind() == ErrorKind::Interrupted => (),
                Err(error) => return Err(error.to_string()),
            }
        }
    }

    /// The line that was read last.
    fn line(&self) -> Result<Line<'_>, Unread> {
        let text = std::str::from_utf8(&self.bytes).map_err(|error| {
            let before = String::from_utf8_lossy(&self.bytes[..error.valid_up_to()]);
            Unread::Foreign(Fault {
                line: self.number,
                column: before.chars().count() + 1,
                what: "this is not text".to_owned(),
            })
        })?;
        let mark = if self.number == 1 { "\u{feff}" } else { "" };
        let text = text.strip_prefix(mark).unwrap_or(text);
        Ok(Line::new(text, self.number))
    }
}

/// The unfinished rings of each slice.
struct Drawing<'a> {
    out: &'a mut dyn Write,
    options: &'a Options,
    slices: &'a [Slice],
    shape: Option<Shape>,
    placement: Option<Placement>,
    rows: Vec<Rows>,
    taken: usize,
}

impl Taker for Drawing<'_> {
    type Error = Failure;

    fn begin(&mut self, shape: Shape) -> Result<(), Failure> {
        let Shape { dx, dy, placement } = shape;
        if dy.is_none() && dx > SIDE_LIMIT {
            return Err(format!("a row has {dx} numbers, and a side is 1 to 4,096").into());
        }
        // Where nothing says how many rows there are, there is room for as many as there may be.
        let dy = dy.unwrap_or(SIDE_LIMIT);
        terrain::check_sides(dx, dy)?;
        self.shape = Some(shape);
        self.placement = self.options.place.placement(placement);
        terrain::check_placement(dx, dy, self.placement)?;
        for slice in self.slices {
            let (_, level) = shapes::sheet(&[], *slice);
            self.rows.push(Rows::begin(level, dx, dy)?);
        }
        Ok(())
    }

    fn row(&mut self, values: &[f64]) -> Result<(), Failure> {
        if self.taken == SIDE_LIMIT {
            return Err("there are more than 4,096 rows".to_owned().into());
        }
        self.taken += 1;
        self.advance(|rows, slice| rows.push(&shapes::sheet(values, slice).0))
    }
}

impl Drawing<'_> {
    /// The rings that close at the lower edge. Where more rows would have been taken, a row of no numbers, which is
    /// nowhere in a slice, stands for the edge.
    fn finish(&mut self) -> Result<(), Failure> {
        let dx = self.shape.map_or(0, |shape| shape.dx);
        let below = vec![f64::NAN; dx];
        let taken = self.taken;
        self.advance(|rows, _| match taken < rows.dy() {
            true => rows.push(&below),
            false => rows.finish(),
        })
    }

    /// Goes on with each slice, and writes what closes.
    fn advance(
        &mut self,
        step: impl for<'r> Fn(&'r mut Rows, Slice) -> Result<Rings<'r>, Refusal>,
    ) -> Result<(), Failure> {
        let mut closed = false;
        for (rows, slice) in self.rows.iter_mut().zip(self.slices) {
            for record in step(rows, *slice)?.records() {
                geojson::write_ring_feature(self.out, &record, *slice, self.placement)?;
                closed = true;
            }
        }
        // Who reads them has them at once.
        match closed {
            true => Ok(self.out.flush()?),
            false => Ok(()),
        }
    }
}
