//! Draws the contours, the bands or the lines of a terrain that it reads from a file, and writes them as GeoJSON,
//! as a picture or as counts, or says what became of their rings: help.txt. The library draws, explains, and writes
//! the GeoJSON of polygons in grid units.

mod axis;
mod called;
mod colours;
mod counts;
mod failure;
mod fields;
mod frame;
mod gdal;
mod geojson;
mod header;
mod layout;
mod legend;
mod levels;
mod options;
mod paths;
mod picture;
mod png;
mod reader;
mod shapes;
mod source;
mod stream;
mod terrain;
mod why;
mod words;

use failure::Failure;
use options::{Command, Form, Options};
use std::env;
use std::io::{self, BufWriter, ErrorKind, Write};
use std::process::ExitCode;

/// The exit statuses of what cannot be read or drawn, and of a faulty command.
const FAILED: u8 = 1;
const MISUSED: u8 = 2;

fn main() -> ExitCode {
    let name = called::name();
    let done = match options::parse(env::args_os().skip(1)) {
        Ok(Command::Help) => print(&called::help()),
        Ok(Command::Version) => print(&called::version()),
        Ok(Command::Draw(options)) => draw(&options),
        Err(fault) => {
            eprintln!("{name}: {fault}\nTry '{name} --help'.");
            return ExitCode::from(MISUSED);
        }
    };
    let sentence = match done {
        Ok(()) => return ExitCode::SUCCESS,
        // A reader that has enough and closes the pipe is no failure.
        Err(Failure::Output(error)) if error.kind() == ErrorKind::BrokenPipe => {
            return ExitCode::SUCCESS;
        }
        Err(Failure::Output(error)) => format!("output: {error}"),
        Err(Failure::Said(sentence)) => sentence,
    };
    eprintln!("{name}: {sentence}");
    ExitCode::from(FAILED)
}

fn print(text: &str) -> Result<(), Failure> {
    Ok(io::stdout().write_all(text.as_bytes())?)
}

/// Reads, draws and writes. What is said of the terrain begins with its file's name.
fn draw(options: &Options) -> Result<(), Failure> {
    let name = source::name(&options.file);
    let of_file = |sentence: String| Failure::Said(format!("{name}: {sentence}"));
    let mut out = BufWriter::with_capacity(1 << 16, io::stdout().lock());
    let written = match options.form {
        Form::Stream => draw_stream(&mut out, options),
        _ => draw_whole(&mut out, options),
    };
    match written {
        Err(Failure::Said(sentence)) => Err(of_file(sentence)),
        written => written.and_then(|()| Ok(out.flush()?)),
    }
}

/// Rings while the terrain is read.
fn draw_stream(out: &mut dyn Write, options: &Options) -> Result<(), Failure> {
    // None of the heights goes by the samples: options sees to it.
    let slices = options.wanted.slices(&[])?;
    stream::write(out, &slices, options)
}

/// A figure of the whole terrain.
fn draw_whole(out: &mut dyn Write, options: &Options) -> Result<(), Failure> {
    let mut terrain = source::read(&options.file)?;
    terrain.placement = options.place.placement(terrain.placement);
    terrain::check_placement(terrain.dx, terrain.dy, terrain.placement)?;
    let slices = options.wanted.slices(&terrain.values)?;
    match options.form {
        Form::Svg => picture::write(out, &terrain, &slices, options),
        Form::Png => png::write(|out| picture::write(out, &terrain, &slices, options)),
        Form::Counts => counts::write(out, &terrain, &slices, options),
        Form::Why(ring) => why::write(out, &terrain, &slices, ring),
        Form::GeoJson | Form::Stream => geojson::write(out, &terrain, &slices, options),
    }
}
